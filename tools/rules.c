#include "rules.h"

#include "../include/gowashiru.h"
#include "standings.h"

#include <inttypes.h>
#include <stdio.h>
#include <string.h>

/* What depends on whether levels count down, as in a schedule, or up, as in a listing. */
struct wording {
    const char *modulus, *levels, *input, *encoding_above, *past_last, *upscale_above, *above, *below;
};

static const struct wording falling = {
    .modulus = "F*level",
    .levels = "`ms A C` takes C levels, `rs A C` takes C levels and F*C bits of the scale",
    .input = "An input has scale W and level L",
    .encoding_above = "Encode at a smaller scale S or at a higher level E",
    .past_last = "The lowest level is 1",
    .upscale_above = "Raise it by less, or where the level is higher",
    .above = "Lower the scale with `rs` before, keep to a higher level, or give the header a greater L",
    .below = "Raise the scale with `us` before, or rescale less",
};

static const struct wording rising = {
    .modulus = "F*(L - level)",
    .levels = "`ms A C` adds C levels, `rs A C` adds C levels and takes F*C bits of the scale, `ds A` adds one level and leaves scale W",
    .input = "An input has scale W and level 0",
    .encoding_above = "Encode at a smaller scale S or at a lower level E",
    .past_last = "The highest level is L - 1",
    .upscale_above = "Raise it by less, or where the level is lower",
    .above = "Lower the scale with `rs` or `ds` before, keep to a lower level, or give the header a greater L",
    .below = "Raise the scale with `us` before, or rescale less; `ds A` brings a scale below W + F to W",
};

static const struct wording *wording_of(const struct header *header) {
    return header->is_rising ? &rising : &falling;
}

static void tell_operands(const struct header *header, const struct record *record, const struct standing *held) {
    for (size_t i = 0; i < record->word->count; i++) {
        int64_t value = record->numbers[i];
        if (record->word->fields[i] != OPERAND || (i == 1 && value == record->numbers[0]))
            continue;
        if (held[value].has_scale)
            fprintf(stderr, "  Value %" PRId64 " (line %" PRId64 ") has scale %" PRId64 " and level %" PRId64 ".\n", value, value + 2,
                    held[value].scale, turned_level(header, held[value].level));
    }
}

static void tell_line(const struct header *header, struct standing line, bool is_above) {
    fprintf(stderr, "  This line would have scale %" PRId64 " and level %" PRId64, line.scale, turned_level(header, line.level));
    if (is_above && header->has_headroom)
        fprintf(stderr, ", scale + H = %" PRId64, line.scale + header->headroom);
    fprintf(stderr, "; the waterline W is %" PRId64 ", the modulus at this level %s = %" PRId64 " bits.\n", header->waterline,
            wording_of(header)->modulus, header->factor * line.level);
}

/* Where the modulus holds the scale and only the headroom is too much. */
static void tell_headroom(const struct header *header, int64_t scale, int64_t level) {
    if (header->has_headroom && scale <= header->factor * level)
        fprintf(stderr, "  The scale alone would fit: H = %" PRId64 " keeps a place for numbers below 2^%" PRId64 " in absolute value.\n",
                header->headroom, header->headroom - 1);
}

/* The operand that is an encoded constant, which only its own `enc` line can change, or -1. */
static int encoded_operand(const struct file *file, const struct record *record) {
    struct record named;
    for (int i = 0; i < 2; i++)
        if (record_of(line_at(file, (uint32_t)record->numbers[i] + 2), &named) && strcmp(named.word->name, "enc") == 0)
            return i;
    return -1;
}

static void tell_encoding(const struct header *header, const struct record *record, const struct standing *held, int encoded, bool is_level) {
    struct standing other = held[record->numbers[1 - encoded]];
    fprintf(stderr, "  Value %" PRId64 " is an encoded constant: encode it at %s = %" PRId64 " with `enc A S E`.\n", record->numbers[encoded],
            is_level ? "level E" : "scale S", is_level ? turned_level(header, other.level) : other.scale);
}

static void tell_difference(const struct record *record, const struct standing *held) {
    int64_t difference = held[record->numbers[0]].scale - held[record->numbers[1]].scale;
    fprintf(stderr, "  Raise value %" PRId64 " by %" PRId64 " bits with `us A B`, at the level of both.\n",
            record->numbers[difference > 0 ? 1 : 0], difference > 0 ? difference : -difference);
}

static void tell_bounds_remedy(const struct header *header, bool is_above, const struct word *word, int64_t level) {
    const struct wording *wording = wording_of(header);
    if (strcmp(word->name, "in") == 0)
        fprintf(stderr, "  %s: give the header a greater L, so that F*L is at least %s.\n", wording->input,
                header->has_headroom ? "W + H" : "W");
    else if (strcmp(word->name, "enc") == 0)
        fprintf(stderr, "  %s.\n", is_above ? wording->encoding_above : "Encode at a scale S of at least W");
    else if (level < 1)
        fprintf(stderr, "  %s: give up fewer levels, or give the header a greater L.\n", wording->past_last);
    else if (is_above)
        fprintf(stderr, "  %s.\n", strcmp(word->name, "us") == 0 ? wording->upscale_above : wording->above);
    else
        fprintf(stderr, "  %s.\n", wording->below);
}

static void tell_pair_remedy(const struct refusal *refusal, const struct header *header, const struct record *record,
                             const struct standing *held) {
    bool is_level = refusal->number == GOWASHIRU_LEVELS_DIFFER;
    int encoded = encoded_operand(refusal->file, record);
    if (encoded >= 0)
        tell_encoding(header, record, held, encoded, is_level);
    else if (is_level)
        fprintf(stderr, "  Bring both to one level: %s.\n", wording_of(header)->levels);
    else
        tell_difference(record, held);
}

/* A downscale is an upscale to W + F and a rescale. Where the scale is there already, the rescale alone is legal. */
static void tell_downscale(bool is_too_high, const struct header *header, struct standing operand) {
    int64_t raised = header->waterline + header->factor;
    if (is_too_high) {
        fprintf(stderr, "  `ds` takes a scale below W + F = %" PRId64 ": here `rs A 1` is enough, and leaves scale %" PRId64 ".\n", raised,
                operand.scale - header->factor);
        return;
    }
    fprintf(stderr, "  `ds` raises it to scale W + F = %" PRId64 " first", raised);
    if (header->has_headroom)
        fprintf(stderr, ", W + F + H = %" PRId64, raised + header->headroom);
    fprintf(stderr, ", and the modulus at its level is F*(L - level) = %" PRId64 " bits.\n", header->factor * operand.level);
    tell_headroom(header, raised, operand.level);
    fputs("  Downscale at a lower level, or give the header a greater L.\n", stderr);
}

void tell_broken_rule(const struct refusal *refusal) {
    static struct standing held[SCHEDULE_LINES];
    struct header header;
    struct record record;
    const struct file *file = refusal->file;
    if (!header_of(file, &header) || !work_out(file, refusal->place, held) || !record_of(line_at(file, refusal->place), &record))
        return;
    tell_operands(&header, &record, held);
    if (refusal->number == GOWASHIRU_LEVELS_DIFFER || refusal->number == GOWASHIRU_SCALES_DIFFER) {
        tell_pair_remedy(refusal, &header, &record, held);
        return;
    }
    if (strcmp(record.word->name, "ds") == 0) {
        tell_downscale(refusal->number == GOWASHIRU_TOO_HIGH_FOR_DS, &header, held[record.numbers[0]]);
        return;
    }
    struct standing line = standing_of(&header, &record, held);
    bool is_above = refusal->number == GOWASHIRU_ABOVE_MODULUS;
    tell_line(&header, line, is_above);
    if (is_above)
        tell_headroom(&header, line.scale, line.level);
    tell_bounds_remedy(&header, is_above, record.word, line.level);
}
