#include "refusals.h"

#include "../include/gowashiru.h"
#include "form.h"
#include "operands.h"
#include "rules.h"
#include "show.h"

#include <inttypes.h>
#include <stdio.h>

/* How a number is told: in a few words, whether its line may be of any form, and the lines below the first. */
struct telling {
    const char *title;
    bool any_form;
    void (*tell)(const struct refusal *refusal);
};

static void tell_not_of_the_form(const struct refusal *refusal) {
    tell_form(refusal->file, refusal->place);
}

static void tell_header_number(const struct refusal *refusal) {
    static const char names[] = {'F', 'W', 'L', 'H'};
    struct header header = {.factor = 0};
    header_of(refusal->file, &header);
    const int64_t numbers[] = {header.factor, header.waterline, header.top_level, header.headroom};
    for (size_t i = 0; i < (header.has_headroom ? 4 : 3); i++)
        if (numbers[i] < 1 || numbers[i] > 60)
            fprintf(stderr, "  %c = %" PRId64 ": %s are numbers from 1 to 60.\n", names[i], numbers[i],
                    header.has_headroom ? "F, W, L and H" : "F, W and L");
    if (header.has_headroom && header.headroom == 0)
        fputs("  Where no headroom is wanted, the header ends after L.\n", stderr);
}

/* How many lines after the header, up to this place, have a word whose first kind of file is this one. */
static uint32_t count_words(const struct file *file, uint32_t place, enum file_kind first) {
    size_t at = 0;
    uint32_t count = 0;
    next_line(file, &at);
    for (uint32_t here = 2; here <= place; here++) {
        struct piece line = next_line(file, &at);
        const struct word *word = line.is_there ? word_of(field_at(line, 0)) : NULL;
        count += word != NULL && word->first == first;
    }
    return count;
}

static void tell_lines(const struct refusal *refusal) {
    const struct file *file = refusal->file;
    if (file->kind == CIRCUIT)
        fputs("  A circuit has at most 256 lines after its header: part it in two.\n", stderr);
    else if (refusal->place == SCHEDULE_LINES + 2)
        fprintf(stderr, "  A %s has at most 1,792 lines after its header.\n", kind_names[file->kind]);
    else if (count_words(file, refusal->place, CIRCUIT) > CIRCUIT_LINES)
        fputs("  Erasing keeps the lines with circuit words, and a circuit has at most 256: this is the 257th.\n", stderr);
    else
        fprintf(stderr, "  Each `ds` becomes two lines, and a schedule has at most 1,792 after its header: with this line there are %" PRIu32 ".\n"
                "  One `ds` of a value can serve all lines that need it.\n",
                refusal->place - 1 + count_words(file, refusal->place, LISTING));
}

/* A value or a line that the schedule lacks stands in no line of it, so none is shown. A line has the number of its value. */
static void tell_lacking(const struct refusal *refusal) {
    static uint8_t live[GOWASHIRU_LIVE_BYTES];
    const struct file *schedule = refusal->file;
    uint32_t count = gowashiru_live(schedule->bytes, schedule->length, live, sizeof live).length / GOWASHIRU_LIVE_VALUE_BYTES;
    bool lacks_value = refusal->value != NULL && *refusal->value >= count;
    bool lacks_line = refusal->line != NULL && *refusal->line >= count;
    fprintf(stderr, "%s: the schedule lacks", schedule->name);
    if (lacks_value)
        fprintf(stderr, " value %" PRIu32, *refusal->value);
    if (lacks_line)
        fprintf(stderr, "%s line %" PRIu32, lacks_value ? " and" : "", *refusal->line);
    fprintf(stderr, " (refusal %" PRIu32 ")\n", refusal->number);
    if (count == 0)
        fputs("  It has a header alone, and so no value and no line to ask about.\n", stderr);
    else
        fprintf(stderr, "  It has %" PRIu32 " value%s, numbered 0 to %" PRIu32 ", and its lines have the same numbers: value n stands in line n + 2 of the file.\n",
                count, count == 1 ? "" : "s", count - 1);
}

static void tell_levels(const struct refusal *refusal) {
    const struct file *circuit = refusal->file;
    struct header header = {.factor = 0};
    struct gowashiru_reply least = gowashiru_least_level(circuit->bytes, circuit->length);
    if (header_of(circuit, &header) && header.has_headroom)
        fprintf(stderr, "  Even the best schedule would leave less than H = %" PRId64 " bits of reserve at this line.\n", header.headroom);
    if (least.number == GOWASHIRU_DONE)
        fprintf(stderr, "  This circuit fits from L = %" PRIu32 " on, the third number of its header; with fewer levels it has no schedule.\n",
                least.length);
    else
        fprintf(stderr,
                "  This circuit fits at no L from 1 to 60; line %" PRIu32 " does not at L = 60. Fewer products in a row, a smaller W%s or a\n"
                "  greater F need fewer levels.\n",
                least.place, header.has_headroom ? ", a smaller H" : "");
}

/* The schedule's line that erasing keeps as the one at this place; 0 if there is none. */
static uint32_t kept_place(const struct file *schedule, uint32_t place) {
    size_t at = 0;
    struct piece line = next_line(schedule, &at);
    uint32_t kept = 1, here = 1;
    while (line.is_there && kept < place) {
        line = next_line(schedule, &at);
        here++;
        const struct word *word = line.is_there ? word_of(field_at(line, 0)) : NULL;
        kept += word != NULL && is_kept(word);
    }
    return line.is_there ? here : 0;
}

/* The erasure has no name: it is shown by its line, after the schedule's line that it comes from. */
static void tell_erasure(const struct refusal *refusal) {
    static struct file erasure;
    const struct file *schedule = refusal->schedule;
    uint32_t here = kept_place(schedule, refusal->place);
    struct gowashiru_reply erased = gowashiru_erase(schedule->bytes, schedule->length, erasure.bytes, sizeof erasure.bytes);
    erasure.length = erased.length;
    struct piece line = line_at(&erasure, refusal->place);
    if (erased.number != GOWASHIRU_DONE)
        fprintf(stderr, "  %s keeps more lines than a circuit may have, 256.\n", schedule->name);
    else if (!line.is_there)
        fprintf(stderr, "  %s erases to a circuit that ends before this line.\n", schedule->name);
    else {
        fprintf(stderr, "  %s:%" PRIu32 ": erases to: ", schedule->name, here);
        show_line(line);
        fputc('\n', stderr);
    }
    fputs(refusal->place == 1 ? "  The schedule's F, W and L have to be the circuit's, and so has H: the same number in both, or in neither.\n"
                              : "  Change the one that is wrong, or plan the circuit anew.\n", stderr);
}

static void tell_buffer(const struct refusal *refusal) {
    (void)refusal;
    fputs("  This is a fault of the command, whose buffer is always enough.\n", stderr);
}

static const struct telling tellings[] = {
    [GOWASHIRU_NOT_OF_THE_FORM] = {"not of the form", true, tell_not_of_the_form},
    [GOWASHIRU_HEADER_OUT_OF_RANGE] = {"header number outside its range", false, tell_header_number},
    [GOWASHIRU_TOO_MANY_LINES] = {"more lines than allowed", true, tell_lines},
    [GOWASHIRU_NO_USABLE_LINE] = {"operand names no usable earlier line", false, tell_unusable},
    [GOWASHIRU_WRONG_KIND] = {"operand of the wrong kind", false, tell_kinds},
    [GOWASHIRU_TOO_FEW_LEVELS] = {"too few levels", false, tell_levels},
    [GOWASHIRU_LEVELS_DIFFER] = {"levels differ", false, tell_broken_rule},
    [GOWASHIRU_SCALES_DIFFER] = {"scales differ in add", false, tell_broken_rule},
    [GOWASHIRU_ABOVE_MODULUS] = {"scale above the modulus", false, tell_broken_rule},
    [GOWASHIRU_BELOW_WATERLINE] = {"scale below the waterline", false, tell_broken_rule},
    [GOWASHIRU_NUMBER_OUT_OF_RANGE] = {"other number outside its range", false, tell_range},
    [GOWASHIRU_ANOTHER_CIRCUIT] = {"the schedule erases to another circuit", false, tell_erasure},
    [GOWASHIRU_BUFFER_TOO_SHORT] = {"buffer too short", true, tell_buffer},
    [GOWASHIRU_TOO_HIGH_FOR_DS] = {"scale too high for ds", false, tell_broken_rule},
};

/* With headroom it is not the scale alone that the modulus has to hold. */
static const char *title_of(const struct refusal *refusal) {
    struct header header;
    bool is_above = refusal->number == GOWASHIRU_ABOVE_MODULUS;
    if (is_above && header_of(refusal->file, &header) && header.has_headroom)
        return "scale and headroom above the modulus";
    return tellings[refusal->number].title;
}

void tell_refusal(const struct refusal *refusal) {
    if (refusal->number == GOWASHIRU_NO_USABLE_LINE && refusal->place == 0) {
        tell_lacking(refusal);
        return;
    }
    const struct telling *telling = &tellings[refusal->number];
    struct piece line = line_at(refusal->file, refusal->place);
    fprintf(stderr, "%s:%" PRIu32 ": %s (refusal %" PRIu32 "): ", refusal->file->name, refusal->place, title_of(refusal),
            refusal->number);
    if (!line.is_there)
        fputs("the file ends before this line", stderr);
    else if (telling->any_form)
        show_bytes(line);
    else
        show_line(line);
    fputc('\n', stderr);
    telling->tell(refusal);
}
