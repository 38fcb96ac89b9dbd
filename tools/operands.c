#include "operands.h"

#include "../include/gowashiru.h"
#include "show.h"

#include <inttypes.h>
#include <stdio.h>
#include <string.h>

/* The name of a field: the form is the word, then one letter for each after a space. */
static char field_name(const struct word *word, size_t number) {
    return word->form[strlen(word->name) + 1 + 2 * number];
}

struct range {
    int64_t least, most;
};

static struct range range_of(enum field field, const struct header *header) {
    int64_t least_level = header->is_rising ? 0 : 1;
    const struct range ranges[] = {
        [CONSTANT] = {0, GOWASHIRU_MOST_CONSTANT},
        [ROTATION] = {-32767, 32767},
        [SCALE] = {1, 3600},
        [LEVEL] = {least_level, header->top_level - 1 + least_level},
        [COUNT] = {1, 60},
    };
    return ranges[field];
}

static bool record_at(const struct refusal *refusal, struct record *record) {
    return record_of(line_at(refusal->file, refusal->place), record);
}

void tell_range(const struct refusal *refusal) {
    struct header header;
    struct record record;
    if (!header_of(refusal->file, &header) || !record_at(refusal, &record))
        return;
    const char *bound = header.is_rising ? ", one less than the header's L" : ", the header's L";
    for (size_t i = 0; i < record.word->count; i++) {
        if (record.word->fields[i] == OPERAND)
            continue;
        struct range range = range_of(record.word->fields[i], &header);
        if (record.numbers[i] < range.least || record.numbers[i] > range.most)
            fprintf(stderr, "  %c = %" PRId64 ": in `%s` it is a number from %" PRId64 " to %" PRId64 "%s.\n",
                    field_name(record.word, i), record.numbers[i], record.word->form, range.least, range.most,
                    record.word->fields[i] == LEVEL ? bound : "");
    }
}

/* An operand, and not the one before it once more. */
static bool is_operand(const struct record *record, size_t number) {
    return record->word->fields[number] == OPERAND && (number == 0 || record->numbers[0] != record->numbers[number]);
}

/* The line that an operand names. */
static struct piece named_line(const struct refusal *refusal, int64_t value) {
    return line_at(refusal->file, (uint32_t)value + 2);
}

static void tell_unusable_operand(const struct refusal *refusal, char name, int64_t operand) {
    int64_t value = (int64_t)refusal->place - 2;
    struct record named;
    if (operand < value && record_of(named_line(refusal, operand), &named) && strcmp(named.word->name, "out") == 0)
        fprintf(stderr, "  %c = %" PRId64 ": line %" PRId64 " is an `out` line, which no line may name. Name what it names, %" PRId64
                ".\n", name, operand, operand + 2, named.numbers[0]);
    else if (operand >= value && value == 0)
        fprintf(stderr, "  %c = %" PRId64 ": this is the first line after the header, value 0, and there is none before it to name.\n", name,
                operand);
    else if (operand >= value)
        fprintf(stderr, "  %c = %" PRId64 ": this line is value %" PRId64 ", counted from 0 after the header, and names values from 0 to %"
                PRId64 ".\n", name, operand, value, value - 1);
}

void tell_unusable(const struct refusal *refusal) {
    struct record record;
    if (!record_at(refusal, &record))
        return;
    for (size_t i = 0; i < record.word->count; i++)
        if (is_operand(&record, i))
            tell_unusable_operand(refusal, field_name(record.word, i), record.numbers[i]);
}

static const char *kind_of(const struct word *word) {
    if (strcmp(word->name, "const") == 0)
        return "a constant";
    return strcmp(word->name, "enc") == 0 ? "an encoded constant" : "a ciphertext";
}

/* What a line takes, and how a constant gets to it. */
static void tell_wanted(const struct word *word, enum file_kind kind) {
    if (strcmp(word->name, "enc") == 0)
        fputs("  `enc` takes a constant.\n", stderr);
    else if (word->fields[1] != OPERAND || word->count == 1)
        fprintf(stderr, "  `%s` takes a ciphertext: an `in` line, or what is computed from one.\n", word->name);
    else if (kind != CIRCUIT)
        fprintf(stderr, "  `%s` takes two ciphertexts, or a ciphertext and an encoded constant: `enc A S E` encodes constant A.\n",
                word->name);
    else
        fprintf(stderr, "  `%s` takes two ciphertexts, or a ciphertext and a constant.\n", word->name);
}

void tell_kinds(const struct refusal *refusal) {
    struct record record, named;
    if (!record_at(refusal, &record))
        return;
    for (size_t i = 0; i < record.word->count; i++) {
        if (!is_operand(&record, i))
            continue;
        struct piece line = named_line(refusal, record.numbers[i]);
        if (!record_of(line, &named))
            continue;
        fprintf(stderr, "  %c = %" PRId64 " is %s, line %" PRId64 ": ", field_name(record.word, i), record.numbers[i], kind_of(named.word),
                record.numbers[i] + 2);
        show_line(line);
        fputc('\n', stderr);
    }
    tell_wanted(record.word, refusal->file->kind);
}
