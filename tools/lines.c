#include "lines.h"

#include <string.h>

const struct word known_words[] = {
    {"in", "in", CIRCUIT, 0, {0}},
    {"const", "const K", CIRCUIT, 1, {CONSTANT}},
    {"neg", "neg A", CIRCUIT, 1, {OPERAND}},
    {"rot", "rot A T", CIRCUIT, 2, {OPERAND, ROTATION}},
    {"add", "add A B", CIRCUIT, 2, {OPERAND, OPERAND}},
    {"mul", "mul A B", CIRCUIT, 2, {OPERAND, OPERAND}},
    {"out", "out A", CIRCUIT, 1, {OPERAND}},
    {"enc", "enc A S E", SCHEDULE, 3, {OPERAND, SCALE, LEVEL}},
    {"rs", "rs A C", SCHEDULE, 2, {OPERAND, COUNT}},
    {"ms", "ms A C", SCHEDULE, 2, {OPERAND, COUNT}},
    {"us", "us A B", SCHEDULE, 2, {OPERAND, SCALE}},
    {"ds", "ds A", LISTING, 1, {OPERAND}},
};
const size_t word_count = sizeof known_words / sizeof known_words[0];

bool is_kept(const struct word *word) {
    return word->first == CIRCUIT;
}

/* The bytes up to the first one that is `end`, or all. */
static struct piece cut(const uint8_t *bytes, size_t length, uint8_t end) {
    const uint8_t *found = length > 0 ? memchr(bytes, end, length) : NULL;
    size_t cut_length = found != NULL ? (size_t)(found - bytes) : length;
    return (struct piece){.bytes = bytes, .length = cut_length, .is_there = true, .is_closed = found != NULL};
}

struct piece next_line(const struct file *file, size_t *at) {
    if (*at >= file->length)
        return (struct piece){.is_there = false};
    struct piece line = cut(file->bytes + *at, file->length - *at, '\n');
    *at += line.length + 1;
    return line;
}

struct piece line_at(const struct file *file, uint32_t place) {
    size_t at = 0;
    struct piece line = next_line(file, &at);
    for (uint32_t passed = 1; passed < place; passed++)
        line = next_line(file, &at);
    return line;
}

size_t field_count(struct piece line) {
    size_t count = 1;
    for (size_t at = 0; at < line.length; at++)
        count += line.bytes[at] == '\t';
    return count;
}

struct piece field_at(struct piece line, size_t number) {
    struct piece field = cut(line.bytes, line.length, '\t');
    const uint8_t *end = line.bytes + line.length;
    for (; number > 0 && field.is_closed; number--) {
        const uint8_t *start = field.bytes + field.length + 1;
        field = cut(start, (size_t)(end - start), '\t');
    }
    return number == 0 ? field : (struct piece){.is_there = false};
}

bool is_text(struct piece piece, const char *text) {
    return piece.length == strlen(text) && memcmp(piece.bytes, text, piece.length) == 0;
}

bool has_byte(struct piece piece, uint8_t byte) {
    return piece.length > 0 && memchr(piece.bytes, byte, piece.length) != NULL;
}

const struct word *word_of(struct piece field) {
    for (size_t i = 0; i < word_count; i++)
        if (field.is_there && is_text(field, known_words[i].name))
            return &known_words[i];
    return NULL;
}

bool number_of(struct piece field, bool may_be_negative, int64_t *number) {
    bool is_negative = may_be_negative && field.length > 0 && field.bytes[0] == '-';
    size_t first = is_negative ? 1 : 0;
    size_t digits = field.length - first;
    if (!field.is_there || digits == 0 || field.length > FIELD_BYTES)
        return false;
    if (field.bytes[first] == '0' && (digits > 1 || is_negative))
        return false;
    *number = 0;
    for (size_t at = first; at < field.length; at++) {
        if (field.bytes[at] < '0' || field.bytes[at] > '9')
            return false;
        *number = 10 * *number + (field.bytes[at] - '0');
    }
    if (is_negative)
        *number = -*number;
    return true;
}

bool record_of(struct piece line, struct record *record) {
    record->word = line.is_there ? word_of(field_at(line, 0)) : NULL;
    if (record->word == NULL || field_count(line) != record->word->count + 1)
        return false;
    for (size_t i = 0; i < record->word->count; i++)
        if (!number_of(field_at(line, i + 1), record->word->fields[i] == ROTATION, &record->numbers[i]))
            return false;
    return true;
}

bool header_of(const struct file *file, struct header *header) {
    struct piece line = line_at(file, 1);
    header->is_rising = file->kind == LISTING;
    header->has_headroom = line.is_there && field_count(line) > 4;
    header->headroom = 0;
    return line.is_there && number_of(field_at(line, 1), false, &header->factor) &&
           number_of(field_at(line, 2), false, &header->waterline) &&
           number_of(field_at(line, 3), false, &header->top_level) &&
           (!header->has_headroom || number_of(field_at(line, 4), false, &header->headroom));
}

int64_t turned_level(const struct header *header, int64_t level) {
    return header->is_rising ? header->top_level - level : level;
}
