#include "standings.h"

#include <string.h>

static bool is_word(const struct record *record, const char *name) {
    return strcmp(record->word->name, name) == 0;
}

struct standing standing_of(const struct header *header, const struct record *record, const struct standing *held) {
    const int64_t *numbers = record->numbers;
    if (is_word(record, "in"))
        return (struct standing){true, header->waterline, header->top_level};
    if (is_word(record, "const"))
        return (struct standing){false, 0, 0};
    if (is_word(record, "enc"))
        return (struct standing){true, numbers[1], turned_level(header, numbers[2])};
    struct standing first = held[numbers[0]];
    if (is_word(record, "ds"))
        return (struct standing){true, header->waterline, first.level - 1};
    if (is_word(record, "mul"))
        first.scale += held[numbers[1]].scale;
    else if (is_word(record, "us"))
        first.scale += numbers[1];
    else if (is_word(record, "rs"))
        first.scale -= header->factor * numbers[1];
    if (is_word(record, "rs") || is_word(record, "ms"))
        first.level -= numbers[1];
    return first;
}

bool work_out(const struct file *file, uint32_t place, struct standing held[SCHEDULE_LINES]) {
    struct header header;
    struct record record;
    size_t at = 0;
    if (!header_of(file, &header))
        return false;
    next_line(file, &at);
    for (uint32_t value = 0; value + 2 < place; value++) {
        if (value >= SCHEDULE_LINES || !record_of(next_line(file, &at), &record))
            return false;
        held[value] = standing_of(&header, &record, held);
    }
    return true;
}
