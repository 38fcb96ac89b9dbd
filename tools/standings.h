/* Scales and levels of the values of a schedule or a listing, by the rules of a line. The library keeps them to itself. */
#ifndef STANDINGS_H
#define STANDINGS_H

#include "lines.h"

struct standing {
    bool has_scale; /* false: a bare constant */
    int64_t scale, level; /* the remaining level, in a listing too */
};

/* What a line would have from what its operands have. Of operands that differ in `add` or `mul` the first one's. */
struct standing standing_of(const struct header *header, const struct record *record, const struct standing *held);

/* Fills in what each line before this place has, by value number; the library has found no fault in them. */
bool work_out(const struct file *file, uint32_t place, struct standing held[SCHEDULE_LINES]);

#endif
