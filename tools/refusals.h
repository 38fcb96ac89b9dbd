/* What a refusal says on standard error: the file, the line, what is wrong with it and what to do. */
#ifndef REFUSALS_H
#define REFUSALS_H

#include "lines.h"

struct refusal {
    uint32_t number, place;
    const struct file *file;     /* the file of the place */
    const struct file *schedule; /* for 12: the schedule that erases to another circuit; else unused */
    const uint32_t *value, *line; /* for 4 with place 0: what was asked about, NULL where nothing was; else unused */
};

void tell_refusal(const struct refusal *refusal);

#endif
