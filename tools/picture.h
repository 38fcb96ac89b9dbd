/* Draws a schedule: see picture_of. */
#ifndef GOWASHIRU_PICTURE_H
#define GOWASHIRU_PICTURE_H

#include "files.h"

/*
 * The picture of a schedule as an SVG: a column for each line, with its scale within the modulus at its level. The schedule must have passed the
 * check against its own erasure. The text is of the caller, who frees it; NULL if there is no memory.
 */
char *picture_of(const struct file *schedule, size_t *svg_len);

#endif
