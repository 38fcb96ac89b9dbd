/* Bytes of a file shown on standard error: no byte of a file reaches the terminal as it is unless it can be printed. */
#ifndef SHOW_H
#define SHOW_H

#include "lines.h"

/* Tabs as one space each, for a line that is of the form. */
void show_line(struct piece line);
/* Each tab as \t, for a line that may not be of the form. */
void show_bytes(struct piece piece);

#endif
