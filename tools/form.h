/* What is wrong with a line that is not of the form (refusal 1), and how to mend it. */
#ifndef FORM_H
#define FORM_H

#include "lines.h"

void tell_form(const struct file *file, uint32_t place);

#endif
