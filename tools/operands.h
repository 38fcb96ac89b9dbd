/* Numbers outside their range and operands that do not fit (refusals 11, 4 and 5). */
#ifndef OPERANDS_H
#define OPERANDS_H

#include "refusals.h"

void tell_range(const struct refusal *refusal);
void tell_unusable(const struct refusal *refusal);
void tell_kinds(const struct refusal *refusal);

#endif
