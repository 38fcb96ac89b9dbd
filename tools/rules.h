/* The scales and levels at a line of a schedule or a listing that breaks a rule (refusals 7 to 10 and 14). */
#ifndef RULES_H
#define RULES_H

#include "refusals.h"

void tell_broken_rule(const struct refusal *refusal);

#endif
