/* The check of savetnuok_why. */
#ifndef WHY_H
#define WHY_H

#include "check.h"

/* What is answered for a node of what is lent, beside the answer of opening. */
void why_is_true(const struct lent *l, uint64_t opening, uint32_t node);

#endif
