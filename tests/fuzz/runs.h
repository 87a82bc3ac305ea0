/* What runs and layouts share of their checks. */
#ifndef RUNS_H
#define RUNS_H

#include "check.h"

/* The answer of the rules and their calls, below this node, on the state that was lent. */
void refusal_of_the_rule_fits(const struct lent *l, uint64_t answer, uint32_t node);

/* A refused one changed nothing that can be seen. `before`: with the state that was lent. */
void refused_is_hidden(const struct lent *l, const struct lent *before, const uint8_t *old_out);

#endif
