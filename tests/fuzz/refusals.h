/* Which refusal a call meets before its own steps, a run before its rule's, and a layout before its first call. */
#ifndef REFUSALS_H
#define REFUSALS_H

#include "check.h"

/* Of what is lent over a good source and tree: the answer, or 0 where the call's own steps decide. */
uint64_t refusal_before_its_steps(const struct lent *l);

/* The same of a run on a node; 0 where the rule decides. */
uint64_t refusal_before_its_rule(const struct lent *l, uint32_t node);

/* The same of a layout. */
uint64_t refusal_before_its_calls(const struct lent *l);

/* A refusal's number and place in one, as the library answers. */
uint64_t refusal(uint32_t number, uint32_t place);

/* How many records a good tree has. */
uint32_t records_in(struct bytes tree);

int has_a_rule(uint8_t kind);

/* Are the state's length, its flags and the buffer's length such that the state can be read? */
int shape_is_good(const struct lent *l);

/* The new indent, or -1 where it would leave its bounds. */
int indent_after(uint32_t indent, uint8_t by);

/* Does a character begin at this place, or the source end? */
int on_boundary(struct bytes source, uint32_t place);

#endif
