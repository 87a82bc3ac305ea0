/* The exported functions, each call of them checked against demands 1 and 3. What does not hold ends the program with a
 * message. */
#ifndef CHECK_H
#define CHECK_H

#include <stddef.h>
#include <stdint.h>

struct bytes {
    uint8_t *at;
    size_t len;
};

/* Everything that is lent. */
struct lent {
    struct bytes source, tree, state, out, record;
};

uint64_t checked_open(struct lent *l);
uint64_t checked_call(struct lent *l);
uint64_t checked_run(struct lent *l, uint32_t node);
uint64_t checked_layout(struct lent *l);

/* How many calls, runs and layouts were answered with each number over the whole time; 0 is done. */
extern uint64_t answers[13], run_answers[13], layout_answers[13];

/* What a call was and did, for the fuzzer's guidance: any four small numbers. */
void feature(unsigned sort, unsigned a, unsigned b, unsigned c);

#endif
