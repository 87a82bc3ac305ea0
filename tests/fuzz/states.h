/* What the checks share: facts that must hold, words of a state, records of a tree, copies of what was lent. */
#ifndef STATES_H
#define STATES_H

#include "check.h"

/* Ends the program with a message. */
__attribute__((format(printf, 1, 2))) _Noreturn void broken(const char *what, ...);

#define HOLDS(fact, ...)                                                                                               \
    do {                                                                                                               \
        if (!(fact))                                                                                                   \
            broken(__VA_ARGS__);                                                                                       \
    } while (0)

uint32_t word(const uint8_t *state, size_t at);

/* Comment k of a state. */
const uint8_t *comment(const uint8_t *state, size_t k);

/* Has it the form that every success leaves? */
void state_is_canonical(struct bytes source, const uint8_t *state, size_t out_len);

/* Where record k of a good tree begins. */
size_t record_at(struct bytes tree, uint32_t k);

/* How many records stand below the one that begins there. */
uint32_t below(struct bytes tree, size_t at);

/* A comment's text as it is written: a line comment without the White_Space at its end. */
struct bytes comment_text(struct bytes source, const uint8_t *c);

/* Takes a text, or a comment's, off the head of the written bytes, where it must stand; spaces and newlines aside on
   both sides. */
void take_text(struct bytes *written, const uint8_t *text, size_t len);
void take_comment(struct bytes source, struct bytes *written, const uint8_t *c);

uint8_t *copy_of(struct bytes b);
int same(struct bytes b, const uint8_t *copy, size_t from, size_t to);

#endif
