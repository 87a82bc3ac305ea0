/* The input, byte by byte, and a source and a tree built by its instructions. */
#ifndef BUILD_H
#define BUILD_H

#include "check.h"

#define SOURCE_MOST 66000
#define TREE_MOST 110000

/* What is left of the input. Behind its end all bytes are 0. */
extern struct bytes input;

uint32_t take_byte(void);
uint32_t take_two(void);
uint32_t take_four(void);

/* Makes the instructions up to END, or the input's end. Both parts stay until the next one is built. */
void build_script(struct bytes *source, struct bytes *tree);

void put_word(uint8_t *at, size_t value);

#endif
