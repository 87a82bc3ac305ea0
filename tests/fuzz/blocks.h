/* Which basic blocks of the library an input reaches first. */
#ifndef BLOCKS_H
#define BLOCKS_H

/* `list`: a file with the blocks' addresses, in hexadecimal digits, ascending. */
void watch_blocks(const char *list);

#endif
