/*
 * Guidance by the library's own code. The library is compiled by Rattle, without the fuzzer's counters. So every basic
 * block of it gets a breakpoint, from a list that `run` makes with objdump; the first time that one is met it is taken
 * out and a counter of libFuzzer's is set. An input that reaches a new block is kept, and a block that was reached
 * costs nothing any more.
 */
#define _GNU_SOURCE
#include <signal.h>
#include <stdint.h>
#include <stdio.h>
#include <stdlib.h>
#include <sys/mman.h>
#include <ucontext.h>

#include "blocks.h"
#include "check.h"

#define BLOCKS_MOST 16384
#define FEATURES 32768

/* A breakpoint, and where the program stands when it has met one. */
#if defined(__x86_64__)
typedef uint8_t instruction;
#define BREAKPOINT 0xCC
#define STANDS_AT(context) ((context)->uc_mcontext.gregs[REG_RIP])
#define BEHIND_IT 1
#elif defined(__aarch64__)
typedef uint32_t instruction;
#define BREAKPOINT 0xD4200000u
#define STANDS_AT(context) ((context)->uc_mcontext.pc)
#define BEHIND_IT 0
#else
#error "no breakpoint is known for this processor"
#endif

__attribute__((section("__libfuzzer_extra_counters"))) static uint8_t counters[BLOCKS_MOST + FEATURES];

static struct block { instruction *at, code; } blocks[BLOCKS_MOST];
static size_t block_count, blocks_reached;

void feature(unsigned sort, unsigned a, unsigned b, unsigned c) {
    unsigned mark = ((sort * 31 + a) * 61 + b) * 127 + c;
    counters[BLOCKS_MOST + mark * 2654435761u % FEATURES] = 1;
}

/* The list ascends. */
static struct block *find(instruction *at) {
    size_t low = 0, high = block_count;
    while (low < high) {
        size_t middle = (low + high) / 2;
        if (blocks[middle].at < at)
            low = middle + 1;
        else
            high = middle;
    }
    return low < block_count && blocks[low].at == at ? &blocks[low] : NULL;
}

static void put_code(instruction *at, instruction code) {
    *at = code;
    __builtin___clear_cache((char *)at, (char *)(at + 1));
}

static void reached(int number, siginfo_t *info, void *context) {
    ucontext_t *stopped = context;
    struct block *block = find((instruction *)(STANDS_AT(stopped) - BEHIND_IT));
    (void)number, (void)info;
    if (block == NULL)
        abort();
    put_code(block->at, block->code);
    STANDS_AT(stopped) -= BEHIND_IT;
    counters[block - blocks] = 1;
    blocks_reached++;
}

static void tell_answers(const char *of, const uint64_t *counts) {
    printf("%s: done %llu", of, (unsigned long long)counts[0]);
    for (int n = 1; n < 13; n++)
        if (counts[n] != 0)
            printf(" refused %d: %llu", n, (unsigned long long)counts[n]);
    printf("\n");
}

static void tell(void) {
    printf("blocks of the library: %zu of %zu reached\n", blocks_reached, block_count);
    tell_answers("calls", answers);
    tell_answers("runs", run_answers);
    tell_answers("layouts", layout_answers);
    const char *missed = getenv("SAVETNUOK_MISSED");
    FILE *file = missed != NULL ? fopen(missed, "w") : NULL;
    for (size_t i = 0; file != NULL && i < block_count; i++)
        if (*blocks[i].at == BREAKPOINT)
            fprintf(file, "%p\n", (void *)blocks[i].at);
    if (file != NULL)
        fclose(file);
}

static void set_breakpoints(void) {
    uintptr_t first = (uintptr_t)blocks[0].at & ~(uintptr_t)4095;
    uintptr_t last = ((uintptr_t)blocks[block_count - 1].at & ~(uintptr_t)4095) + 4096;
    if (mprotect((void *)first, last - first, PROT_READ | PROT_WRITE | PROT_EXEC) != 0) {
        perror("breakpoints");
        exit(2);
    }
    for (size_t i = 0; i < block_count; i++) {
        blocks[i].code = *blocks[i].at;
        put_code(blocks[i].at, BREAKPOINT);
    }
}

void watch_blocks(const char *list) {
    FILE *file = fopen(list, "r");
    unsigned long at;
    if (file == NULL) {
        perror(list);
        exit(2);
    }
    while (block_count < BLOCKS_MOST && fscanf(file, "%lx", &at) == 1)
        blocks[block_count++].at = (instruction *)at;
    fclose(file);
    if (block_count == 0 || block_count == BLOCKS_MOST) {
        fprintf(stderr, "%s: %zu blocks\n", list, block_count);
        exit(2);
    }
    struct sigaction action = {.sa_sigaction = reached, .sa_flags = SA_SIGINFO | SA_NODEFER};
    sigaction(SIGTRAP, &action, NULL);
    set_breakpoints();
    atexit(tell);
}
