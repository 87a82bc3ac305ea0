/* Reads the recorded openings and histories, trees.bin, calls.bin and runs.bin, whose form oracle/README.md gives. */
#ifndef RECORDED_H
#define RECORDED_H

#include <stdio.h>
#include <stdlib.h>
#include <string.h>

#include "savetnuok.h"

struct bytes {
    uint8_t *at;
    size_t len;
};

/* The file that is read, and what is left of it. */
static const char *file_name;
static struct bytes rest;

static void fail(const char *what, const char *why) {
    fprintf(stderr, "%s: %s\n", what, why);
    exit(2);
}

static struct bytes block(size_t len) {
    struct bytes b = {malloc(len), len};
    if (b.at == NULL && len != 0)
        fail("memory", "none left");
    return b;
}

static const uint8_t *take(size_t len) {
    if (len > rest.len)
        fail(file_name, "cut short");
    const uint8_t *at = rest.at;
    rest.at += len;
    rest.len -= len;
    return at;
}

static uint32_t take_word(void) { return savetnuok_word(take(4)); }

static uint64_t take_answer(void) {
    uint64_t low = take_word();
    return low | (uint64_t)take_word() << 32;
}

/* Pieces, each some bytes so many times: first how long they are together, then the bytes. */
static struct bytes take_pieces(void) {
    struct bytes from = rest, whole;
    size_t len = 0;
    for (uint32_t n = take_word(); n > 0; n--) {
        size_t times = take_word(), unit = take_word();
        take(unit);
        len += times * unit;
    }
    rest = from;
    whole = block(len);
    len = 0;
    for (uint32_t n = take_word(); n > 0; n--) {
        size_t times = take_word(), unit = take_word();
        const uint8_t *piece = take(unit);
        for (; times > 0 && unit > 0; times--, len += unit)
            memcpy(whole.at + len, piece, unit);
    }
    return whole;
}

static struct bytes read_file(const char *name) {
    FILE *file = fopen(name, "rb");
    if (file == NULL || fseek(file, 0, SEEK_END) != 0)
        fail(name, "cannot be read");
    long len = ftell(file);
    rewind(file);
    struct bytes got = block(len < 0 ? 0 : (size_t)len);
    if (fread(got.at, 1, got.len, file) != got.len)
        fail(name, "cannot be read");
    fclose(file);
    return got;
}

/* Is a step of runs.bin a run, and on which node? Is it a layout? */
#define RUN_STEP 0xE0
#define LAYOUT_STEP 0xE1
static int is_run(struct bytes step) { return step.len == 5 && step.at[0] == RUN_STEP; }

static int is_layout(struct bytes step) { return step.len == 1 && step.at[0] == LAYOUT_STEP; }

static uint32_t run_node(struct bytes step) { return savetnuok_word(step.at + 1); }

/* Does `one` for each case of a file; it must take the whole case. */
static void each_case(const char *name, void (*one)(unsigned long number)) {
    struct bytes file = read_file(name);
    file_name = name;
    rest = file;
    uint32_t count = take_word();
    for (uint32_t i = 0; i < count; i++)
        one(i);
    if (rest.len != 0)
        fail(name, "bytes left over");
    free(file.at);
}

#endif
