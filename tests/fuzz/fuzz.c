/*
 * The fuzz target: reads an input as a source, a tree, a buffer's length and a history of calls, runs and layouts, and
 * makes them, each checked (check.c, runs.c, layouts.c).
 *
 * First byte even: the source and the tree are bytes of the input.
 *     source length, tree length, buffer length (2 bytes each), the source, the tree, the history
 * First byte odd: they are built by instructions, so that most trees are good, and a few bytes make a large one.
 *     buffer length (2 bytes), instructions up to END, the history
 * First byte 2 or 3 by four: the tree stands in a block body, without which every layout is refused at once.
 * The history: a byte below A0 is a call's kind, with its body behind it (0B a finish, any other the rest by ten); one
 * below B8 a run, with its node behind it (2 bytes); one below C0 a layout; a byte from C0 on is a change to what is
 * lent.
 */
#define _GNU_SOURCE
#include <stdlib.h>
#include <string.h>
#include <sys/mman.h>
#include <unistd.h>

#include "blocks.h"
#include "build.h"
#include "check.h"
#include "refusals.h"
#include "savetnuok.h"

#define CALLS_MOST 120
#define REFUSED_MOST 4 /* calls on what opening refused */
#define ROOM_MOST 70000
#define STATE_MOST 5000

/* ---- memory that ends at a forbidden page ---- */

struct memory {
    uint8_t *end;
    size_t most;
};

static struct memory source_memory, tree_memory, state_memory, out_memory, record_memory;

static struct memory memory_of(size_t most) {
    size_t pages = (most + 4095) / 4096 * 4096;
    uint8_t *at = mmap(NULL, pages + 4096, PROT_READ | PROT_WRITE, MAP_PRIVATE | MAP_ANONYMOUS, -1, 0);
    if (at == MAP_FAILED || mprotect(at + pages, 4096, PROT_NONE) != 0)
        abort();
    return (struct memory){at + pages, most};
}

/* The last `len` bytes of it, with these in them. */
static struct bytes put(struct memory m, const uint8_t *bytes, size_t len) {
    struct bytes b = {m.end - len, len};
    if (len > m.most)
        abort();
    if (len > 0)
        memmove(b.at, bytes, len);
    return b;
}

/* ---- the source and the tree ---- */

static uint32_t records_of(const struct lent *l) {
    uint32_t n = 0;
    for (size_t at = 0; at < l->tree.len; n++)
        at += l->tree.at[at] < 0x80 ? 9 : 13;
    return n;
}

/* A block body around the whole tree. */
static void wrap(struct lent *l) {
    static uint8_t bytes[TREE_MOST];
    size_t len = l->tree.len;
    if (len + 13 > sizeof bytes)
        return;
    memcpy(bytes + 13, l->tree.at, len);
    bytes[0] = SAVETNUOK_KIND_BLOCK_BODY;
    put_word(bytes + 1, 0);
    put_word(bytes + 5, l->source.len);
    put_word(bytes + 9, records_of(l));
    l->tree = put(tree_memory, bytes, len + 13);
}

static void build(struct lent *l) {
    struct bytes source, tree;
    build_script(&source, &tree);
    l->source = put(source_memory, source.at, source.len);
    l->tree = put(tree_memory, tree.at, tree.len);
}

static void raw(struct lent *l, size_t source_len, size_t tree_len) {
    source_len = source_len < input.len ? source_len : input.len;
    l->source = put(source_memory, input.at, source_len);
    input.at += source_len, input.len -= source_len;
    tree_len = tree_len < input.len ? tree_len : input.len;
    l->tree = put(tree_memory, input.at, tree_len);
    input.at += tree_len, input.len -= tree_len;
}

/* ---- the history ---- */

/* The changes, by the byte's rest by eight. SCALAR: one of the eight words in front, or of the first comment's. */
enum { RAW_RECORD, STATE_WORD, SCALAR, ROOM, STATE_LENGTH, OPEN_AGAIN, SOURCE_BYTE, TREE_BYTE, CHANGES };
#define FIRST_RUN 0xA0
#define FIRST_LAYOUT 0xB8
#define FIRST_CHANGE 0xC0

/* Mostly small, as each call is compared over the whole buffer. */
static size_t take_room(void) {
    size_t room = take_two();
    return room < 0x8000 ? room % 2048 : room;
}

static void new_room(struct lent *l, size_t len) {
    static uint8_t bytes[ROOM_MOST];
    size_t kept = l->out.len < len ? l->out.len : len;
    memcpy(bytes, l->out.at, kept);
    memset(bytes + kept, 0x5A, len - kept);
    l->out = put(out_memory, bytes, len);
}

/* What was lent when a call was done last: a change that gets a call refused is taken back. */
static struct {
    uint8_t state[SAVETNUOK_STATE_SIZE];
    size_t room;
    struct {
        uint8_t *at, old;
    } bytes[8];
    unsigned count;
} good;

static void note_good(const struct lent *l) {
    memcpy(good.state, l->state.at, sizeof good.state);
    good.room = l->out.len;
    good.count = 0;
}

static void take_back(struct lent *l) {
    memcpy(l->state.at, good.state, sizeof good.state);
    if (l->out.len != good.room)
        new_room(l, good.room);
    while (good.count > 0) {
        good.count--;
        *good.bytes[good.count].at = good.bytes[good.count].old;
    }
}

static void change_byte(struct bytes b) {
    if (b.len == 0 || good.count == sizeof good.bytes / sizeof *good.bytes)
        return;
    uint8_t *at = b.at + take_two() % b.len;
    good.bytes[good.count].at = at;
    good.bytes[good.count++].old = *at;
    *at = (uint8_t)take_byte();
}

/* What follows an answer: the history goes on from what was good last. */
static void go_on(struct lent *l, uint64_t answer) {
    if (l->state.len != SAVETNUOK_STATE_SIZE)
        return;
    if (answer != 0)
        take_back(l);
    /* a finished engine refuses all: the history goes on with a fresh one */
    if (savetnuok_number(answer) == SAVETNUOK_FINISHED)
        answer = checked_open(l);
    if (answer == 0)
        note_good(l);
}

static void call(struct lent *l, const uint8_t *bytes, size_t len) {
    l->record = put(record_memory, bytes, len);
    go_on(l, checked_call(l));
}

/* The records whose kind has a rule: how many there are, or the number of the nth. */
static uint32_t ruled(const struct lent *l, uint32_t nth) {
    uint32_t number = 0, count = 0;
    for (size_t at = 0; at < l->tree.len; at += l->tree.at[at] < 0x80 ? 9 : 13, number++)
        if (has_a_rule(l->tree.at[at]) && count++ == nth)
            return number;
    return count;
}

/* By two bytes: below 8000 a record that has a rule; else any record or one or two more; seldom any number. */
static uint32_t take_node(const struct lent *l) {
    uint32_t bytes = take_two(), count = ruled(l, UINT32_MAX);
    if (bytes >= 0xFFF0)
        return bytes * 0x10001u;
    return bytes < 0x8000 && count > 0 ? ruled(l, bytes % count) : (bytes & 0x7FFF) % (records_of(l) + 2);
}

static void run(struct lent *l) {
    uint32_t node = take_node(l);
    go_on(l, checked_run(l, node));
}

static void layout(struct lent *l) { go_on(l, checked_layout(l)); }

static void call_of_kind(struct lent *l, uint8_t kind) {
    /* of a body of one byte: those that are listed, and one or two more */
    static const uint16_t values[] = {[SAVETNUOK_LIT] = 10,
                                      [SAVETNUOK_COMMENTS] = 5,
                                      [SAVETNUOK_INDENT] = 256,
                                      [SAVETNUOK_NL] = 256,
                                      [SAVETNUOK_FLUSH_WHITESPACE] = 3};
    uint8_t bytes[5] = {kind};
    switch (kind) {
    case SAVETNUOK_WRITE_OWNED:
    case SAVETNUOK_WRITE_RAW:
    case SAVETNUOK_IGNORE:
        put_word(bytes + 1, take_two() % (records_of(l) + 2));
        call(l, bytes, 5);
        break;
    case SAVETNUOK_WS:
    case SAVETNUOK_FLUSH_PREFIX_COMMENTS:
    case SAVETNUOK_FINISH:
        call(l, bytes, 1);
        break;
    default:
        bytes[1] = (uint8_t)(take_byte() % values[kind]);
        call(l, bytes, 2);
    }
}

static void raw_record(struct lent *l) {
    uint8_t bytes[8];
    size_t len = take_byte() % 9;
    for (size_t i = 0; i < len; i++)
        bytes[i] = (uint8_t)take_byte();
    call(l, bytes, len);
}

/* An opening and a call on a state of another length. */
static void with_state_length(struct lent *l, size_t len) {
    static uint8_t longer[STATE_MOST];
    memcpy(longer, l->state.at, SAVETNUOK_STATE_SIZE);
    l->state = put(state_memory, longer, len % STATE_MOST);
    checked_open(l);
    call_of_kind(l, 1 + take_byte() % SAVETNUOK_FINISH);
    run(l);
    layout(l);
    l->state = put(state_memory, longer, SAVETNUOK_STATE_SIZE);
}

static void change(struct lent *l, uint32_t what) {
    switch (what) {
    case RAW_RECORD:
        raw_record(l);
        break;
    case STATE_WORD: {
        uint32_t at = take_two() % (SAVETNUOK_STATE_SIZE / 4);
        put_word(l->state.at + at * 4, take_four());
        break;
    }
    case SCALAR: {
        uint32_t at = take_byte() % 12;
        put_word(l->state.at + at * 4, take_two());
        break;
    }
    case ROOM:
        new_room(l, take_room());
        break;
    case STATE_LENGTH:
        with_state_length(l, take_two());
        break;
    case OPEN_AGAIN:
        checked_open(l);
        break;
    case SOURCE_BYTE:
        change_byte(l->source);
        break;
    default:
        change_byte(l->tree);
    }
}

static void history(struct lent *l, int most) {
    for (int n = 0; n < most && input.len > 0; n++) {
        uint32_t what = take_byte();
        if (what >= FIRST_CHANGE)
            change(l, what % CHANGES);
        else if (what >= FIRST_LAYOUT)
            layout(l);
        else if (what >= FIRST_RUN)
            run(l);
        else
            call_of_kind(l, what == SAVETNUOK_FINISH ? SAVETNUOK_FINISH : 1 + (what + 9) % (SAVETNUOK_FINISH - 1));
    }
}

/* ---- what libFuzzer calls ---- */

int LLVMFuzzerInitialize(int *argc, char ***argv) {
    const char *list = getenv("SAVETNUOK_BLOCKS");
    (void)argc, (void)argv;
    source_memory = memory_of(SOURCE_MOST);
    tree_memory = memory_of(TREE_MOST);
    state_memory = memory_of(STATE_MOST);
    out_memory = memory_of(ROOM_MOST);
    record_memory = memory_of(16);
    if (list != NULL)
        watch_blocks(list);
    return 0;
}

int LLVMFuzzerTestOneInput(const uint8_t *data, size_t size) {
    static uint8_t fill[ROOM_MOST], other[SAVETNUOK_STATE_SIZE];
    struct lent l;
    input = (struct bytes){(uint8_t *)data, size};
    if (fill[0] == 0) {
        memset(fill, 0xEE, sizeof fill);
        memset(other, 0x77, sizeof other);
    }
    uint32_t first = take_byte();
    int built = first % 2;
    uint32_t source_len = built ? 0 : take_two(), tree_len = built ? 0 : take_two();
    l.out = put(out_memory, fill, take_room());
    l.state = put(state_memory, other, sizeof other);
    l.record = put(record_memory, other, 0);
    if (built)
        build(&l);
    else
        raw(&l, source_len, tree_len);
    if (first % 4 > 1)
        wrap(&l);
    uint64_t answer = checked_open(&l);
    if (answer != 0)
        memset(l.state.at, 0, l.state.len);
    note_good(&l);
    history(&l, answer == 0 ? CALLS_MOST : REFUSED_MOST);
    return 0;
}
