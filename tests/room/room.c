/*
 * How long the texts of layouts get, and how much stack a layout takes.
 *
 *     room [--stack] PACK..
 *
 * A PACK holds cases as `oracle pack` writes them; of each the source and the tree are laid out by savetnuok_layout, on a
 * fresh engine. A line for each pack: how many layouts, the longest text, the largest ratio of text to source, the most
 * bytes that a text has more than its source for each record, and how many pass source + 176 * records bytes. With
 * --stack also the most stack, by the paint that is gone from the stack of a thread.
 */
#include <pthread.h>
#include <stdio.h>
#include <stdlib.h>
#include <string.h>

#include "savetnuok.h"

#define ROOM (64u << 20)
#define STACK (2u << 20)
#define PAINT 0xA5
#define A_RECORD 176

struct bytes {
    const uint8_t *at;
    size_t len;
};

struct layout {
    struct bytes source, tree;
    uint8_t state[SAVETNUOK_STATE_SIZE];
    uint8_t *out;
    uint64_t answer;
    int idle; /* the thread does nothing: what it takes by itself */
};

struct most {
    unsigned long done, refused, over;
    size_t text, stack;
    double ratio, a_record;
};

static void fail(const char *why) {
    fprintf(stderr, "room: %s\n", why);
    exit(2);
}

static void *room_for(size_t len) {
    void *at = aligned_alloc(65536, (len + 65535) / 65536 * 65536);
    if (at == NULL)
        fail("out of memory");
    return at;
}

static struct bytes file(const char *name) {
    FILE *from = fopen(name, "rb");
    if (from == NULL || fseek(from, 0, SEEK_END) != 0)
        fail(name);
    size_t len = (size_t)ftell(from);
    uint8_t *at = room_for(len + 1);
    rewind(from);
    if (fread(at, 1, len, from) != len)
        fail(name);
    fclose(from);
    return (struct bytes){at, len};
}

/* Four bytes of a length, and so many bytes. */
static struct bytes part(struct bytes *rest) {
    if (rest->len < 4 || rest->len - 4 < savetnuok_word(rest->at))
        fail("a pack is cut");
    struct bytes got = {rest->at + 4, savetnuok_word(rest->at)};
    rest->at += 4 + got.len;
    rest->len -= 4 + got.len;
    return got;
}

static size_t records(struct bytes tree) {
    size_t n = 0;
    for (size_t at = 0; at < tree.len; at += tree.at[at] < 0x80 ? 9 : 13)
        n++;
    return n;
}

static void *lay_out(void *layout) {
    struct layout *l = layout;
    if (!l->idle)
        l->answer = savetnuok_layout(l->source.at, l->source.len, l->tree.at, l->tree.len, l->state, sizeof l->state,
                                     l->out, ROOM);
    return NULL;
}

/* The bytes of paint that are gone. */
static size_t painted(struct layout *l, uint8_t *stack) {
    pthread_attr_t attr;
    pthread_t thread;
    size_t left = 0;
    memset(stack, PAINT, STACK);
    if (pthread_attr_init(&attr) != 0 || pthread_attr_setstack(&attr, stack, STACK) != 0 ||
        pthread_create(&thread, &attr, lay_out, l) != 0 || pthread_join(thread, NULL) != 0)
        fail("no thread");
    pthread_attr_destroy(&attr);
    while (left < STACK && stack[left] == PAINT)
        left++;
    return STACK - left;
}

static size_t stack_of(struct layout *l, uint8_t *stack) {
    l->idle = 1;
    size_t idle = painted(l, stack);
    l->idle = 0;
    return painted(l, stack) - idle;
}

static void count(struct most *m, const struct layout *l) {
    size_t text = savetnuok_word(l->state + SAVETNUOK_STATE_LENGTH), n = records(l->tree), source = l->source.len;
    double ratio = source ? (double)text / (double)source : 0;
    double more = n ? ((double)text - (double)source) / (double)n : 0;
    m->done++;
    m->over += text > source + A_RECORD * n;
    if (text > m->text)
        m->text = text;
    if (ratio > m->ratio)
        m->ratio = ratio;
    if (more > m->a_record)
        m->a_record = more;
}

static void measure(struct bytes rest, struct layout *l, struct most *m, uint8_t *stack) {
    while (rest.len > 0) {
        l->source = part(&rest);
        l->tree = part(&rest);
        part(&rest); /* steps */
        part(&rest); /* what is expected of them */
        rest.at += 4;
        rest.len -= 4;
        l->answer = savetnuok_open(l->source.at, l->source.len, l->tree.at, l->tree.len, l->state, sizeof l->state);
        if (l->answer == 0 && stack != NULL) {
            size_t used = stack_of(l, stack);
            m->stack = used > m->stack ? used : m->stack;
        } else if (l->answer == 0) {
            lay_out(l);
        }
        if (l->answer == 0)
            count(m, l);
        else
            m->refused++;
    }
}

int main(int argc, char **argv) {
    static struct layout l;
    int with_stack = argc > 1 && strcmp(argv[1], "--stack") == 0;
    uint8_t *stack = with_stack ? room_for(STACK) : NULL;
    l.out = room_for(ROOM);
    for (int i = 1 + with_stack; i < argc; i++) {
        struct most m = {0, 0, 0, 0, 0, 0, 0};
        struct bytes all = file(argv[i]);
        measure(all, &l, &m, stack);
        printf("%s: %lu laid out, %lu refused; longest text %zu; text/source up to %.2f; up to %.2f bytes more a record; "
               "%lu over source + %d * records",
               argv[i], m.done, m.refused, m.text, m.ratio, m.a_record, m.over, A_RECORD);
        if (with_stack)
            printf("; stack up to %zu", m.stack);
        puts("");
        free((void *)all.at);
    }
    free(l.out);
    free(stack);
    return 0;
}
