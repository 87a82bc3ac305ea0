/* What the checks share. */
#include <stdarg.h>
#include <stdio.h>
#include <stdlib.h>
#include <string.h>

#include "refusals.h"
#include "savetnuok.h"
#include "states.h"

void broken(const char *what, ...) {
    va_list rest;
    va_start(rest, what);
    fputs("BROKEN: ", stderr);
    vfprintf(stderr, what, rest);
    fputs("\n", stderr);
    va_end(rest);
    abort();
}

uint32_t word(const uint8_t *state, size_t at) { return savetnuok_word(state + at); }

const uint8_t *comment(const uint8_t *state, size_t k) {
    return state + SAVETNUOK_STATE_COMMENTS + k * SAVETNUOK_COMMENT_SIZE;
}

void state_is_canonical(struct bytes source, const uint8_t *state, size_t out_len) {
    HOLDS(word(state, SAVETNUOK_STATE_LENGTH) <= out_len, "the output length passes the buffer");
    HOLDS(word(state, SAVETNUOK_STATE_USE_LINES) <= 1, "use_lines is no flag");
    HOLDS(word(state, SAVETNUOK_STATE_WS) <= 1, "ws is no flag");
    HOLDS(word(state, SAVETNUOK_STATE_INDENT) <= SAVETNUOK_INDENT_MOST, "indent is over 64");
    HOLDS(word(state, SAVETNUOK_STATE_FINISHED) <= 1, "finished is no flag");
    HOLDS(word(state, SAVETNUOK_STATE_ZERO) == 0, "the last word is not 0");
    uint32_t waiting = word(state, SAVETNUOK_STATE_WAITING);
    HOLDS(waiting <= SAVETNUOK_WAITING_MOST, "%u wait", waiting);
    HOLDS(waiting == 0 || word(state, SAVETNUOK_STATE_FINISHED) == 0, "a comment waits after the finish");
    for (uint32_t k = 0; k < waiting; k++) {
        const uint8_t *c = comment(state, k);
        uint32_t start = word(c, SAVETNUOK_COMMENT_START), end = word(c, SAVETNUOK_COMMENT_END);
        HOLDS(start <= end && end <= source.len, "comment %u lies outside the source", k);
        HOLDS(on_boundary(source, start) && on_boundary(source, end), "comment %u cuts a character", k);
        HOLDS(word(c, SAVETNUOK_COMMENT_LINE) <= 1, "comment %u has no flag", k);
    }
    for (const uint8_t *free = comment(state, waiting); free < state + SAVETNUOK_STATE_SIZE; free++)
        HOLDS(*free == 0, "a free comment is not 0");
}

size_t record_at(struct bytes tree, uint32_t k) {
    size_t at = 0;
    for (; k > 0; k--)
        at += tree.at[at] < 0x80 ? 9 : 13;
    return at;
}

uint32_t below(struct bytes tree, size_t at) { return tree.at[at] < 0x80 ? 0 : savetnuok_word(tree.at + at + 9); }

/* How many bytes the White_Space character has that ends the bytes; 0 where none does. In a good source no character ends
   in the bytes of another. */
static uint32_t white_end(const uint8_t *at, uint32_t len) {
    static const char *const white[] = {
        "\x09", "\x0A", "\x0B", "\x0C", "\x0D", "\x20", "\xC2\x85", "\xC2\xA0", "\xE1\x9A\x80",
        "\xE2\x80\x80", "\xE2\x80\x81", "\xE2\x80\x82", "\xE2\x80\x83", "\xE2\x80\x84", "\xE2\x80\x85", "\xE2\x80\x86",
        "\xE2\x80\x87", "\xE2\x80\x88", "\xE2\x80\x89", "\xE2\x80\x8A", "\xE2\x80\xA8", "\xE2\x80\xA9", "\xE2\x80\xAF",
        "\xE2\x81\x9F", "\xE3\x80\x80",
    };
    for (size_t i = 0; i < sizeof white / sizeof *white; i++) {
        uint32_t n = (uint32_t)strlen(white[i]);
        if (n <= len && memcmp(at + len - n, white[i], n) == 0)
            return n;
    }
    return 0;
}

struct bytes comment_text(struct bytes source, const uint8_t *c) {
    uint32_t start = word(c, SAVETNUOK_COMMENT_START), end = word(c, SAVETNUOK_COMMENT_END), n;
    if (word(c, SAVETNUOK_COMMENT_LINE) == 1)
        while ((n = white_end(source.at + start, end - start)) != 0)
            end -= n;
    return (struct bytes){source.at + start, end - start};
}

void take_text(struct bytes *written, const uint8_t *text, size_t len) {
    for (; len > 0; text++, len--) {
        if (*text == ' ' || *text == '\n')
            continue;
        while (written->len > 0 && (*written->at == ' ' || *written->at == '\n'))
            written->at++, written->len--;
        HOLDS(written->len > 0 && *written->at == *text, "another text was written");
        written->at++, written->len--;
    }
}

void take_comment(struct bytes source, struct bytes *written, const uint8_t *c) {
    struct bytes text = comment_text(source, c);
    take_text(written, text.at, text.len);
}

uint8_t *copy_of(struct bytes b) {
    uint8_t *copy = malloc(b.len + 1);
    HOLDS(copy != NULL, "no memory");
    if (b.len > 0)
        memcpy(copy, b.at, b.len);
    return copy;
}

int same(struct bytes b, const uint8_t *copy, size_t from, size_t to) {
    return from >= to || memcmp(b.at + from, copy + from, to - from) == 0;
}
