/*
 * What is checked after each call, from outside (runs.c, layouts.c: after each run and layout):
 *
 *   Demand 1   The answer is 0 or a refusal of the header's list, its place in range. A refused call changes no byte of
 *              state or buffer. A success touches no byte below the former output length or beyond the new one, and
 *              leaves a state of the one form that the header gives.
 *   Demand 3   The comments that wait are those that waited and those that the call collected, in order, without those
 *              let out, which stand at the head. The new text is the call's own text, or the texts let out in their
 *              order, and spaces and newlines; nothing else. After a finish none waits.
 */
#include <stdlib.h>
#include <string.h>

#include "build.h"
#include "check.h"
#include "refusals.h"
#include "savetnuok.h"
#include "states.h"

uint64_t answers[13], run_answers[13], layout_answers[13];

/* ---- answers ---- */

/* Of opening: one of its five refusals, at a place that there is. */
static void opening_is_in_range(const struct lent *l, uint64_t answer) {
    uint32_t number = savetnuok_number(answer), place = savetnuok_place(answer);
    switch (number) {
    case SAVETNUOK_SOURCE_LONG:
        HOLDS(place == 65536 && l->source.len > 65536, "refusal 1 at %u", place);
        break;
    case SAVETNUOK_SOURCE_ILL:
        HOLDS(place < l->source.len && l->source.len <= 65536, "refusal 2 at %u", place);
        break;
    case SAVETNUOK_TREE_BAD:
        HOLDS(place <= 8192 && place < l->tree.len, "refusal 3 at %u", place);
        break;
    case SAVETNUOK_TREE_DEEP:
        HOLDS(place >= 64 && place < 8192, "refusal 7 at %u", place);
        break;
    default:
        HOLDS(number == SAVETNUOK_QUEUE_FULL && place == 8192 && l->state.len != SAVETNUOK_STATE_SIZE,
              "opening gives refusal %u at %u", number, place);
    }
}

/* ---- demand 3 ---- */

/* Comments in their order, as the state has them. */
struct queue {
    uint8_t at[(SAVETNUOK_WAITING_MOST * 2) * SAVETNUOK_COMMENT_SIZE];
    uint32_t count;
};

static uint32_t newlines(struct bytes source, uint32_t start, uint32_t end) {
    uint32_t count = 0;
    for (; start < end; start++)
        count += source.at[start] == '\n';
    return count;
}

#define FITS 0xFFFFFFFFu

/* The comments from a record on, behind those that wait: document 01's collecting. Gives FITS, or the record of the 257th
   comment. */
static uint32_t collect(const struct lent *l, uint32_t number, uint32_t lines, struct queue *q) {
    size_t at = record_at(l->tree, number);
    for (; at < l->tree.len; at += l->tree.at[at] < 0x80 ? 9 : 13, number++) {
        uint32_t start = savetnuok_word(l->tree.at + at + 1), end = savetnuok_word(l->tree.at + at + 5);
        uint8_t kind = l->tree.at[at];
        if (below(l->tree, at) > 0)
            continue;
        if (kind > 2)
            break;
        if (kind == 0) {
            lines = lines != 0 ? lines : newlines(l->source, start, end);
            continue;
        }
        if (q->count == SAVETNUOK_WAITING_MOST)
            return number;
        uint8_t *c = q->at + q->count++ * SAVETNUOK_COMMENT_SIZE;
        put_word(c + SAVETNUOK_COMMENT_START, start);
        put_word(c + SAVETNUOK_COMMENT_END, end);
        put_word(c + SAVETNUOK_COMMENT_BEFORE, lines);
        put_word(c + SAVETNUOK_COMMENT_LINE, kind == 1);
        lines = 0;
    }
    return FITS;
}

/* What waited in the state `old`, and what the call collects; FITS, or the record of the 257th. */
static uint32_t collected(const struct lent *l, const uint8_t *old, struct queue *q) {
    uint8_t kind = l->record.at[0];
    uint32_t lines = word(old, SAVETNUOK_STATE_LINES);
    q->count = word(old, SAVETNUOK_STATE_WAITING);
    memcpy(q->at, comment(old, 0), q->count * SAVETNUOK_COMMENT_SIZE);
    if (kind == SAVETNUOK_FLUSH_PREFIX_COMMENTS)
        return collect(l, 0, lines, q);
    if (kind > SAVETNUOK_IGNORE)
        return FITS;
    uint32_t node = savetnuok_word(l->record.at + 1);
    uint32_t behind = node + 1 + below(l->tree, record_at(l->tree, node));
    return collect(l, behind, kind == SAVETNUOK_WRITE_OWNED ? 0 : lines, q);
}

/* How many of them the call lets out: always a head of the queue. */
static uint32_t let_out(const struct lent *l, const struct queue *q) {
    uint8_t kind = l->record.at[0], body = l->record.len > 1 ? l->record.at[1] : 0;
    uint32_t n = 0;
    if (kind == SAVETNUOK_FINISH || kind == SAVETNUOK_FLUSH_PREFIX_COMMENTS ||
        (kind == SAVETNUOK_COMMENTS && body == SAVETNUOK_HINT_LINE))
        return q->count;
    if (kind == SAVETNUOK_NL && body > 0)
        while (n < q->count && word(q->at + n * SAVETNUOK_COMMENT_SIZE, SAVETNUOK_COMMENT_BEFORE) == 0)
            n++;
    if (kind == SAVETNUOK_WS || kind == SAVETNUOK_COMMENTS)
        while (n < q->count && word(q->at + n * SAVETNUOK_COMMENT_SIZE, SAVETNUOK_COMMENT_LINE) == 0)
            n++;
    return n;
}

static void take_own_text(const struct lent *l, struct bytes *written) {
    static const char *const literals[] = {"{}", "||", "()", "{", "}", ",", ";", ":"};
    uint8_t kind = l->record.at[0];
    if (kind == SAVETNUOK_WRITE_OWNED || kind == SAVETNUOK_WRITE_RAW) {
        size_t at = record_at(l->tree, savetnuok_word(l->record.at + 1));
        uint32_t start = savetnuok_word(l->tree.at + at + 1), end = savetnuok_word(l->tree.at + at + 5);
        take_text(written, l->source.at + start, end - start);
    }
    if (kind == SAVETNUOK_LIT)
        take_text(written, (const uint8_t *)literals[l->record.at[1]], strlen(literals[l->record.at[1]]));
}

/* `old`: the state that was lent; `written`: the new bytes of the output. */
static void comments_are_kept(const struct lent *l, const uint8_t *old, struct bytes written) {
    static struct queue q;
    collected(l, old, &q);
    uint32_t out = let_out(l, &q), waiting = word(l->state.at, SAVETNUOK_STATE_WAITING);
    HOLDS(waiting == q.count - out, "%u wait, wanted %u", waiting, q.count - out);
    HOLDS(memcmp(comment(l->state.at, 0), q.at + out * SAVETNUOK_COMMENT_SIZE, waiting * SAVETNUOK_COMMENT_SIZE) == 0,
          "other comments wait");
    for (uint32_t k = 0; k < out; k++)
        take_comment(l->source, &written, q.at + k * SAVETNUOK_COMMENT_SIZE);
    take_own_text(l, &written);
    for (size_t i = 0; i < written.len; i++)
        HOLDS(written.at[i] == ' ' || written.at[i] == '\n', "more than white space was written");
    feature(1, l->record.at[0], out < 8 ? out : 8, waiting < 8 ? waiting : waiting < 255 ? 8 : waiting - 246);
}

/* Of a call's own steps, on the state that was lent. */
static void own_refusal_fits(const struct lent *l, uint64_t answer) {
    uint32_t number = savetnuok_number(answer), place = savetnuok_place(answer);
    uint32_t indent = word(l->state.at, SAVETNUOK_STATE_INDENT);
    static struct queue q;
    uint8_t kind = l->record.at[0];
    uint32_t full = collected(l, l->state.at, &q);
    int refused = kind == SAVETNUOK_INDENT && indent_after(indent, l->record.at[1]) < 0;
    HOLDS(refused == (number == SAVETNUOK_INDENT_OUT), "indent %u, refusal %u", indent, number);
    /* a node's text is measured before its comments are collected */
    HOLDS(full == FITS || number == SAVETNUOK_QUEUE_FULL || (kind < SAVETNUOK_IGNORE && number == SAVETNUOK_NO_ROOM),
          "a 257th comment waits");
    switch (number) {
    case SAVETNUOK_DONE:
        break;
    case SAVETNUOK_NO_ROOM:
        HOLDS(place == word(l->state.at, SAVETNUOK_STATE_LENGTH), "refusal 4 at %u", place);
        HOLDS(kind != SAVETNUOK_IGNORE && kind != SAVETNUOK_INDENT, "a call that writes nothing has no room");
        break;
    case SAVETNUOK_QUEUE_FULL:
        HOLDS(place == full, "kind %u gives refusal 5 at %u, wanted %u", kind, place, full);
        break;
    default:
        HOLDS(number == SAVETNUOK_INDENT_OUT && place == indent, "kind %u gives refusal %u at %u", kind, number, place);
    }
}

/* Opening's refusal, else the one that what is lent meets, else the call's own. `l` holds the state that was lent. */
static void answer_fits(const struct lent *l, uint64_t answer) {
    uint8_t fresh[SAVETNUOK_STATE_SIZE];
    uint64_t opening = savetnuok_open(l->source.at, l->source.len, l->tree.at, l->tree.len, fresh, sizeof fresh);
    uint64_t want = opening != 0 ? opening : refusal_before_its_steps(l);
    HOLDS(want == 0 || answer == want, "answer %llx, wanted %llx", (unsigned long long)answer,
          (unsigned long long)want);
    if (want == 0)
        own_refusal_fits(l, answer);
}

/* ---- calls ---- */

uint64_t checked_open(struct lent *l) {
    uint8_t *old = copy_of(l->state);
    uint64_t answer = savetnuok_open(l->source.at, l->source.len, l->tree.at, l->tree.len, l->state.at, l->state.len);
    if (answer != 0) {
        opening_is_in_range(l, answer);
        HOLDS(same(l->state, old, 0, l->state.len), "a refused opening touched the state");
    } else {
        HOLDS(l->state.len == SAVETNUOK_STATE_SIZE, "opened into %zu bytes", l->state.len);
        for (size_t i = 0; i < l->state.len; i++)
            HOLDS(l->state.at[i] == 0, "a fresh engine is not 0");
    }
    feature(0, savetnuok_number(answer), 0, 0);
    free(old);
    return answer;
}

static void success_is_whole(const struct lent *l, const uint8_t *old, const uint8_t *old_out) {
    state_is_canonical(l->source, l->state.at, l->out.len);
    uint32_t from = word(old, SAVETNUOK_STATE_LENGTH), to = word(l->state.at, SAVETNUOK_STATE_LENGTH);
    int finishes = l->record.at[0] == SAVETNUOK_FINISH;
    HOLDS(from <= to, "the output shrank");
    HOLDS(same(l->out, old_out, 0, from), "bytes below the former length changed");
    HOLDS(same(l->out, old_out, to, l->out.len), "bytes beyond the new length changed");
    HOLDS((word(l->state.at, SAVETNUOK_STATE_FINISHED) == 1) == finishes, "finished without a finish, or not by it");
    struct bytes written = {l->out.at + from, to - from};
    comments_are_kept(l, old, written);
}

uint64_t checked_call(struct lent *l) {
    struct lent before = *l;
    uint8_t *old = copy_of(l->state), *old_out = copy_of(l->out);
    uint64_t answer = savetnuok_call(l->source.at, l->source.len, l->tree.at, l->tree.len, l->state.at, l->state.len,
                                     l->out.at, l->out.len, l->record.at, l->record.len);
    before.state.at = old;
    answer_fits(&before, answer);
    if (answer != 0) {
        HOLDS(same(l->state, old, 0, l->state.len), "a refused call changed the state");
        HOLDS(same(l->out, old_out, 0, l->out.len), "a refused call changed the buffer");
    } else {
        success_is_whole(l, old, old_out);
    }
    answers[savetnuok_number(answer)]++;
    feature(2, savetnuok_number(answer), l->record.len > 0 ? l->record.at[0] : 0xFF, savetnuok_place(answer) == 8192);
    free(old);
    free(old_out);
    return answer;
}
