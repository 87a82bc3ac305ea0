/*
 * What is checked after each run, from outside and without the rules of layout:
 *
 *   Demand 1   The answer is the refusal that the header gives before the rule is asked, else 0 or one of 8, 9, 4, 5,
 *              6, its place in range. A refused run changes no byte of the state and none of the buffer below the former
 *              length; from there to the end it is zero. Where the state has no shape nothing changes. A success
 *              touches no byte below the former length or beyond the new one, and leaves a state of the one form.
 *   Demand 3   Of the comments that waited a head was let out and the others still wait, in order and before all new
 *              ones. Those that were let out stand in the new text in their order. The new ones that wait are comments
 *              of the tree; in the tree's order, each once, where no composite begins with white space or a comment.
 */
#define _GNU_SOURCE
#include <stdlib.h>
#include <string.h>

#include "check.h"
#include "refusals.h"
#include "runs.h"
#include "savetnuok.h"
#include "states.h"
#include "why.h"

static int is_zero(struct bytes b, size_t from) {
    for (size_t i = from; i < b.len; i++)
        if (b.at[i] != 0)
            return 0;
    return 1;
}

void refusal_of_the_rule_fits(const struct lent *l, uint64_t answer, uint32_t node) {
    uint32_t number = savetnuok_number(answer), place = savetnuok_place(answer);
    uint32_t last = node + below(l->tree, record_at(l->tree, node));
    switch (number) {
    case SAVETNUOK_DONE:
        break;
    case SAVETNUOK_WRONG_KIND:
        HOLDS(place >= node && place <= last, "a run on %u gives refusal 8 at %u", node, place);
        break;
    case SAVETNUOK_NO_RULE:
        HOLDS(place > node && place <= last, "a run on %u gives refusal 9 at %u", node, place);
        HOLDS(l->tree.at[record_at(l->tree, place)] >= 0x80, "refusal 9 at %u, which is a leaf", place);
        break;
    case SAVETNUOK_NO_ROOM:
        HOLDS(place >= word(l->state.at, SAVETNUOK_STATE_LENGTH) && place <= l->out.len, "refusal 4 at %u", place);
        break;
    case SAVETNUOK_QUEUE_FULL: {
        size_t at = place < SAVETNUOK_RECORDS_MOST ? record_at(l->tree, place) : l->tree.len;
        HOLDS(place > node && at < l->tree.len, "refusal 5 at %u", place);
        HOLDS(l->tree.at[at] == 1 || l->tree.at[at] == 2, "refusal 5 at %u, which is no comment", place);
        break;
    }
    default:
        HOLDS(number == SAVETNUOK_INDENT_OUT && place <= SAVETNUOK_INDENT_MOST, "a run gives refusal %u at %u", number,
              place);
    }
}

static void answer_fits(const struct lent *l, uint64_t answer, uint32_t node) {
    uint8_t fresh[SAVETNUOK_STATE_SIZE];
    uint64_t opening = savetnuok_open(l->source.at, l->source.len, l->tree.at, l->tree.len, fresh, sizeof fresh);
    uint64_t want = opening != 0 ? opening : refusal_before_its_rule(l, node);
    HOLDS(want == 0 || answer == want, "a run on %u: answer %llx, wanted %llx", node, (unsigned long long)answer,
          (unsigned long long)want);
    if (want == 0)
        refusal_of_the_rule_fits(l, answer, node);
    why_is_true(l, opening, node);
}

/* ---- demand 3 ---- */

static size_t next_record(struct bytes tree, size_t at) { return at + (tree.at[at] < 0x80 ? 9 : 13); }

/* Does each composite that holds something begin with a token or a composite, as a parser's trees do? A call that
   collects steps into composites: where one begins with comments, the call behind which it stands collects them, and so
   does the next one in front of it. The Rust does the same. */
static int begins_with_tokens(struct bytes tree) {
    for (size_t at = 0; at < tree.len; at = next_record(tree, at))
        if (below(tree, at) > 0 && tree.at[next_record(tree, at)] <= 2)
            return 0;
    return 1;
}

/* Where a record at or behind this place is the comment; the tree's end if none is. */
static size_t record_of(struct bytes tree, size_t at, const uint8_t *c) {
    for (; at < tree.len; at = next_record(tree, at)) {
        uint8_t kind = tree.at[at];
        if ((kind == 1 || kind == 2) && memcmp(tree.at + at + 1, c, 8) == 0 &&
            word(c, SAVETNUOK_COMMENT_LINE) == (kind == 1))
            break;
    }
    return at;
}

/* Are those that wait from number `from` on comments of the tree behind this node, each behind the one before? */
static int are_of_the_tree(const struct lent *l, uint32_t from, uint32_t node) {
    uint32_t waiting = word(l->state.at, SAVETNUOK_STATE_WAITING);
    size_t first = record_at(l->tree, node), at = first;
    int in_order = begins_with_tokens(l->tree);
    for (; from < waiting; from++) {
        at = record_of(l->tree, in_order ? at : first, comment(l->state.at, from));
        if (at >= l->tree.len)
            return 0;
        at = next_record(l->tree, at);
    }
    return 1;
}

/* Do the first `count` comments of the former state stand in the new text in their order? */
static int were_written(const struct lent *l, const uint8_t *old, uint32_t count, struct bytes written) {
    for (uint32_t k = 0; k < count; k++) {
        struct bytes text = comment_text(l->source, comment(old, k));
        const uint8_t *found = text.len == 0 ? written.at : memmem(written.at, written.len, text.at, text.len);
        if (found == NULL)
            return 0;
        written.len -= (size_t)(found - written.at) + text.len;
        written.at = (uint8_t *)found + text.len;
    }
    return 1;
}

/* How many of the comments that waited still do: for one number all must fit, and equal comments leave a choice. */
static void comments_are_kept(const struct lent *l, const uint8_t *old, struct bytes written, uint32_t node) {
    uint32_t waited = word(old, SAVETNUOK_STATE_WAITING), waiting = word(l->state.at, SAVETNUOK_STATE_WAITING);
    for (uint32_t kept = 0; kept <= waited && kept <= waiting; kept++) {
        uint32_t out = waited - kept;
        if (memcmp(comment(l->state.at, 0), comment(old, out), kept * (size_t)SAVETNUOK_COMMENT_SIZE) == 0 &&
            are_of_the_tree(l, kept, node) && were_written(l, old, out, written)) {
            feature(4, l->tree.at[record_at(l->tree, node)] & 0x7F, out < 8 ? out : 8, waiting < 8 ? waiting : 8);
            return;
        }
    }
    broken("a run on %u: of %u comments that waited one is lost or passed, or another waits", node, waited);
}

/* ---- runs ---- */

static void success_is_whole(const struct lent *l, const uint8_t *old, const uint8_t *old_out, uint32_t node) {
    state_is_canonical(l->source, l->state.at, l->out.len);
    uint32_t from = word(old, SAVETNUOK_STATE_LENGTH), to = word(l->state.at, SAVETNUOK_STATE_LENGTH);
    HOLDS(from <= to, "the output shrank");
    HOLDS(same(l->out, old_out, 0, from), "bytes below the former length changed");
    HOLDS(same(l->out, old_out, to, l->out.len), "bytes beyond the new length changed");
    HOLDS(word(l->state.at, SAVETNUOK_STATE_FINISHED) == 0, "a run finished the engine");
    HOLDS(word(l->state.at, SAVETNUOK_STATE_INDENT) == word(old, SAVETNUOK_STATE_INDENT), "a run left another indent");
    struct bytes written = {l->out.at + from, to - from};
    comments_are_kept(l, old, written, node);
}

void refused_is_hidden(const struct lent *l, const struct lent *before, const uint8_t *old_out) {
    size_t from = shape_is_good(before) ? word(before->state.at, SAVETNUOK_STATE_LENGTH) : l->out.len;
    from = from < l->out.len ? from : l->out.len;
    HOLDS(same(l->state, before->state.at, 0, l->state.len), "a refused run or layout changed the state");
    HOLDS(same(l->out, old_out, 0, from), "a refused run or layout changed bytes below the former length");
    HOLDS(is_zero(l->out, from), "a refused run or layout left bytes behind");
}

uint64_t checked_run(struct lent *l, uint32_t node) {
    struct lent before = *l;
    uint8_t *old = copy_of(l->state), *old_out = copy_of(l->out);
    uint64_t answer = savetnuok_run(l->source.at, l->source.len, l->tree.at, l->tree.len, l->state.at, l->state.len,
                                    l->out.at, l->out.len, node);
    before.state.at = old;
    answer_fits(&before, answer, node);
    if (answer != 0)
        refused_is_hidden(l, &before, old_out);
    else
        success_is_whole(l, old, old_out, node);
    run_answers[savetnuok_number(answer)]++;
    feature(3, savetnuok_number(answer), savetnuok_place(answer) == 8192, 0);
    free(old);
    free(old_out);
    return answer;
}
