/*
 * What is checked after each layout, from outside and without the rules of layout:
 *
 *   Demand 1   As after a run (runs.c), with 8 at 0 exactly where record 0 is no block body that holds all other
 *              records. A success leaves a finished engine with the former indent.
 *   Demand 3   None waits. The new text begins with the comments that waited and those at the head of the tree, in
 *              their order, and besides them spaces and newlines only.
 */
#include <stdlib.h>

#include "build.h"
#include "check.h"
#include "refusals.h"
#include "runs.h"
#include "savetnuok.h"
#include "states.h"

static void answer_fits(const struct lent *l, uint64_t answer) {
    uint8_t fresh[SAVETNUOK_STATE_SIZE];
    uint64_t opening = savetnuok_open(l->source.at, l->source.len, l->tree.at, l->tree.len, fresh, sizeof fresh);
    uint64_t want = opening != 0 ? opening : refusal_before_its_calls(l);
    HOLDS(want == 0 || answer == want, "a layout: answer %llx, wanted %llx", (unsigned long long)answer,
          (unsigned long long)want);
    if (want == 0)
        refusal_of_the_rule_fits(l, answer, 0);
}

/* Takes the comments in front of the first token off the written bytes; gives their number. */
static uint32_t take_head(const struct lent *l, struct bytes *written) {
    uint8_t c[SAVETNUOK_COMMENT_SIZE] = {0};
    uint32_t count = 0;
    for (size_t at = 0; at < l->tree.len; at += l->tree.at[at] < 0x80 ? 9 : 13) {
        uint8_t kind = l->tree.at[at];
        if (below(l->tree, at) > 0 || kind == SAVETNUOK_KIND_WS)
            continue;
        if (kind > SAVETNUOK_KIND_BLOCK_COMMENT)
            break;
        put_word(c + SAVETNUOK_COMMENT_START, savetnuok_word(l->tree.at + at + 1));
        put_word(c + SAVETNUOK_COMMENT_END, savetnuok_word(l->tree.at + at + 5));
        put_word(c + SAVETNUOK_COMMENT_LINE, kind == SAVETNUOK_KIND_LINE_COMMENT);
        take_comment(l->source, written, c);
        count++;
    }
    return count;
}

static void comments_are_kept(const struct lent *l, const uint8_t *old, struct bytes written) {
    uint32_t waited = word(old, SAVETNUOK_STATE_WAITING);
    HOLDS(word(l->state.at, SAVETNUOK_STATE_WAITING) == 0, "a comment waits after a layout");
    for (uint32_t k = 0; k < waited; k++)
        take_comment(l->source, &written, comment(old, k));
    uint32_t head = take_head(l, &written);
    feature(6, waited < 8 ? waited : 8, head < 8 ? head : 8, l->tree.len > 18423);
}

static void success_is_whole(const struct lent *l, const uint8_t *old, const uint8_t *old_out) {
    state_is_canonical(l->source, l->state.at, l->out.len);
    uint32_t from = word(old, SAVETNUOK_STATE_LENGTH), to = word(l->state.at, SAVETNUOK_STATE_LENGTH);
    HOLDS(from <= to, "the output shrank");
    HOLDS(same(l->out, old_out, 0, from), "bytes below the former length changed");
    HOLDS(same(l->out, old_out, to, l->out.len), "bytes beyond the new length changed");
    HOLDS(word(l->state.at, SAVETNUOK_STATE_FINISHED) == 1, "a layout did not finish the engine");
    HOLDS(word(l->state.at, SAVETNUOK_STATE_INDENT) == word(old, SAVETNUOK_STATE_INDENT),
          "a layout left another indent");
    struct bytes written = {l->out.at + from, to - from};
    comments_are_kept(l, old, written);
}

uint64_t checked_layout(struct lent *l) {
    struct lent before = *l;
    uint8_t *old = copy_of(l->state), *old_out = copy_of(l->out);
    uint64_t answer = savetnuok_layout(l->source.at, l->source.len, l->tree.at, l->tree.len, l->state.at, l->state.len,
                                       l->out.at, l->out.len);
    before.state.at = old;
    answer_fits(&before, answer);
    if (answer != 0)
        refused_is_hidden(l, &before, old_out);
    else
        success_is_whole(l, old, old_out);
    layout_answers[savetnuok_number(answer)]++;
    feature(5, savetnuok_number(answer), savetnuok_place(answer) == 8192, 0);
    free(old);
    free(old_out);
    return answer;
}
