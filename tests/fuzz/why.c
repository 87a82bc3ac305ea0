/*
 * What is checked of savetnuok_why, from outside, on the node of each run: the answer is opening's refusal, else 11, 9 or 8
 * as the header says, else 0 or a reason whose place is one of the node's.
 */
#include "check.h"
#include "refusals.h"
#include "savetnuok.h"
#include "states.h"
#include "why.h"

static int is_list(uint8_t kind) {
    return kind == SAVETNUOK_KIND_EXPR_CALL || kind == SAVETNUOK_KIND_EXPR_ARRAY || kind == SAVETNUOK_KIND_EXPR_OBJECT;
}

/* Is it an entry that counts: a key of an object, an expression of another list? */
static int is_entry(uint8_t of, uint8_t kind) {
    return of == SAVETNUOK_KIND_EXPR_OBJECT ? kind == SAVETNUOK_KIND_OBJ_KEY : kind >= 0x80;
}

/* Of a list of an opened tree. */
static void reason_fits(const struct lent *l, uint64_t answer, uint32_t node) {
    uint32_t number = savetnuok_number(answer), place = savetnuok_place(answer);
    size_t at = record_at(l->tree, node);
    uint32_t last = node + below(l->tree, at);
    int inside = place > node && place <= last;
    switch (number) {
    case SAVETNUOK_WHY_COMPACT:
        HOLDS(place == 0, "node %u is compact at %u", node, place);
        break;
    case SAVETNUOK_WHY_WIDE:
        HOLDS(place >= word(l->tree.at, at + 1) + 80 && place < word(l->tree.at, at + 5), "node %u is wide at %u", node,
              place);
        HOLDS(on_boundary(l->source, place), "node %u is wide inside a character, at %u", node, place);
        break;
    case SAVETNUOK_WHY_COMMENT:
        HOLDS(inside && l->tree.at[record_at(l->tree, place)] == 1, "node %u has a comment at %u", node, place);
        break;
    case SAVETNUOK_WHY_SIXTH:
        HOLDS(inside && place >= node + 6 && is_entry(l->tree.at[at], l->tree.at[record_at(l->tree, place)]),
              "node %u has a sixth at %u", node, place);
        break;
    default:
        HOLDS(number == SAVETNUOK_WRONG_KIND && l->tree.at[at] == SAVETNUOK_KIND_EXPR_OBJECT && (place == node || inside),
              "of node %u: refusal %u at %u", node, number, place);
    }
}

void why_is_true(const struct lent *l, uint64_t opening, uint32_t node) {
    uint64_t answer = savetnuok_why(l->source.at, l->source.len, l->tree.at, l->tree.len, node);
    uint64_t want = opening;
    if (opening == 0 && node >= records_in(l->tree))
        want = refusal(SAVETNUOK_NO_NODE, node);
    else if (opening == 0 && !is_list(l->tree.at[record_at(l->tree, node)]))
        want = refusal(SAVETNUOK_NO_RULE, node);
    HOLDS(want == 0 || answer == want, "why %u: answer %llx, wanted %llx", node, (unsigned long long)answer,
          (unsigned long long)want);
    if (want == 0)
        reason_fits(l, answer, node);
}
