/* What a call, run or layout is refused with before its own steps, from the header's words: the third time, beside the
 * library and the oracle's driver. */
#include "refusals.h"
#include "savetnuok.h"
#include "states.h"

uint64_t refusal(uint32_t number, uint32_t place) { return (uint64_t)number << 32 | place; }

static int is_flag(const uint8_t *at) { return savetnuok_word(at) <= 1; }

int on_boundary(struct bytes source, uint32_t place) {
    return place == source.len || (place < source.len && (source.at[place] & 0xC0) != 0x80);
}

int shape_is_good(const struct lent *l) {
    const uint8_t *state = l->state.at;
    if (l->state.len != SAVETNUOK_STATE_SIZE || l->out.len > 0xFFFFFFFF)
        return 0;
    if (!is_flag(state + SAVETNUOK_STATE_USE_LINES) || !is_flag(state + SAVETNUOK_STATE_WS) ||
        !is_flag(state + SAVETNUOK_STATE_FINISHED))
        return 0;
    uint32_t waiting = savetnuok_word(state + SAVETNUOK_STATE_WAITING);
    for (uint32_t k = 0; k < waiting && k < SAVETNUOK_WAITING_MOST; k++)
        if (!is_flag(state + SAVETNUOK_STATE_COMMENTS + k * SAVETNUOK_COMMENT_SIZE + SAVETNUOK_COMMENT_LINE))
            return 0;
    return 1;
}

static int queue_is_good(const struct lent *l) {
    uint32_t waiting = savetnuok_word(l->state.at + SAVETNUOK_STATE_WAITING);
    if (waiting > SAVETNUOK_WAITING_MOST)
        return 0;
    for (uint32_t k = 0; k < waiting; k++) {
        const uint8_t *c = l->state.at + SAVETNUOK_STATE_COMMENTS + k * SAVETNUOK_COMMENT_SIZE;
        uint32_t start = savetnuok_word(c + SAVETNUOK_COMMENT_START), end = savetnuok_word(c + SAVETNUOK_COMMENT_END);
        if (start > end || !on_boundary(l->source, start) || !on_boundary(l->source, end))
            return 0;
    }
    return 1;
}

static int record_is_good(struct bytes record) {
    /* for each kind: bytes of its body, and how many values one byte may have */
    static const struct {
        uint8_t body;
        uint16_t values;
    } kinds[] = {{0, 0}, {4, 0}, {4, 0}, {4, 0}, {1, 8}, {1, 4}, {1, 256}, {1, 256}, {0, 0}, {1, 2}, {0, 0}, {0, 0}};
    if (record.len == 0 || record.at[0] == 0 || record.at[0] > SAVETNUOK_FINISH)
        return 0;
    uint8_t body = kinds[record.at[0]].body;
    return record.len == 1u + body && (body != 1 || record.at[1] < kinds[record.at[0]].values);
}

uint32_t records_in(struct bytes tree) {
    uint32_t n = 0;
    for (size_t at = 0; at < tree.len; n++)
        at += tree.at[at] < 0x80 ? 9 : 13;
    return n;
}

static uint64_t refusal_of_what_is_lent(const struct lent *l) {
    if (!shape_is_good(l))
        return refusal(SAVETNUOK_QUEUE_FULL, SAVETNUOK_RECORDS_MOST);
    uint32_t length = savetnuok_word(l->state.at + SAVETNUOK_STATE_LENGTH);
    uint32_t indent = savetnuok_word(l->state.at + SAVETNUOK_STATE_INDENT);
    if (length > l->out.len)
        return refusal(SAVETNUOK_NO_ROOM, length);
    if (!queue_is_good(l))
        return refusal(SAVETNUOK_QUEUE_FULL, SAVETNUOK_RECORDS_MOST);
    return indent > SAVETNUOK_INDENT_MOST ? refusal(SAVETNUOK_INDENT_OUT, indent) : 0;
}

static uint64_t refusal_by_the_finish(const struct lent *l) {
    if (savetnuok_word(l->state.at + SAVETNUOK_STATE_FINISHED) == 0)
        return 0;
    return refusal(SAVETNUOK_FINISHED, savetnuok_word(l->state.at + SAVETNUOK_STATE_LENGTH));
}

uint64_t refusal_before_its_steps(const struct lent *l) {
    uint64_t lent = refusal_of_what_is_lent(l);
    if (lent != 0)
        return lent;
    if (!record_is_good(l->record))
        return refusal(SAVETNUOK_BAD_CALL, 0);
    uint64_t finished = refusal_by_the_finish(l);
    if (finished != 0)
        return finished;
    if (l->record.at[0] > SAVETNUOK_IGNORE)
        return 0;
    uint32_t node = savetnuok_word(l->record.at + 1);
    return node < records_in(l->tree) ? 0 : refusal(SAVETNUOK_NO_NODE, node);
}

int has_a_rule(uint8_t kind) {
    static const uint8_t kinds[] = {
        SAVETNUOK_KIND_BLOCK_BODY, SAVETNUOK_KIND_BLOCK, SAVETNUOK_KIND_ITEM, SAVETNUOK_KIND_ITEM_SEMI,
        SAVETNUOK_KIND_CONST_STMT, SAVETNUOK_KIND_CONST_SEMI, SAVETNUOK_KIND_LOCAL, SAVETNUOK_KIND_LOCAL_SEMI,
        SAVETNUOK_KIND_EXPR, SAVETNUOK_KIND_EXPR_SEMI, SAVETNUOK_KIND_ITEM_STRUCT, SAVETNUOK_KIND_ITEM_ENUM,
        SAVETNUOK_KIND_ITEM_FN, SAVETNUOK_KIND_ITEM_USE, SAVETNUOK_KIND_ITEM_IMPL, SAVETNUOK_KIND_ITEM_MOD,
        SAVETNUOK_KIND_ITEM_FILE_MOD, SAVETNUOK_KIND_ITEM_CONST, SAVETNUOK_KIND_ITEM_USE_PATH,
        SAVETNUOK_KIND_ITEM_USE_GROUP, SAVETNUOK_KIND_VARIANT, SAVETNUOK_KIND_STRUCT_BODY, SAVETNUOK_KIND_TUPLE_BODY,
        SAVETNUOK_KIND_FN_ARGS, SAVETNUOK_KIND_PATH, SAVETNUOK_KIND_PATH_GENERICS, SAVETNUOK_KIND_PAT,
        SAVETNUOK_KIND_PAT_ARRAY, SAVETNUOK_KIND_PAT_TUPLE, SAVETNUOK_KIND_PAT_OBJECT, SAVETNUOK_KIND_LIT,
        SAVETNUOK_KIND_TEMPLATE, SAVETNUOK_KIND_EXPR_ASSIGN, SAVETNUOK_KIND_EXPR_ARRAY, SAVETNUOK_KIND_EXPR_TUPLE,
        SAVETNUOK_KIND_EXPR_OBJECT, SAVETNUOK_KIND_EXPR_BINARY, SAVETNUOK_KIND_EXPR_UNARY, SAVETNUOK_KIND_EXPR_GROUP,
        SAVETNUOK_KIND_EXPR_EMPTY_GROUP, SAVETNUOK_KIND_EXPR_IF, SAVETNUOK_KIND_CONDITION, SAVETNUOK_KIND_EXPR_WHILE,
        SAVETNUOK_KIND_EXPR_LOOP, SAVETNUOK_KIND_EXPR_FOR, SAVETNUOK_KIND_EXPR_BREAK, SAVETNUOK_KIND_EXPR_CONTINUE,
        SAVETNUOK_KIND_EXPR_RETURN, SAVETNUOK_KIND_EXPR_YIELD, SAVETNUOK_KIND_EXPR_SELECT, SAVETNUOK_KIND_EXPR_MATCH,
        SAVETNUOK_KIND_RANGE_FULL, SAVETNUOK_KIND_RANGE_FROM, SAVETNUOK_KIND_RANGE_TO, SAVETNUOK_KIND_RANGE_TO_INCL,
        SAVETNUOK_KIND_RANGE, SAVETNUOK_KIND_RANGE_INCL, SAVETNUOK_KIND_EXPR_CLOSURE, SAVETNUOK_KIND_EXPR_CHAIN,
        SAVETNUOK_KIND_EXPR_CALL
    };
    for (size_t i = 0; i < sizeof kinds; i++)
        if (kinds[i] == kind)
            return 1;
    return 0;
}

uint64_t refusal_before_its_rule(const struct lent *l, uint32_t node) {
    uint64_t lent = refusal_of_what_is_lent(l);
    if (lent != 0)
        return lent;
    uint64_t finished = refusal_by_the_finish(l);
    if (finished != 0)
        return finished;
    if (node >= records_in(l->tree))
        return refusal(SAVETNUOK_NO_NODE, node);
    return has_a_rule(l->tree.at[record_at(l->tree, node)]) ? 0 : refusal(SAVETNUOK_NO_RULE, node);
}

uint64_t refusal_before_its_calls(const struct lent *l) {
    uint64_t lent = refusal_of_what_is_lent(l);
    if (lent != 0)
        return lent;
    uint64_t finished = refusal_by_the_finish(l);
    if (finished != 0)
        return finished;
    int whole = l->tree.len > 0 && l->tree.at[0] == SAVETNUOK_KIND_BLOCK_BODY &&
                below(l->tree, 0) == records_in(l->tree) - 1;
    return whole ? 0 : refusal(SAVETNUOK_WRONG_KIND, 0);
}

/* The new indent, or -1 where it would leave its bounds. */
int indent_after(uint32_t indent, uint8_t by) {
    int to = (int)indent + (by < 128 ? by : by - 256);
    return to >= 0 && to <= SAVETNUOK_INDENT_MOST ? to : -1;
}
