/*
 * Replays recorded openings and histories through the exported functions, and compares every answer and every byte.
 *
 *     replay [--stack] [--every N] [--trees FILE]... [--calls FILE]... [--runs FILE]...
 *
 * The files have the form that oracle/README.md gives for trees.bin, calls.bin and runs.bin. Every slice is a block of
 * its own of exactly its size, so that valgrind and the address sanitizer see a step outside. --every N takes each Nth
 * case only; --stack tells how much stack the calls took. Exit status: 0 where nothing differs, 1 where something does,
 * 2 where the arguments or files are at fault.
 */
#include "recorded.h"

#define FILL 0xEE
#define DIFFERENCES_MOST 10

static unsigned long every = 1, openings, calls, runs, layouts, differences;
static int measure_stack, with_runs;
static size_t open_stack, call_stack, run_stack, layout_stack;

/* ---- the stack: painted below the caller's frame before a call, and looked at behind it ---- */

#define PAINTED 32768 /* words of eight bytes */
#define PAINT 0xC5A3C5A3C5A3C5A3u

__attribute__((noinline)) static void paint(void) {
    volatile uint64_t strip[PAINTED];
    for (size_t i = 0; i < PAINTED; i++)
        strip[i] = PAINT;
    (void)strip[0];
}

__attribute__((noinline)) static size_t touched(void) {
    volatile uint64_t strip[PAINTED];
    size_t i = 0;
    __asm__ volatile("" : "=m"(strip));
    while (i < PAINTED && strip[i] == PAINT)
        i++;
    return (PAINTED - i) * 8;
}

/* `touched` is called where `paint` was, so that both see the same frame. */
static void note(size_t *deepest, size_t now) {
    if (now > *deepest)
        *deepest = now;
}

/* ---- one case ---- */

struct engine {
    struct bytes source, tree, state, out, record;
};

static uint64_t open_it(struct engine *e) {
    if (measure_stack)
        paint();
    uint64_t answer = savetnuok_open(e->source.at, e->source.len, e->tree.at, e->tree.len, e->state.at, e->state.len);
    if (measure_stack)
        note(&open_stack, touched());
    openings++;
    return answer;
}

static uint64_t call_it(struct engine *e) {
    if (measure_stack)
        paint();
    uint64_t answer = savetnuok_call(e->source.at, e->source.len, e->tree.at, e->tree.len, e->state.at, e->state.len,
                                     e->out.at, e->out.len, e->record.at, e->record.len);
    if (measure_stack)
        note(&call_stack, touched());
    calls++;
    return answer;
}

static uint64_t run_it(struct engine *e) {
    uint32_t node = run_node(e->record);
    if (measure_stack)
        paint();
    uint64_t answer = savetnuok_run(e->source.at, e->source.len, e->tree.at, e->tree.len, e->state.at, e->state.len,
                                    e->out.at, e->out.len, node);
    if (measure_stack)
        note(&run_stack, touched());
    runs++;
    return answer;
}

static uint64_t layout_it(struct engine *e) {
    if (measure_stack)
        paint();
    uint64_t answer = savetnuok_layout(e->source.at, e->source.len, e->tree.at, e->tree.len, e->state.at, e->state.len,
                                       e->out.at, e->out.len);
    if (measure_stack)
        note(&layout_stack, touched());
    layouts++;
    return answer;
}

/* A run or a layout where the record is the step of one, and the file has them. */
static uint64_t step_it(struct engine *e) {
    if (with_runs && is_run(e->record))
        return run_it(e);
    return with_runs && is_layout(e->record) ? layout_it(e) : call_it(e);
}

static void compare(const char *what, unsigned long number, int same) {
    if (same)
        return;
    printf("DIFFERS: %s, case %lu: %s\n", file_name, number, what);
    if (++differences >= DIFFERENCES_MOST)
        exit(1);
}

static int all(struct bytes b, size_t from, uint8_t value) {
    for (size_t i = from; i < b.len; i++)
        if (b.at[i] != value)
            return 0;
    return 1;
}

/* A call on what was opened: it is refused as the opening was. */
static void one_more(struct engine *e, unsigned long number, uint64_t opening) {
    e->record = block(1);
    e->record.at[0] = SAVETNUOK_INDENT;
    compare("answer of a call", number, call_it(e) == (opening == 0 ? (uint64_t)SAVETNUOK_BAD_CALL << 32 : opening));
    free(e->record.at);
}

static void one_tree(unsigned long number) {
    struct engine e = {.source = take_pieces(), .tree = take_pieces(), .state = block(SAVETNUOK_STATE_SIZE)};
    uint64_t want = take_answer();
    if (number % every == 0) {
        /* a good tree is recorded by its number of records */
        uint64_t answer = want >> 32 == 0 ? 0 : want;
        memset(e.state.at, FILL, e.state.len);
        compare("answer of open", number, open_it(&e) == answer);
        compare("state of open", number, all(e.state, 0, answer == 0 ? 0 : FILL));
        one_more(&e, number, answer);
    }
    free(e.source.at);
    free(e.tree.at);
    free(e.state.at);
}

/* The recorded state: eight words, and four for each waiting comment; zero from there on. The eighth word is no part of
   it: it tells whether the bytes behind the output are zero, which a refused run or layout makes them. */
static int take_state(uint8_t *state) {
    memset(state, 0, SAVETNUOK_STATE_SIZE);
    memcpy(state, take(32), 32);
    size_t len = savetnuok_word(state + SAVETNUOK_STATE_WAITING) * (size_t)SAVETNUOK_COMMENT_SIZE;
    memcpy(state + SAVETNUOK_STATE_COMMENTS, take(len), len);
    int zeroed = state[SAVETNUOK_STATE_ZERO];
    state[SAVETNUOK_STATE_ZERO] = 0;
    return zeroed;
}

static void one_call(struct engine *e, unsigned long number, int run) {
    uint8_t want[SAVETNUOK_STATE_SIZE];
    e->record = block(take_word());
    if (e->record.len != 0)
        memcpy(e->record.at, take(e->record.len), e->record.len);
    uint64_t answer = take_answer();
    int zeroed = take_state(want);
    size_t len = savetnuok_word(want + SAVETNUOK_STATE_LENGTH);
    const uint8_t *output = take(len);
    if (run) {
        uint64_t got = step_it(e);
        compare("answer", number, got == answer);
        compare("state", number, memcmp(e->state.at, want, sizeof want) == 0);
        compare("output", number, len == 0 || memcmp(e->out.at, output, len) == 0);
        compare("bytes behind the output", number, all(e->out, len, zeroed ? 0 : FILL));
    }
    free(e->record.at);
}

static void one_history(unsigned long number) {
    struct engine e = {.source = take_pieces(), .tree = take_pieces(), .state = block(SAVETNUOK_STATE_SIZE)};
    int run = number % every == 0;
    e.out = block(take_word());
    if (e.out.len != 0)
        memset(e.out.at, FILL, e.out.len);
    if (run)
        compare("opening", number, open_it(&e) == 0 && all(e.state, 0, 0));
    for (uint32_t n = take_word(); n > 0; n--)
        one_call(&e, number, run);
    free(e.source.at);
    free(e.tree.at);
    free(e.state.at);
    free(e.out.at);
}

int main(int argc, char **argv) {
    for (int i = 1; i < argc; i++) {
        const char *value = i + 1 < argc ? argv[i + 1] : "";
        if (strcmp(argv[i], "--stack") == 0) {
            measure_stack = 1;
            continue;
        }
        if (strcmp(argv[i], "--every") == 0)
            every = strtoul(value, NULL, 10);
        else if (strcmp(argv[i], "--trees") == 0)
            each_case(value, one_tree);
        else if (strcmp(argv[i], "--calls") == 0 || strcmp(argv[i], "--runs") == 0) {
            with_runs = argv[i][2] == 'r';
            each_case(value, one_history);
        }
        else
            fail(argv[i], "not known");
        if (every == 0)
            fail("--every", "needs a number");
        i++;
    }
    printf("  %lu openings, %lu calls, %lu runs and %lu layouts replayed, %lu differ\n", openings, calls, runs, layouts,
           differences);
    if (measure_stack)
        printf("  stack below the caller's frame: opening %zu bytes, a call %zu, a run %zu, a layout %zu; "
               "the header says %d\n",
               open_stack, call_stack, run_stack, layout_stack, SAVETNUOK_STACK_SIZE);
    size_t deepest = 0;
    note(&deepest, open_stack), note(&deepest, call_stack), note(&deepest, run_stack), note(&deepest, layout_stack);
    if (deepest > SAVETNUOK_STACK_SIZE) {
        printf("DIFFERS: the stack is deeper than the header says\n");
        return 1;
    }
    return differences != 0;
}
