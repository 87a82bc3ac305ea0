/*
 * seeds FOLDER TREES CALLS RUNS: first inputs of the fuzz target. The recorded openings and histories, as inputs whose
 * source and tree are bytes; those with a source or a tree over 1,500 bytes are left out, as an input is better small.
 * The first histories again with a changed word of the state in them. Trees at the bounds, by instructions. A layout
 * ends each history, and stands before the call on a recorded opening; the recorded runs once more, in a body, every
 * second one with a layout alone.
 */
#include "../outside/recorded.h"

#define PART_MOST 1500
#define RUN 0xA0
#define LAYOUT 0xB8
#define LAYOUT_ROOM 2000
#define RAW_RECORD 0xC0
#define SCALAR 0xC2

static const uint16_t VALUES[] = {0, 1, 2, 63, 64, 65, 255, 256, 257, 65535};
#define CHANGED 120 /* 12 words, 10 values */

/* Instructions, as fuzz.c numbers them: LEAF 0, OPEN 1, CLOSE 2, BLANK 3, LINE_COMMENT 4, BLOCK_COMMENT 5, REPEAT 6,
   NEST 7, END 8, OPEN_RULED 9, TOKEN 10. */
static const struct {
    size_t len;
    uint8_t bytes[24];
} BUILT[] = {
    {22, {1, 255, 255, 0, 3, 1, 1, 5, 0, 6, 254, 1, 8, 3, 0, 0, 8, 3, 0, 0, 11, 8}}, /* 255 comments */
    {22, {1, 255, 255, 0, 3, 1, 1, 5, 0, 6, 255, 1, 8, 3, 0, 0, 8, 3, 0, 0, 5, 0}},  /* 256 */
    {20, {1, 255, 255, 0, 3, 1, 1, 4, 1, 0, 6, 128, 2, 8, 3, 0, 0, 10, 11, 8}},      /* 257 line comments */
    {12, {1, 64, 0, 7, 63, 0, 3, 1, 1, 8, 10, 11}},                                  /* 64 levels */
    {12, {1, 64, 0, 7, 64, 0, 3, 1, 1, 8, 10, 11}},                                  /* 65 */
    {15, {1, 64, 0, 0, 3, 1, 1, 6, 240, 34, 8, 1, 5, 0, 11}},                        /* 8,161 records */
    {18, {1, 64, 0, 0, 3, 1, 1, 6, 241, 33, 6, 119, 2, 8, 1, 5, 0, 11}},             /* 8,192 */
    {18, {1, 64, 0, 0, 3, 1, 1, 6, 241, 33, 6, 239, 1, 8, 1, 5, 0, 11}},             /* 8,193 */
    {20, {1, 255, 255, 0, 3, 1, 11, 6, 146, 10, 6, 28, 1, 0, 3, 1, 1, 8, 10, 11}},   /* 65,517 bytes */
    {20, {1, 255, 255, 0, 3, 1, 11, 6, 149, 10, 0, 3, 1, 1, 8, 10, 11, 8, 8, 8}},    /* over 65,536 bytes */
    {14, {1, 64, 0, 1, 0, 1, 0x16, 1, 0x30, 10, 0, 8, LAYOUT, LAYOUT}},              /* a path in a body */
    {12, {1, 255, 255, 1, 0, 5, 0, 6, 255, 1, 8, LAYOUT}},                           /* 256 comments in a body */
    {12, {1, 255, 255, 1, 0, 5, 0, 6, 128, 2, 8, LAYOUT}},                           /* 257 */
    {13, {1, 255, 255, 1, 0, 3, 1, 3, 6, 73, 28, 8, LAYOUT}},                        /* a tree of 18,418 bytes */
    {16, {1, 255, 255, 1, 0, 3, 1, 3, 6, 73, 28, 6, 1, 1, 8, LAYOUT}},               /* of 18,427: the large table */
};

static const char *folder, *sort;
static unsigned long written;

static void put_two(FILE *file, size_t n) {
    fputc((int)(n & 255), file);
    fputc((int)(n >> 8 & 255), file);
}

static FILE *new_file(unsigned long number) {
    char name[4096];
    snprintf(name, sizeof name, "%s/%s-%lu", folder, sort, number);
    FILE *file = fopen(name, "wb");
    if (file == NULL)
        fail(name, "cannot be written");
    written++;
    return file;
}

/* Is the tree to stand in a body, with a layout as the whole history, or behind every second one? */
static int laid;

static FILE *begin(struct bytes source, struct bytes tree, size_t room, unsigned long number) {
    if (source.len > PART_MOST || tree.len > PART_MOST)
        return NULL;
    FILE *file = new_file(number);
    fputc(laid ? 2 : 0, file);
    put_two(file, source.len);
    put_two(file, tree.len);
    put_two(file, room);
    fwrite(source.at, 1, source.len, file);
    fwrite(tree.at, 1, tree.len, file);
    return file;
}

static void one_tree(unsigned long number) {
    struct bytes source = take_pieces(), tree = take_pieces();
    take_answer();
    FILE *file = begin(source, tree, 64, number);
    if (file != NULL) {
        fputc(LAYOUT, file);
        fputc(SAVETNUOK_FLUSH_PREFIX_COMMENTS, file);
        fclose(file);
    }
    free(source.at);
    free(tree.at);
}

static int changed, with_runs;

static void one_call(FILE *file) {
    size_t len = take_word();
    const uint8_t *record = take(len);
    struct bytes step = {(uint8_t *)record, len};
    if (file != NULL && with_runs && is_run(step)) {
        fputc(RUN, file);
        put_two(file, 0x8000 | run_node(step));
    } else if (file != NULL && with_runs && is_layout(step)) {
        fputc(LAYOUT, file);
    } else if (file != NULL) {
        fputc(RAW_RECORD, file);
        fputc((int)len, file);
        fwrite(record, 1, len, file);
    }
    take_answer();
    const uint8_t *state = take(32);
    take(savetnuok_word(state + SAVETNUOK_STATE_WAITING) * (size_t)SAVETNUOK_COMMENT_SIZE);
    take(savetnuok_word(state + SAVETNUOK_STATE_LENGTH));
}

static void one_history(unsigned long number) {
    struct bytes source = take_pieces(), tree = take_pieces();
    size_t room = take_word();
    FILE *file = !changed || number < CHANGED ? begin(source, tree, laid ? LAYOUT_ROOM : room, number) : NULL;
    for (uint32_t n = take_word(), i = 0; i < n; i++) {
        if (changed && file != NULL && i == 1) {
            fputc(SCALAR, file);
            fputc((int)(number % 12), file);
            put_two(file, VALUES[number / 12]);
        }
        one_call(laid && number % 2 == 0 ? NULL : file);
    }
    if (file != NULL) {
        fputc(LAYOUT, file);
        fclose(file);
    }
    free(source.at);
    free(tree.at);
}

static void built(void) {
    for (size_t i = 0; i < sizeof BUILT / sizeof *BUILT; i++) {
        FILE *file = new_file(i);
        fwrite(BUILT[i].bytes, 1, BUILT[i].len, file);
        fclose(file);
    }
}

int main(int argc, char **argv) {
    if (argc != 5)
        fail("usage", "seeds FOLDER TREES CALLS RUNS");
    folder = argv[1];
    sort = "tree";
    each_case(argv[2], one_tree);
    sort = "calls";
    each_case(argv[3], one_history);
    sort = "runs";
    with_runs = 1;
    each_case(argv[4], one_history);
    sort = "laid";
    laid = 1;
    each_case(argv[4], one_history);
    laid = 0;
    sort = "changed";
    changed = 1;
    each_case(argv[4], one_history);
    with_runs = 0;
    sort = "changed-calls";
    each_case(argv[3], one_history);
    sort = "built";
    built();
    printf("%lu first inputs\n", written);
    return 0;
}
