/*
 * Lays a script out, as the box's daemon does: opens, lays out, and prints the text.
 *
 *     daemon --layout SCRIPT TREE [ROOM]
 *     daemon SCRIPT TREE RECORDS [ROOM]
 *
 * The first lays the whole script out by one call: the box's main job. The second replays steps from a file, and
 * finishes. RECORDS holds call records one behind the other, as include/savetnuok.h lists them; the kind says how long
 * each is. Between them may stand layouts, by bytes which no call record begins with: E0 and the node's number in four
 * bytes is a run on the node, E1 the layout of the whole.
 * ROOM is the length of the buffer, 1,572,864 where it is not given. Exit status: 0 and the text on standard output; 1
 * and a refusal in words on standard error; 2 where the arguments or the files are at fault.
 */
#include <errno.h>
#include <stdio.h>
#include <stdlib.h>
#include <string.h>

#include "savetnuok.h"

#define ROOM_MOST SAVETNUOK_LAYOUT_ROOM
/* One byte more than a source may have, so that the library says what is wrong. */
#define SCRIPT_MOST (SAVETNUOK_SOURCE_MOST + 1)
/* Nine times what a good tree can have: longer ones are somebody's mistake. */
#define TREE_MOST (1u << 20)
#define RECORDS_MOST (1u << 20)
/* The first bytes of a run and of a whole layout, this program's own. */
#define RUN 0xE0
#define LAYOUT 0xE1

struct bytes {
    uint8_t *at;
    size_t len;
};

struct engine {
    struct bytes script, tree, out;
    uint8_t state[SAVETNUOK_STATE_SIZE];
};

static void usage(void) {
    fputs("usage: daemon --layout SCRIPT TREE [ROOM]\n       daemon SCRIPT TREE RECORDS [ROOM]\n", stderr);
    exit(2);
}

static void fail(const char *file, const char *why) {
    fprintf(stderr, "%s: %s\n", file, why);
    exit(2);
}

static uint8_t *room_for(size_t len) {
    uint8_t *at = malloc(len ? len : 1);
    if (at == NULL)
        fail("daemon", "out of memory");
    return at;
}

/* A file's bytes. Where it has more than `most`: so many of them if `cut`, else the end of the program. */
static struct bytes read_file(const char *name, size_t most, int cut) {
    struct bytes got = {room_for(most + 1), 0};
    FILE *file = fopen(name, "rb");
    if (file == NULL)
        fail(name, strerror(errno));
    got.len = fread(got.at, 1, most + 1, file);
    if (ferror(file))
        fail(name, strerror(errno));
    fclose(file);
    if (got.len > most && !cut)
        fail(name, "the file is too long");
    if (got.len > most)
        got.len = most;
    return got;
}

/* A refusal's name, and what stands around its place. */
struct words {
    const char *name, *before, *after;
};

static const struct words WORDS[] = {
    [SAVETNUOK_SOURCE_LONG] = {"script too long", "it has more than ", " bytes"},
    [SAVETNUOK_SOURCE_ILL] = {"script ill-formed", "no UTF-8 at byte ", ""},
    [SAVETNUOK_TREE_BAD] = {"tree not good", "record ", " breaks a rule"},
    [SAVETNUOK_NO_ROOM] = {"no room", "the buffer holds ", " bytes of text, and the next ones do not fit"},
    [SAVETNUOK_QUEUE_FULL] = {"queue full", "the comment of record ", " would be the 257th to wait"},
    [SAVETNUOK_INDENT_OUT] = {"indent out of bounds", "it is ", ", and stays in 0 to 64"},
    [SAVETNUOK_TREE_DEEP] = {"tree too deep", "record ", " stands at depth 65"},
    [SAVETNUOK_WRONG_KIND] = {"wrong kind", "the rule cannot go on at record ", ""},
    [SAVETNUOK_NO_RULE] = {"no rule", "there is none for the kind of record ", ""},
    [SAVETNUOK_FINISHED] = {"engine finished", "its text has ", " bytes"},
    [SAVETNUOK_NO_NODE] = {"no such node", "the tree has no record ", ""},
    [SAVETNUOK_BAD_CALL] = {"bad call record", "unknown, cut, or with a body that is not listed, from its byte ",
                            " on"},
};

/* Place 8,192 is no record's: the list is too long, or the state at fault. */
static const struct words TOO_MANY = {"tree not good", "it has more than ", " records"};
static const struct words NO_ENGINE = {"state at fault", "place ", ""};

static struct words words_of(uint32_t number, uint32_t place) {
    if (place == SAVETNUOK_RECORDS_MOST && number == SAVETNUOK_TREE_BAD)
        return TOO_MANY;
    if (place == SAVETNUOK_RECORDS_MOST && number == SAVETNUOK_QUEUE_FULL)
        return NO_ENGINE;
    return WORDS[number];
}

/* The refusal in words, and what the daemon was at. */
static void explain(uint64_t answer, const char *doing) {
    uint32_t number = savetnuok_number(answer), place = savetnuok_place(answer);
    struct words words = words_of(number, place);
    fprintf(stderr, "%s: refusal %lu, %s: %s%lu%s\n", doing, (unsigned long)number, words.name, words.before,
            (unsigned long)place, words.after);
}

/* How long the step at the head of `rest` is. One of unknown kind takes all that is left, a cut one what there is:
   the library refuses both. */
static size_t step_length(struct bytes rest) {
    size_t want;
    switch (rest.at[0]) {
    case SAVETNUOK_WRITE_OWNED:
    case SAVETNUOK_WRITE_RAW:
    case SAVETNUOK_IGNORE:
    case RUN:
        want = 5;
        break;
    case SAVETNUOK_LIT:
    case SAVETNUOK_COMMENTS:
    case SAVETNUOK_INDENT:
    case SAVETNUOK_NL:
    case SAVETNUOK_FLUSH_WHITESPACE:
        want = 2;
        break;
    case SAVETNUOK_WS:
    case SAVETNUOK_FLUSH_PREFIX_COMMENTS:
    case SAVETNUOK_FINISH:
    case LAYOUT:
        want = 1;
        break;
    default:
        want = rest.len;
    }
    return want < rest.len ? want : rest.len;
}

static uint64_t call(struct engine *e, const uint8_t *record, size_t len) {
    return savetnuok_call(e->script.at, e->script.len, e->tree.at, e->tree.len, e->state, sizeof e->state, e->out.at,
                          e->out.len, record, len);
}

static uint64_t run(struct engine *e, uint32_t node) {
    return savetnuok_run(e->script.at, e->script.len, e->tree.at, e->tree.len, e->state, sizeof e->state, e->out.at,
                         e->out.len, node);
}

static uint64_t layout(struct engine *e) {
    return savetnuok_layout(e->script.at, e->script.len, e->tree.at, e->tree.len, e->state, sizeof e->state, e->out.at,
                            e->out.len);
}

/* A cut run is a bad call record, too. */
static int is_run(struct bytes step) { return step.at[0] == RUN && step.len == 5; }

static int is_layout(struct bytes step) { return step.at[0] == LAYOUT; }

static uint64_t make(struct engine *e, struct bytes step) {
    if (is_run(step))
        return run(e, savetnuok_word(step.at + 1));
    return is_layout(step) ? layout(e) : call(e, step.at, step.len);
}

static const char *name_of(struct bytes step) { return is_run(step) ? "run" : is_layout(step) ? "layout" : "call"; }

/* All steps, and a finish if they end without one. */
static int replay(struct engine *e, struct bytes records) {
    static const uint8_t finish[] = {SAVETNUOK_FINISH};
    char doing[64];
    size_t at = 0;
    for (unsigned long number = 0; at < records.len; number++) {
        struct bytes rest = {records.at + at, records.len - at};
        struct bytes step = {rest.at, step_length(rest)};
        uint64_t answer = make(e, step);
        if (answer != 0) {
            snprintf(doing, sizeof doing, "%s %lu, at byte %lu of the records", name_of(step), number,
                     (unsigned long)at);
            explain(answer, doing);
            return 1;
        }
        at += step.len;
    }
    if (savetnuok_word(e->state + SAVETNUOK_STATE_FINISHED) == 1)
        return 0;
    uint64_t answer = call(e, finish, sizeof finish);
    if (answer != 0)
        explain(answer, "the finish");
    return answer != 0;
}

/* The whole script by one call. */
static int lay_out(struct engine *e) {
    uint64_t answer = layout(e);
    if (answer != 0)
        explain(answer, "the layout");
    return answer != 0;
}

static size_t room_of(const char *text) {
    char *end;
    errno = 0;
    unsigned long room = strtoul(text, &end, 10);
    if (errno != 0 || end == text || *end != '\0' || *text == '-' || room > ROOM_MOST)
        usage();
    return room;
}

int main(int argc, char **argv) {
    static struct engine e;
    struct bytes records = {NULL, 0};
    int whole = argc > 1 && strcmp(argv[1], "--layout") == 0;
    char **files = argv + 1 + whole;
    if (argc < 4 || argc > 5)
        usage();
    e.out.len = argc == 5 ? room_of(argv[4]) : ROOM_MOST;
    e.out.at = room_for(e.out.len);
    e.script = read_file(files[0], SCRIPT_MOST, 1);
    e.tree = read_file(files[1], TREE_MOST, 0);
    if (!whole)
        records = read_file(files[2], RECORDS_MOST, 0);

    uint64_t answer = savetnuok_open(e.script.at, e.script.len, e.tree.at, e.tree.len, e.state, sizeof e.state);
    int status = answer != 0;
    if (answer != 0)
        explain(answer, "opening");
    else
        status = whole ? lay_out(&e) : replay(&e, records);
    if (status == 0) {
        size_t len = savetnuok_word(e.state + SAVETNUOK_STATE_LENGTH);
        if (fwrite(e.out.at, 1, len, stdout) != len || fflush(stdout) != 0)
            fail("standard output", strerror(errno));
    }
    free(e.script.at);
    free(e.tree.at);
    free(e.out.at);
    free(records.at);
    return status;
}
