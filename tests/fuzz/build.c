/* The input, byte by byte, and a source and a tree built by its instructions. */
#include <string.h>

#include "build.h"
#include "savetnuok.h"

struct bytes input;

uint32_t take_byte(void) {
    if (input.len == 0)
        return 0;
    input.len--;
    return *input.at++;
}

uint32_t take_two(void) {
    uint32_t low = take_byte();
    return low | take_byte() << 8;
}

uint32_t take_four(void) {
    uint32_t low = take_two();
    return low | take_two() << 16;
}

enum { LEAF, OPEN, CLOSE, BLANK, LINE_COMMENT, BLOCK_COMMENT, REPEAT, NEST, END, OPEN_RULED, TOKEN, INSTRUCTIONS };

/* Kinds that have a rule, and those that stand in their nodes. */
static const uint8_t RULED[] = {0x80, 0x81, 0x82, 0x84, 0x85, 0x88, 0x90, 0x91, 0x92, 0x93, 0x94, 0x95, 0x96, 0x97,
                                0x98, 0x99, 0x9A, 0x9B, 0x9C, 0x9D, 0x9E, 0x9F, 0xA0, 0xA1, 0xA2, 0xA3, 0xA4, 0xA5,
                                0xA6, 0xA7, 0xB0, 0xB1, 0xB2, 0xB3, 0xB4, 0xB5, 0xC0, 0xC1, 0xC2, 0xC3, 0xC4, 0xC5,
                                0xC6, 0xC7, 0xC8, 0xC9, 0xCA, 0xCB, 0xCC, 0xCD, 0xCE, 0xCF, 0xD0, 0xD1, 0xD2, 0xD3,
                                0xD4, 0xD5, 0xD6, 0xD7, 0xD8, 0xD9, 0xDA, 0xDB, 0xDC, 0xDD, 0xDE, 0xDF, 0xE0, 0xE1,
                                0xE2, 0xE3, 0xE4, 0xE5, 0xE6, 0xE7};

/* Tokens that their rules ask for. */
static const struct token {
    uint8_t kind;
    const char *text;
} TOKENS[] = {{0x03, "a"}, {0x05, "1"},  {0x08, "k"},      {0x09, "#"},    {0x0A, "_"},   {0x10, "("},   {0x11, ")"},
              {0x12, "{"}, {0x13, "}"},  {0x14, "["},      {0x15, "]"},    {0x18, ","},   {0x1A, ":"},   {0x1B, "::"},
              {0x1E, "-"}, {0x1F, ".."}, {0x21, "<"},      {0x22, ">"},    {0x29, "*"},   {0x31, "in"},  {0x3E, "as"},
              {0x47, "pub"}, {0x48, "async"}, {0x40, "struct"}, {0x41, "enum"}, {0x43, "use"},
              {0x04, "'a"}, {0x16, ""}, {0x19, ";"}, {0x1C, "="}, {0x1D, "=>"}, {0x20, "..="}, {0x23, "|"},
              {0x24, "||"}, {0x25, "?"}, {0x26, "."}, {0x27, "!"}, {0x2A, "+"}, {0x30, "let"}, {0x32, "if"},
              {0x33, "else"}, {0x34, "while"}, {0x35, "loop"}, {0x36, "for"}, {0x37, "break"}, {0x38, "continue"},
              {0x39, "return"}, {0x3A, "yield"}, {0x3B, "select"}, {0x3C, "default"}, {0x3D, "match"},
              {0x3F, "await"}, {0x42, "fn"}, {0x44, "impl"}, {0x45, "mod"}, {0x46, "const"}, {0x49, "move"}};

static const char *const PIECES[] = {"",
                                     "a",
                                     " ",
                                     "\n",
                                     "\t",
                                     "\r",
                                     "\xC3\xA9",
                                     "\xE2\x82\xAC",
                                     "\xE3\x80\x80",
                                     "\xF0\x90\x8D\x88",
                                     "\xC2\x85",
                                     "zzzzzzzzzzzzzzzzzzzzzzzzzzzzzzzzzzzzzzzzzzzz",
                                     "/",
                                     "*",
                                     "\xC3",
                                     "\x80"};

static struct builder {
    uint8_t source[SOURCE_MOST], tree[TREE_MOST];
    size_t source_len, tree_len, records;
    size_t open[80], opened_at[80]; /* where a composite's record stands, and its number */
    unsigned depth;
} b;

void put_word(uint8_t *at, size_t value) {
    for (int i = 0; i < 4; i++)
        at[i] = (uint8_t)(value >> (8 * i));
}

static void text(const char *piece) {
    size_t len = strlen(piece);
    if (b.source_len + len > sizeof b.source)
        return;
    memcpy(b.source + b.source_len, piece, len);
    b.source_len += len;
}

/* A few pieces, by the next bytes of the input. */
static void some_text(void) {
    for (uint32_t n = take_byte() % 4; n > 0; n--)
        text(PIECES[take_byte() % (sizeof PIECES / sizeof *PIECES)]);
}

/* A record from this place in the source to its present end. */
static void record(uint8_t kind, size_t start) {
    size_t len = kind < 0x80 ? 9 : 13;
    if (b.tree_len + len > sizeof b.tree)
        return;
    b.tree[b.tree_len] = kind;
    put_word(b.tree + b.tree_len + 1, start);
    put_word(b.tree + b.tree_len + 5, b.source_len);
    if (kind >= 0x80)
        put_word(b.tree + b.tree_len + 9, 0);
    b.tree_len += len;
    b.records++;
}

static void open_composite(uint8_t kind) {
    if (b.depth == sizeof b.open / sizeof *b.open || b.tree_len + 13 > sizeof b.tree)
        return;
    b.open[b.depth] = b.tree_len;
    b.opened_at[b.depth++] = b.records;
    record(kind | 0x80, b.source_len);
}

static void close_composite(void) {
    if (b.depth == 0)
        return;
    uint8_t *at = b.tree + b.open[--b.depth];
    put_word(at + 5, b.source_len);
    put_word(at + 9, b.records - b.opened_at[b.depth] - 1);
}

/* The last record's text and a leaf of its kind, so many times. */
static void repeat(uint32_t times) {
    size_t from = b.source_len;
    if (b.tree_len < 9 || b.tree[b.tree_len - 9] >= 0x80)
        return;
    uint8_t kind = b.tree[b.tree_len - 9];
    uint32_t start = savetnuok_word(b.tree + b.tree_len - 8);
    if (start > from || b.source_len + (from - start) > sizeof b.source)
        return;
    for (; times > 0 && b.source_len + (from - start) <= sizeof b.source && b.tree_len + 9 <= sizeof b.tree; times--) {
        size_t at = b.source_len;
        memcpy(b.source + at, b.source + start, from - start);
        b.source_len += from - start;
        record(kind, at);
    }
}

static void comment(uint8_t kind, const char *head, const char *tail) {
    size_t start = b.source_len;
    text(head);
    some_text();
    text(tail);
    record(kind, start);
}

static void leaf(uint8_t kind) {
    size_t start = b.source_len;
    some_text();
    record(kind, start);
}

static void token(const struct token *t) {
    size_t start = b.source_len;
    text(t->text);
    record(t->kind, start);
}

static int instruction(void) {
    uint32_t times;
    switch (input.len == 0 ? END : take_byte() % INSTRUCTIONS) {
    case LEAF:
        leaf(take_byte() & 0x7F);
        break;
    case OPEN:
        open_composite(take_byte());
        break;
    case CLOSE:
        close_composite();
        break;
    case BLANK:
        leaf(0);
        break;
    case LINE_COMMENT:
        comment(1, "//", take_byte() % 2 ? " " : "");
        break;
    case BLOCK_COMMENT:
        comment(2, "/*", "*/");
        break;
    case REPEAT:
        times = take_byte();
        repeat(times * (take_byte() % 40));
        break;
    case NEST:
        for (uint32_t n = take_byte() % 80; n > 0; n--)
            open_composite(0x80);
        break;
    case OPEN_RULED:
        open_composite(RULED[take_byte() % sizeof RULED]);
        break;
    case TOKEN:
        token(&TOKENS[take_byte() % (sizeof TOKENS / sizeof *TOKENS)]);
        break;
    default:
        return 0;
    }
    return 1;
}

void build_script(struct bytes *source, struct bytes *tree) {
    b.source_len = b.tree_len = b.records = b.depth = 0;
    while (instruction())
        ;
    while (b.depth > 0)
        close_composite();
    *source = (struct bytes){b.source, b.source_len};
    *tree = (struct bytes){b.tree, b.tree_len};
}
