/*
 * Savetnuok: lays out Rune scripts. Link libsavetnuok.a; this header is all that a C or C++ program needs besides it.
 *
 * You lend a script (the source), its tree, an engine (the state) and a buffer, all as bytes, and make calls: "write
 * node 7", "a space may stand here", "a new line may begin here". The library writes the laid-out text into the buffer.
 * A run on a node makes the calls that lay out the node, by the rule of its kind, or none of them. A layout does so
 * for a whole script: savetnuok_open and savetnuok_layout are all that most programs need.
 * The comments that stand in the tree behind a written node are collected, and wait in the engine until a call lets
 * them out. Of the comments collected none is lost, doubled or passed by another, and none stands before the code that
 * it followed. Which are not collected, and what else may surprise you, is said at savetnuok_run. By single calls:
 *
 *     uint8_t state[SAVETNUOK_STATE_SIZE], out[1 << 17];
 *     const uint8_t write_node_0[] = {SAVETNUOK_WRITE_OWNED, 0, 0, 0, 0}, finish[] = {SAVETNUOK_FINISH};
 *     uint64_t answer = savetnuok_open(source, source_len, tree, tree_len, state, sizeof state);
 *     if (answer == 0)
 *         answer = savetnuok_call(source, source_len, tree, tree_len, state, sizeof state, out, sizeof out,
 *                                 write_node_0, sizeof write_node_0);
 *     if (answer == 0)
 *         answer = savetnuok_call(source, source_len, tree, tree_len, state, sizeof state, out, sizeof out,
 *                                 finish, sizeof finish);
 *     if (answer == 0)
 *         fwrite(out, 1, savetnuok_word(state + SAVETNUOK_STATE_LENGTH), stdout);
 *     else
 *         fprintf(stderr, "refusal %u, place %u\n", savetnuok_number(answer), savetnuok_place(answer));
 *
 * Each function is proved to do what its description below says, for any bytes, in any order of calls: no entry trusts
 * its caller. What no proof can see to is that a pointer and a length name memory that is yours to lend:
 *
 *   - Each slice is a pointer and a length in bytes, to be read over that length; `state` and `out` to be written, too.
 *     Where the length is 0 the pointer is not used, and may be NULL.
 *   - No alignment is asked of any pointer: everything is bytes. Numbers inside are four bytes, low byte first.
 *   - The slices of one call must not overlap, in any part. If they do, nothing that is said here holds.
 *   - The library has no data of its own, allocates nothing, and calls nothing but memcpy, memmove, memset and memcmp.
 *     Calls on different states and buffers may run at the same time, on one source and tree, too. Two calls at the
 *     same time on one state or one buffer are forbidden.
 *   - A call, run or layout needs up to SAVETNUOK_STACK_SIZE bytes of stack below its caller's frame. The proof knows no
 *     stack: where there is less, the system ends the program at the stack's guard page, if it has one. Size your
 *     threads' stacks by it.
 */
#ifndef SAVETNUOK_H
#define SAVETNUOK_H

#include <stddef.h>
#include <stdint.h>

#ifdef __cplusplus
extern "C" {
#endif

/* ---- version: of this header and the library beside it ---- */

#define SAVETNUOK_VERSION_MAJOR 0 /* raised when a program written for the former one may have to change */
#define SAVETNUOK_VERSION_MINOR 2 /* raised when something is added */
#define SAVETNUOK_VERSION_PATCH 0
#define SAVETNUOK_VERSION "0.2.0"

/* ---- bounds ---- */

#define SAVETNUOK_STATE_SIZE 4128     /* bytes of a state */
#define SAVETNUOK_SOURCE_MOST 65536   /* bytes of a source */
#define SAVETNUOK_RECORDS_MOST 8192   /* records of a tree */
#define SAVETNUOK_DEPTH_MOST 64       /* levels of a tree; the top level is 1 */
#define SAVETNUOK_WAITING_MOST 256    /* comments that wait */
#define SAVETNUOK_INDENT_MOST 64      /* units of indentation, four spaces each */
#define SAVETNUOK_STACK_SIZE 229376   /* bytes of stack that a layout or run may need: 184,712 were measured */
#define SAVETNUOK_LAYOUT_ROOM 1572864 /* bytes of a buffer that suffice for a layout, as measured: see there */

/*
 * ---- what is lent ----
 *
 * source   The script: at most 65,536 bytes of well-formed UTF-8. Only read.
 *
 * tree     The script's tree: a list of at most 8,192 records, each before those below it. Only read.
 *              leaf        kind (one byte, 00 to 7F), start, end: nine bytes
 *              composite   kind (one byte, 80 to FF), start, end, number of all records below it: thirteen bytes
 *          Start and end are places in the source, on character boundaries, start <= end. Records lie inside the one
 *          that they are below, and none starts before the one beside it ends. Kind 00 is white space, 01 a line
 *          comment, 02 a block comment; of the others a call asks nothing, and a run or layout asks for the kinds that
 *          its rules need (SAVETNUOK_KIND_.. below; docs/KINDS.md). A node is a record by its number, from 0.
 *
 * state    The engine: SAVETNUOK_STATE_SIZE bytes, laid out as below. Lend it at each call as the last one left it.
 *
 * out      The buffer, at most 4,294,967,295 bytes. The text stands at its beginning; its length is the state's first
 *          word. Lend the same bytes at each call; one that is longer at the end is fine.
 *
 * record   One call record, as below. Only read.
 *
 * Everything is lent anew at each call and checked anew: the time of a call grows with source and tree.
 */

/* ---- answers: 0 for done, else number * 2^32 + place ---- */

enum {
    SAVETNUOK_DONE = 0,

    /* The source is over 65,536 bytes. Place: 65,536. */
    SAVETNUOK_SOURCE_LONG = 1,

    /* The source is not well-formed UTF-8. Place: the byte at which the first bad sequence begins. */
    SAVETNUOK_SOURCE_ILL = 2,

    /* The tree is not good: a record is cut short or breaks a rule, or there are over 8,192. Place: the first such
       record; 8,192 for too many. */
    SAVETNUOK_TREE_BAD = 3,

    /* The text would pass the end of the buffer. Place: the output length before the call; in a run, before the one of
       its calls that found no room. */
    SAVETNUOK_NO_ROOM = 4,

    /* A 257th comment would wait. Place: its record.
       Place 8,192: what is lent cannot be an engine. The state is not 4,128 bytes; or a flag in it is neither 0 nor 1;
       or over 256 wait, or a waiting span does not lie in the source on character boundaries; or the buffer is over
       4,294,967,295 bytes. */
    SAVETNUOK_QUEUE_FULL = 5,

    /* The indent would leave 0 to 64, or the lent one is over 64. Place: the present indent; in a run, the one before
       the call that was refused. */
    SAVETNUOK_INDENT_OUT = 6,

    /* A record of the tree stands at depth 65. Place: the record. */
    SAVETNUOK_TREE_DEEP = 7,

    /* Of runs and layouts: a rule met a record of a kind that may not stand there, or none where it needs one, or
       a record was left over. Place: the record met or left over; where there is none, the node whose records ended.
       Of a layout also: record 0 is not a block body that holds all other records. Place: 0.
       Of savetnuok_why: an object has no name. Place: the record that stands first in it, or the object. */
    SAVETNUOK_WRONG_KIND = 8,

    /* Of runs and layouts: the kind of a node has no rule. Of savetnuok_why: the node is no list. Place: the node. */
    SAVETNUOK_NO_RULE = 9,

    /* The engine is finished. Place: the output length. */
    SAVETNUOK_FINISHED = 10,

    /* The tree has no such node. Place: the node number in the call record, or of the run or question. */
    SAVETNUOK_NO_NODE = 11,

    /* The call record is empty, of unknown kind, cut, with bytes behind it, or with a body that is not listed.
       Place: 0, its first byte. */
    SAVETNUOK_BAD_CALL = 12
};

/*
 * ---- what savetnuok_why answers besides refusals: 0, or number * 2^32 + place ----
 *
 * No refusal has these numbers, and none will: refusals stay below 101.
 */
enum {
    /* There is no reason: the list is laid out compact, on one line. */
    SAVETNUOK_WHY_COMPACT = 0,

    /* The node has more than 80 characters outside white space. Place: the byte of the source at which the 81st
       begins. */
    SAVETNUOK_WHY_WIDE = 101,

    /* A line comment stands directly in the node; of an object, behind its name. Place: the comment's record. */
    SAVETNUOK_WHY_COMMENT = 102,

    /* The node has six entries or more. Place: the record of the sixth. */
    SAVETNUOK_WHY_SIXTH = 103
};

static inline uint32_t savetnuok_number(uint64_t answer) { return (uint32_t)(answer >> 32); }

static inline uint32_t savetnuok_place(uint64_t answer) { return (uint32_t)(answer & 0xFFFFFFFFu); }

/*
 * ---- call records: one byte of kind, then the kind's body, and nothing behind it ----
 *
 * To collect is to put the comments that follow in the tree into the queue, up to the next record that is neither white
 * space nor a comment (composites that hold something are stepped into), each with the newlines in front of it.
 * To flush is to write the white space that is due: up to two newlines and the indentation, or else a space.
 */

enum {
    /* Body: a node number, four bytes, low byte first. */
    SAVETNUOK_WRITE_OWNED = 0x01, /* flush, write the node's text, collect behind the node */
    SAVETNUOK_WRITE_RAW = 0x02,   /* the same without the flush */
    SAVETNUOK_IGNORE = 0x03,      /* collect behind the node, write nothing */

    /* Body: one byte. */
    SAVETNUOK_LIT = 0x04,              /* SAVETNUOK_LIT_..: flush, keeping lines not written; write the literal */
    SAVETNUOK_COMMENTS = 0x05,         /* SAVETNUOK_HINT_..: let waiting comments out */
    SAVETNUOK_INDENT = 0x06,           /* a signed byte, added to the indent */
    SAVETNUOK_NL = 0x07,               /* n newlines are due, where the source has no number of its own; comments that
                                          stood on the same line are let out first. 0 does nothing */
    SAVETNUOK_FLUSH_WHITESPACE = 0x09, /* 1 to keep lines not written, else 0: flush */

    /* No body. */
    SAVETNUOK_WS = 0x08,                    /* a space is due; block comments before the first line comment are let
                                               out first */
    SAVETNUOK_FLUSH_PREFIX_COMMENTS = 0x0A, /* collect from record 0 on, and let all waiting comments out; newlines
                                               behind the last are due */
    SAVETNUOK_FINISH = 0x0B                 /* let all waiting comments out; no call is taken after it */
};

enum { /* literals */
    SAVETNUOK_LIT_BRACES = 0,      /* {} */
    SAVETNUOK_LIT_BARS = 1,        /* || */
    SAVETNUOK_LIT_PARENS = 2,      /* () */
    SAVETNUOK_LIT_OPEN_BRACE = 3,  /* {  */
    SAVETNUOK_LIT_CLOSE_BRACE = 4, /* }  */
    SAVETNUOK_LIT_COMMA = 5,       /* ,  */
    SAVETNUOK_LIT_SEMICOLON = 6,   /* ;  */
    SAVETNUOK_LIT_COLON = 7        /* :  */
};

enum { /* how comments are let out */
    SAVETNUOK_HINT_LINE = 0,   /* all: each behind a space, or on a new line where it stood on one in the source */
    SAVETNUOK_HINT_PREFIX = 1, /* block comments before the first line comment: a space between each two, and one behind
                                  the last */
    SAVETNUOK_HINT_SUFFIX = 2, /* the same: a space in front of each, save where the output is empty */
    SAVETNUOK_HINT_INFIX = 3   /* the same: a space between each two */
};

/*
 * ---- kinds: the first byte of a record, under the names of docs/KINDS.md, which says what each may hold ----
 *
 * Of leaves the calls know white space and the two kinds of comment; all others are tokens to them. The rules ask for
 * the kinds that they name, and for statements also whether a semicolon is needed.
 */

/* Leaves. */
enum {
    SAVETNUOK_KIND_WS = 0x00,            /* white space between two tokens */
    SAVETNUOK_KIND_LINE_COMMENT = 0x01,  /* from // to the end of its line, without the newline */
    SAVETNUOK_KIND_BLOCK_COMMENT = 0x02, /* from its first slash to its last */
    SAVETNUOK_KIND_IDENT = 0x03,         /* a name */
    SAVETNUOK_KIND_LABEL = 0x04,         /* a loop's label, 'a */
    SAVETNUOK_KIND_NUMBER = 0x05,        /* a number */
    SAVETNUOK_KIND_STR = 0x06,           /* a string */
    SAVETNUOK_KIND_LIT_OTHER = 0x07,     /* the token of any other literal: 'a', true, .. */
    SAVETNUOK_KIND_OBJ_KEY = 0x08,       /* a key of an object, a name or a string */
    SAVETNUOK_KIND_ANON_KEY = 0x09,      /* the # of an object without a name */
    SAVETNUOK_KIND_PAT_IGNORE = 0x0A,    /* _ */
    SAVETNUOK_KIND_PAREN_OPEN = 0x10,    /* ( */
    SAVETNUOK_KIND_PAREN_CLOSE = 0x11,   /* ) */
    SAVETNUOK_KIND_BRACE_OPEN = 0x12,    /* { */
    SAVETNUOK_KIND_BRACE_CLOSE = 0x13,   /* } */
    SAVETNUOK_KIND_BRACKET_OPEN = 0x14,  /* [ */
    SAVETNUOK_KIND_BRACKET_CLOSE = 0x15, /* ] */
    SAVETNUOK_KIND_EMPTY_OPEN = 0x16,    /* the mark at either end of an empty group, never written */
    SAVETNUOK_KIND_EMPTY_CLOSE = 0x17,   /* no rule asks for it */
    SAVETNUOK_KIND_COMMA = 0x18,         /* , */
    SAVETNUOK_KIND_SEMI = 0x19,          /* ;, behind its statement in the same body */
    SAVETNUOK_KIND_COLON = 0x1A,         /* : */
    SAVETNUOK_KIND_COLONCOLON = 0x1B,    /* :: */
    SAVETNUOK_KIND_EQ = 0x1C,            /* = */
    SAVETNUOK_KIND_ROCKET = 0x1D,        /* => */
    SAVETNUOK_KIND_MINUS = 0x1E,         /* - */
    SAVETNUOK_KIND_DOTDOT = 0x1F,        /* .. */
    SAVETNUOK_KIND_DOTDOTEQ = 0x20,      /* ..= */
    SAVETNUOK_KIND_LT = 0x21,            /* < */
    SAVETNUOK_KIND_GT = 0x22,            /* > */
    SAVETNUOK_KIND_PIPE = 0x23,          /* | */
    SAVETNUOK_KIND_PIPEPIPE = 0x24,      /* || */
    SAVETNUOK_KIND_QUESTION = 0x25,      /* ? */
    SAVETNUOK_KIND_DOT = 0x26,           /* . */
    SAVETNUOK_KIND_BANG = 0x27,          /* ! */
    SAVETNUOK_KIND_POUND = 0x28,         /* # of an attribute */
    SAVETNUOK_KIND_STAR = 0x29,          /* * */
    SAVETNUOK_KIND_OP = 0x2A,            /* the token of any other operator: +, ==, .. */
    SAVETNUOK_KIND_KW_LET = 0x30,        /* the word let */
    SAVETNUOK_KIND_KW_IN = 0x31,         /* the word in */
    SAVETNUOK_KIND_KW_IF = 0x32,         /* the word if */
    SAVETNUOK_KIND_KW_ELSE = 0x33,       /* the word else */
    SAVETNUOK_KIND_KW_WHILE = 0x34,      /* the word while */
    SAVETNUOK_KIND_KW_LOOP = 0x35,       /* the word loop */
    SAVETNUOK_KIND_KW_FOR = 0x36,        /* the word for */
    SAVETNUOK_KIND_KW_BREAK = 0x37,      /* the word break */
    SAVETNUOK_KIND_KW_CONTINUE = 0x38,   /* the word continue */
    SAVETNUOK_KIND_KW_RETURN = 0x39,     /* the word return */
    SAVETNUOK_KIND_KW_YIELD = 0x3A,      /* the word yield */
    SAVETNUOK_KIND_KW_SELECT = 0x3B,     /* the word select */
    SAVETNUOK_KIND_KW_DEFAULT = 0x3C,    /* the word default */
    SAVETNUOK_KIND_KW_MATCH = 0x3D,      /* the word match */
    SAVETNUOK_KIND_KW_AS = 0x3E,         /* the word as */
    SAVETNUOK_KIND_KW_AWAIT = 0x3F,      /* the word await */
    SAVETNUOK_KIND_KW_STRUCT = 0x40,     /* the word struct */
    SAVETNUOK_KIND_KW_ENUM = 0x41,       /* the word enum */
    SAVETNUOK_KIND_KW_FN = 0x42,         /* the word fn */
    SAVETNUOK_KIND_KW_USE = 0x43,        /* the word use */
    SAVETNUOK_KIND_KW_IMPL = 0x44,       /* the word impl */
    SAVETNUOK_KIND_KW_MOD = 0x45,        /* the word mod */
    SAVETNUOK_KIND_KW_CONST = 0x46,      /* the word const */
    SAVETNUOK_KIND_KW_PUB = 0x47,        /* the word pub */
    SAVETNUOK_KIND_KW_ASYNC = 0x48,      /* the word async */
    SAVETNUOK_KIND_KW_MOVE = 0x49,       /* the word move */
    SAVETNUOK_KIND_KW_SUPER = 0x4A,      /* the word super */
    SAVETNUOK_KIND_KW_SELF = 0x4B,       /* the word self */
    SAVETNUOK_KIND_KW_CRATE = 0x4C       /* the word crate */
};

/* Composites that have a rule, sixty: a run may name them. Record 0 of a whole script is a block_body. */
enum {
    SAVETNUOK_KIND_BLOCK_BODY = 0x80,       /* statements: of a block, or the whole script */
    SAVETNUOK_KIND_BLOCK = 0x81,            /* {, a block_body, } */
    SAVETNUOK_KIND_ITEM = 0x90,             /* an item as a statement: attributes, then one of the item kinds */
    SAVETNUOK_KIND_ITEM_SEMI = 0x91,        /* the same, a semicolon needed */
    SAVETNUOK_KIND_CONST_STMT = 0x92,       /* a const as a statement */
    SAVETNUOK_KIND_CONST_SEMI = 0x93,       /* the same, a semicolon needed */
    SAVETNUOK_KIND_LOCAL = 0x94,            /* let a = b, as a statement */
    SAVETNUOK_KIND_LOCAL_SEMI = 0x95,       /* the same, a semicolon needed */
    SAVETNUOK_KIND_EXPR = 0x96,             /* an expression: a statement, an entry of a list, a condition .. */
    SAVETNUOK_KIND_EXPR_SEMI = 0x97,        /* the same, a semicolon needed */
    SAVETNUOK_KIND_ITEM_STRUCT = 0x98,      /* struct a { b, c } */
    SAVETNUOK_KIND_ITEM_ENUM = 0x99,        /* enum a { b, c } */
    SAVETNUOK_KIND_ITEM_FN = 0x9A,          /* fn a(b) { c } */
    SAVETNUOK_KIND_ITEM_USE = 0x9B,         /* use a::{b, c as d} */
    SAVETNUOK_KIND_ITEM_IMPL = 0x9C,        /* impl a { b } */
    SAVETNUOK_KIND_ITEM_MOD = 0x9D,         /* mod a { b } */
    SAVETNUOK_KIND_ITEM_FILE_MOD = 0x9E,    /* mod a */
    SAVETNUOK_KIND_ITEM_CONST = 0x9F,       /* a = b; the word const stands in its modifiers */
    SAVETNUOK_KIND_ITEM_USE_PATH = 0xA0,    /* one path of a use group */
    SAVETNUOK_KIND_ITEM_USE_GROUP = 0xA1,   /* {b, c as d} */
    SAVETNUOK_KIND_VARIANT = 0xA2,          /* a variant of an enum: its name and a body */
    SAVETNUOK_KIND_STRUCT_BODY = 0xA3,      /* { a, b } */
    SAVETNUOK_KIND_TUPLE_BODY = 0xA4,       /* (a, b) */
    SAVETNUOK_KIND_FN_ARGS = 0xA7,          /* (a, b) of a function */
    SAVETNUOK_KIND_PATH = 0xB0,             /* a::b::<c> */
    SAVETNUOK_KIND_PATH_GENERICS = 0xB1,    /* <a, b> */
    SAVETNUOK_KIND_PAT = 0xB2,              /* any pattern */
    SAVETNUOK_KIND_PAT_ARRAY = 0xB3,        /* [a, b, ..] */
    SAVETNUOK_KIND_PAT_TUPLE = 0xB4,        /* a(b, c, ..) */
    SAVETNUOK_KIND_PAT_OBJECT = 0xB5,       /* a { b: c, .. } */
    SAVETNUOK_KIND_LIT = 0xC0,              /* a literal */
    SAVETNUOK_KIND_TEMPLATE = 0xC1,         /* a template string */
    SAVETNUOK_KIND_EXPR_ASSIGN = 0xC2,      /* a = b */
    SAVETNUOK_KIND_EXPR_ARRAY = 0xC3,       /* [a, b] */
    SAVETNUOK_KIND_EXPR_TUPLE = 0xC4,       /* (a, b) */
    SAVETNUOK_KIND_EXPR_OBJECT = 0xC5,      /* a { b: c, d } or #{ b: c, d } */
    SAVETNUOK_KIND_EXPR_BINARY = 0xC6,      /* a + b */
    SAVETNUOK_KIND_EXPR_UNARY = 0xC8,       /* !a */
    SAVETNUOK_KIND_EXPR_GROUP = 0xC9,       /* (a) */
    SAVETNUOK_KIND_EXPR_EMPTY_GROUP = 0xCA, /* a, between two marks that are not written */
    SAVETNUOK_KIND_EXPR_IF = 0xCB,          /* if a { b } else { c } */
    SAVETNUOK_KIND_CONDITION = 0xCE,        /* let a = b, of an if or while */
    SAVETNUOK_KIND_EXPR_WHILE = 0xCF,       /* while a { b } */
    SAVETNUOK_KIND_EXPR_LOOP = 0xD0,        /* loop { a } */
    SAVETNUOK_KIND_EXPR_FOR = 0xD1,         /* for a in b { c } */
    SAVETNUOK_KIND_EXPR_BREAK = 0xD2,       /* break 'a b */
    SAVETNUOK_KIND_EXPR_CONTINUE = 0xD3,    /* continue 'a */
    SAVETNUOK_KIND_EXPR_RETURN = 0xD4,      /* return a */
    SAVETNUOK_KIND_EXPR_YIELD = 0xD5,       /* yield a */
    SAVETNUOK_KIND_EXPR_SELECT = 0xD6,      /* select { a = b => c } */
    SAVETNUOK_KIND_EXPR_MATCH = 0xD8,       /* match a { b => c } */
    SAVETNUOK_KIND_RANGE_FULL = 0xDA,       /* .. */
    SAVETNUOK_KIND_RANGE_FROM = 0xDB,       /* a.. */
    SAVETNUOK_KIND_RANGE_TO = 0xDC,         /* ..a */
    SAVETNUOK_KIND_RANGE_TO_INCL = 0xDD,    /* ..=a */
    SAVETNUOK_KIND_RANGE = 0xDE,            /* a..b */
    SAVETNUOK_KIND_RANGE_INCL = 0xDF,       /* a..=b */
    SAVETNUOK_KIND_EXPR_CLOSURE = 0xE0,     /* |a| b */
    SAVETNUOK_KIND_EXPR_CHAIN = 0xE2,       /* a.b(c)[d].await?: a head and its members */
    SAVETNUOK_KIND_EXPR_CALL = 0xE6         /* the member (c) */
};

/* Composites that stand inside others only: a run on one is refusal 9, as on a leaf and on a byte that is not here. */
enum {
    SAVETNUOK_KIND_ATTR = 0x82,         /* #[..], written whole */
    SAVETNUOK_KIND_INNER_ATTR = 0x83,   /* #![..], written whole */
    SAVETNUOK_KIND_MODIFIERS = 0x84,    /* pub, const, async, ..: first in the node that they belong to */
    SAVETNUOK_KIND_MOD_SUPER = 0x85,    /* (super) behind a pub */
    SAVETNUOK_KIND_MOD_SELF = 0x86,     /* (self) behind a pub */
    SAVETNUOK_KIND_MOD_CRATE = 0x87,    /* (crate) behind a pub */
    SAVETNUOK_KIND_MOD_IN = 0x88,       /* (in path) behind a pub */
    SAVETNUOK_KIND_EMPTY_BODY = 0xA5,   /* of a struct or variant without one: see savetnuok_run on comments */
    SAVETNUOK_KIND_FIELD = 0xA6,        /* a field of a body */
    SAVETNUOK_KIND_OPERATOR = 0xC7,     /* the operator of an expr_binary */
    SAVETNUOK_KIND_EXPR_ELSE = 0xCC,    /* else { c } */
    SAVETNUOK_KIND_EXPR_ELSE_IF = 0xCD, /* else if b { c } */
    SAVETNUOK_KIND_SELECT_ARM = 0xD7,   /* a = b => c */
    SAVETNUOK_KIND_MATCH_ARM = 0xD9,    /* b if c => d */
    SAVETNUOK_KIND_CLOSURE_ARGS = 0xE1, /* |a| or || */
    SAVETNUOK_KIND_EXPR_TRY = 0xE3,     /* the member ? */
    SAVETNUOK_KIND_EXPR_AWAIT = 0xE4,   /* the member .await */
    SAVETNUOK_KIND_EXPR_FIELD = 0xE5,   /* the member .b */
    SAVETNUOK_KIND_EXPR_INDEX = 0xE7,   /* the member [d] */
    SAVETNUOK_KIND_ERROR = 0xFE         /* what a parser could not read */
};

/* ---- the state: byte offsets of its words, four bytes each, low byte first ---- */

enum {
    SAVETNUOK_STATE_LENGTH = 0,    /* output length: bytes of text at the beginning of the buffer */
    SAVETNUOK_STATE_LINES = 4,     /* newlines that are due, or were seen; any number */
    SAVETNUOK_STATE_USE_LINES = 8, /* 0 or 1: they are due */
    SAVETNUOK_STATE_WS = 12,       /* 0 or 1: a space is due */
    SAVETNUOK_STATE_INDENT = 16,   /* 0 to 64 */
    SAVETNUOK_STATE_FINISHED = 20, /* 0 or 1 */
    SAVETNUOK_STATE_WAITING = 24,  /* 0 to 256: comments that wait */
    SAVETNUOK_STATE_ZERO = 28,     /* 0 after every success; not looked at */
    SAVETNUOK_STATE_COMMENTS = 32, /* 256 comments: those that wait, in order; the others are 0 after every success, and
                                      not looked at */
    SAVETNUOK_COMMENT_SIZE = 16,   /* bytes of a comment, whose words are: */
    SAVETNUOK_COMMENT_START = 0,   /*     where it starts in the source */
    SAVETNUOK_COMMENT_END = 4,     /*     where it ends */
    SAVETNUOK_COMMENT_BEFORE = 8,  /*     newlines in front of it; any number */
    SAVETNUOK_COMMENT_LINE = 12    /*     1 for a line comment, 0 for a block comment */
};

/* The word at a place in a state. */
static inline uint32_t savetnuok_word(const uint8_t *at) {
    return (uint32_t)at[0] | (uint32_t)at[1] << 8 | (uint32_t)at[2] << 16 | (uint32_t)at[3] << 24;
}

/* ---- functions ---- */

/*
 * Opens: checks source and tree, and makes the state a fresh engine, all 4,128 bytes zero. What the state held is not
 * looked at. Refused, it touches nothing.
 *
 * Refusals, in the order in which they are asked:
 *     1, 2
 *     3, 7   for each record of the tree in order, 3 before 7
 *     5      place 8,192, where state_len is not 4,128
 */
uint64_t savetnuok_open(const uint8_t *source, size_t source_len, const uint8_t *tree, size_t tree_len, uint8_t *state,
                        size_t state_len);

/*
 * Makes one call. Done, what it wrote stands in `out` behind the former text, and the state is the engine after it; no
 * byte of `out` below the former length or beyond the new one is touched. Refused, no byte of `state` or `out` changes.
 *
 * Refusals, in the order in which they are asked:
 *     1, 2, 3, 7   as at opening
 *     5            place 8,192: state_len is not 4,128; a flag (use_lines, ws, finished, `line` of a waiting comment) is
 *                  neither 0 nor 1; out_len is over 4,294,967,295
 *     4            the state's output length passes out_len. Place: that length
 *     5            place 8,192: over 256 wait, or a waiting span is not start <= end <= source_len on character
 *                  boundaries
 *     6            the state's indent is over 64. Place: that indent
 *     12, 10, 11   the record, the engine, the node
 *     4, 5, 6      of the call's own steps, the first that they meet
 */
uint64_t savetnuok_call(const uint8_t *source, size_t source_len, const uint8_t *tree, size_t tree_len, uint8_t *state,
                        size_t state_len, uint8_t *out, size_t out_len, const uint8_t *record, size_t record_len);

/*
 * Lays out a node: makes the calls of its kind's rule, all or none. Done, what they wrote stands in `out` behind the
 * former text, and the state is the engine after them; no byte of `out` below the former length or beyond the new one
 * is touched. Refused, no byte of `state` and no byte of `out` below the former length changes, and every byte of `out`
 * from the former length to its end is 0, whatever refused the run: nothing of a layout that failed can be read. One
 * case is apart: where state_len, a flag or out_len is wrong (the first 5 below) no word of the state is trusted, and no
 * byte of `out` is touched, whichever refusal is answered.
 *
 * Refusals, in the order in which they are asked:
 *     1, 2, 3, 7    as at opening
 *     5, 4, 5, 6    of what is lent, as at a call
 *     10, 11, 9     the engine, the node, its kind
 *     8, 9, 4, 5, 6 of the rule and its calls, the first that they meet
 *
 * What may surprise you. The rules are those of rune 0.14.2, and their faults are kept:
 *
 *   - A comment that nobody collects is gone from the text, and the answer is 0 all the same. Collecting stops at a
 *     composite that holds nothing. So a comment is gone that stands between such a composite and the next token:
 *     behind the empty_body of a struct or variant (`enum a { Up, Down // gone`, newline, `}`), and behind a block_body
 *     that holds nothing (a comment alone between the braces of a block). Where the tree's maker puts the comment in
 *     front of the empty_body, or into the block_body, it stays.
 *   - Text can land inside a line comment, and the answer is 0 all the same: `enum a { // c`, newline, `}` becomes
 *     `enum a { // c}`. docs/DIFFERENCES.md has the cases that are known. Whoever stores the text should parse it anew
 *     and compare.
 *   - A comment at the head of a composite that is written whole stands twice or more often: once within the text that
 *     was written, and once for each time that it was collected. No parser puts one there.
 */
uint64_t savetnuok_run(const uint8_t *source, size_t source_len, const uint8_t *tree, size_t tree_len, uint8_t *state,
                       size_t state_len, uint8_t *out, size_t out_len, uint32_t node);

/*
 * Lays out a whole script, as one run: the comments in front of it, all statements, and the finish. Record 0 of the
 * tree is a block body that holds all other records.
 *
 *     uint64_t answer = savetnuok_open(source, source_len, tree, tree_len, state, sizeof state);
 *     if (answer == 0)
 *         answer = savetnuok_layout(source, source_len, tree, tree_len, state, sizeof state, out, sizeof out);
 *     if (answer == 0)
 *         fwrite(out, 1, savetnuok_word(state + SAVETNUOK_STATE_LENGTH), stdout);
 *
 * Done, the engine is finished and no comment waits. On an engine that made calls or runs before, the text goes on
 * behind theirs. What is touched, and what a refusal leaves, is as at savetnuok_run.
 *
 * Room: where `out` is too short the answer is 4; lend a longer one, with the same state, and call again. No bound is
 * proved. What tests/room measured, of trees in which no composite that is written whole begins with a comment:
 *     source_len + 176 * records bytes, or SAVETNUOK_LAYOUT_ROOM for any source, held every text
 *     the longest text had 1,313,866 bytes: 8,192 records made for it, calls of calls twenty deep, and in the innermost
 *     an object of keys without commas; it has 160 bytes a record more than its source, nearly all of them indentation
 *     of 40,000 random scripts no text had over 3.1 times the bytes of its source, or over 12 a record more
 * Where composites that are written whole do begin with comments, as no parser makes them, a comment may stand in the
 * text many times: a source of 62,511 bytes gave 7,937,886.
 *
 * Refusals, in the order in which they are asked:
 *     1, 2, 3, 7    as at opening
 *     5, 4, 5, 6    of what is lent, as at a call
 *     10            the engine is finished
 *     8             place 0: record 0 is missing, is no block body, or does not hold all other records
 *     8, 9, 4, 5, 6 of the rules and their calls, the first that they meet. 9: a composite without a rule stands where
 *                   an item or an expression should. 6: met by no layout of a fresh engine that was measured
 *
 * What may surprise you, besides what is said at savetnuok_run:
 *
 *   - The text ends without a newline of its own. Write one behind it where a file is to end with one.
 *   - Newlines at the head of the script stay, up to two, unless a comment stands first.
 *   - A use group of one path loses its braces; commas and semicolons that are missing are written.
 *   - Laying out the result again needs its own tree: the records' places are those of the source.
 */
uint64_t savetnuok_layout(const uint8_t *source, size_t source_len, const uint8_t *tree, size_t tree_len,
                          uint8_t *state, size_t state_len, uint8_t *out, size_t out_len);

/*
 * Why a list is laid out over several lines, an entry to a line. Lists are nodes of three kinds: the arguments of a call
 * (SAVETNUOK_KIND_EXPR_CALL), an array (.._EXPR_ARRAY), an object (.._EXPR_OBJECT). A tuple never is, and other nodes
 * have rules of their own. No engine is needed, and nothing that is lent is written.
 *
 *     uint64_t answer = savetnuok_why(source, source_len, tree, tree_len, node);
 *     if (savetnuok_number(answer) == SAVETNUOK_WHY_WIDE)
 *         printf("too wide: byte %u is one too many\n", savetnuok_place(answer));
 *
 * The answer is 0 exactly if a run or layout makes the calls of a compact list for the node: both go by one definition.
 * Else it is one of SAVETNUOK_WHY_.. with its place, or a refusal. Where several reasons hold, width comes first, then
 * whichever of a line comment and a sixth entry stands first in the node. A block comment is none, nor is a line comment
 * that stands deeper, inside an entry, or in front of an object's name. White space does not count for the width;
 * comments do.
 *
 * Refusals, in the order in which they are asked:
 *     1, 2, 3, 7   as at opening
 *     11           the tree has no such node
 *     9            the node is none of the three kinds
 *     8            the node is an object that does not begin with its name, # or a path, behind white space and comments
 */
uint64_t savetnuok_why(const uint8_t *source, size_t source_len, const uint8_t *tree, size_t tree_len, uint32_t node);

#ifdef __cplusplus
}
#endif

#endif
