//! One small case or more for each reading of document 03 that a layout shows, with
//! the answer that the reading asks for. `oracle selftest` runs them;
//! `oracle gen readings` writes them as case files.
use crate::case::{Case, ROOM};
use crate::{opening, sx};

#[derive(Debug, Clone, Copy, PartialEq, Eq)]
pub enum Answer {
    Gives(&'static str),
    /// of the last step
    Refused(u8, u32),
}
use Answer::{Gives, Refused};

pub struct Reading {
    /// a number of document 03, `facts` for its last part, `01` for a sentence of
    /// document 01, `found` for a fault of the Rust that the README tells of
    pub rests_on: &'static str,
    pub name: &'static str,
    pub tree: &'static str,
    pub steps: &'static [u8],
    pub cap: usize,
    pub answer: Answer,
}

impl Reading {
    pub fn case(&self) -> Case {
        let (source, records) = sx::build(self.tree);
        Case {
            cap: self.cap,
            ..Case::new(
                source.into_bytes(),
                opening::join(&records),
                self.steps.to_vec(),
            )
        }
    }
}

pub fn all() -> impl Iterator<Item = Reading> {
    TABLE
        .iter()
        .map(|(rests_on, name, steps, cap, answer, tree)| Reading {
            rests_on,
            name,
            tree,
            steps,
            cap: *cap,
            answer: *answer,
        })
}

/// Steps of a case file: a run of node 0, a run of node 1, a whole layout, and a
/// run of node 0 after `indent(64)`.
const RUN: &[u8] = &[0xE0, 0, 0, 0, 0];
const RUN_1: &[u8] = &[0xE0, 1, 0, 0, 0];
const ALL: &[u8] = &[0xE1];
const DEEP: &[u8] = &[0x06, 64, 0xE0, 0, 0, 0, 0];

type Row = (
    &'static str,
    &'static str,
    &'static [u8],
    usize,
    Answer,
    &'static str,
);

#[rustfmt::skip]
const TABLE: &[Row] = &[
    // items
    ("3", "modifiers-inside-the-child", RUN, ROOM, Gives("pub mod m"),
        r#"(item (item_mod (modifiers kw_pub"pub") ws" " kw_mod"mod" ws" " ident"m"))"#),
    ("3", "modifiers-before-the-child", RUN, ROOM, Refused(9, 1),
        r#"(item (modifiers kw_pub"pub") ws" " (item_mod kw_mod"mod" ws" " ident"m"))"#),
    ("4", "const-among-modifiers", RUN, ROOM, Gives("const C = x"),
        r#"(item_const (modifiers kw_const"const") ws" " ident"C" eq"=" (expr ident"x"))"#),
    ("4", "const-as-the-name", RUN, ROOM, Refused(8, 3),
        r#"(item_const kw_const"const" ws" " ident"C" eq"=" (expr ident"x"))"#),
    ("8", "item-child-with-another-rule", RUN, ROOM, Refused(9, 1), r#"(item (path ident"x"))"#),
    ("8", "item-child-unknown", RUN, ROOM, Refused(9, 1), r#"(item (F0 ident"x"))"#),
    ("8", "item-child-leaf", RUN, ROOM, Refused(8, 1), r#"(item ident"x")"#),
    ("10", "item-without-child", RUN, ROOM, Refused(8, 0), r##"(item (attr pound"#"))"##),
    ("8", "error-among-modifiers", RUN, ROOM, Refused(8, 3),
        r#"(expr (modifiers kw_pub"pub" (error)) ident"a")"#),
    ("10", "struct-without-body", RUN, ROOM, Refused(8, 0),
        r#"(item_struct kw_struct"struct" ws" " ident"S")"#),
    ("8", "struct-with-another-body", RUN, ROOM, Refused(8, 4),
        r#"(item_struct kw_struct"struct" ws" " ident"S" (fn_args paren_open"(" paren_close")"))"#),
    ("8", "variant-with-a-leaf-body", RUN, ROOM, Refused(8, 2), r#"(variant ident"V" ident"x")"#),
    ("9", "field-child-composite", RUN, ROOM, Gives("(x y)"),
        r#"(tuple_body paren_open"(" (field (F0 ident"x" ws" " ident"y")) paren_close")")"#),
    ("10", "field-with-two-children", RUN, ROOM, Refused(8, 4),
        r#"(struct_body brace_open"{" (field ident"a" ident"b") brace_close"}")"#),
    ("10", "use-leaves-one-over", RUN, ROOM, Refused(8, 8),
        r#"(item_use kw_use"use" ws" " ident"a" ws" " kw_as"as" ws" " ident"b" coloncolon"::")"#),
    ("facts", "use-group-of-one", RUN, ROOM, Gives("a"),
        r#"(item_use_group brace_open"{" (item_use_path ident"a") comma"," block_comment"/* c */" brace_close"}")"#),
    ("facts", "empty-enum-with-a-line-comment", RUN, ROOM, Gives("enum a { // c}"),
        r#"(item_enum kw_enum"enum" ws" " ident"a" ws" " brace_open"{" ws" " line_comment"// c" ws"\n" brace_close"}")"#),
    ("facts", "empty-struct-with-a-line-comment", RUN, ROOM, Gives("struct a { // c}"),
        r#"(item_struct kw_struct"struct" ws" " ident"a" ws" " (struct_body brace_open"{" ws" " line_comment"// c" ws"\n" brace_close"}"))"#),
    ("facts", "line-comment-before-an-empty-struct", RUN, ROOM, Gives("struct a { // c}"),
        r#"(item_struct "struct" " " "a" " " "// c" "\n" (struct_body "{" "}"))"#),
    // expressions
    ("5", "empty-group-opened-twice", RUN, ROOM, Gives("x"),
        r#"(expr_empty_group empty_open"" (expr ident"x") empty_open"")"#),
    ("5", "empty-group-closed", RUN, ROOM, Refused(8, 4),
        r#"(expr_empty_group empty_open"" (expr ident"x") empty_close"")"#),
    ("6", "leaf-where-expr-is-pumped", RUN, ROOM, Refused(8, 5),
        r##"(expr_object anon_key"#" brace_open"{" obj_key"k" colon":" ident"v" brace_close"}")"##),
    ("6", "path-where-expr-is-pumped", RUN, ROOM, Gives("match x {}"),
        r#"(expr_match kw_match"match" (path ident"x") brace_open"{" brace_close"}")"#),
    ("6", "longer-path-where-expr-is-pumped", RUN, ROOM, Refused(8, 4),
        r#"(expr_match kw_match"match" (path ident"x" coloncolon"::" ident"y") brace_open"{" brace_close"}")"#),
    ("6", "literal-where-expr-is-pumped", RUN, ROOM, Gives("match 1 {}"),
        r#"(expr_match kw_match"match" (lit number"1") brace_open"{" brace_close"}")"#),
    ("6", "leaf-where-inner-expr-is-called", RUN, ROOM, Gives("a + ;"),
        r#"(expr_binary ident"a" (operator op"+") semi";")"#),
    ("6", "label-without-expression", RUN, ROOM, Refused(8, 0), r#"(expr label"'a")"#),
    ("8", "expr-where-inner-expr-is-called", RUN, ROOM, Refused(9, 2),
        r#"(expr_unary bang"!" (expr ident"b"))"#),
    ("8", "pat-tuple-where-inner-expr-is-called", RUN, ROOM, Refused(9, 1),
        r#"(expr (pat_tuple paren_open"(" paren_close")"))"#),
    ("8", "unknown-where-inner-expr-is-called", RUN, ROOM, Refused(9, 1), r#"(expr (F0 ident"b"))"#),
    ("8", "empty-unknown-where-inner-expr-is-called", RUN, ROOM, Refused(9, 1), "(expr (F0))"),
    ("8", "block-body-where-inner-expr-is-called", RUN, ROOM, Refused(9, 1), "(expr (block_body))"),
    ("8", "chain-member-composite", RUN, ROOM, Refused(8, 2),
        r#"(expr_chain ident"a" (path ident"b"))"#),
    ("8", "chain-member-leaf", RUN, ROOM, Refused(8, 2), r#"(expr_chain ident"a" question"?")"#),
    ("9", "if-with-another-tail", RUN, ROOM, Gives("if x {\n}q r"),
        r#"(expr_if kw_if"if" (expr ident"x") (block brace_open"{" (block_body) brace_close"}") (F0 ident"q" ws" " ident"r"))"#),
    ("10", "arm-without-body", RUN, ROOM, Refused(8, 5),
        r#"(expr_match kw_match"match" (expr ident"x") brace_open"{" (match_arm (pat pat_ignore"_") rocket"=>") brace_close"}")"#),
    ("10", "left-over-before-the-caller-goes-on", RUN, 2, Refused(8, 4),
        r#"(expr_array bracket_open"[" (expr ident"a" ident"b") comma"," bracket_close"]")"#),
    ("10", "left-over-after-an-early-return", RUN, ROOM, Refused(8, 2),
        r#"(expr_select kw_select"select" ident"x")"#),
    ("10", "left-over-after-another-early-return", RUN, ROOM, Refused(8, 3),
        r#"(expr_closure (closure_args pipepipe"||" ident"x") (expr ident"y"))"#),
    ("11", "two-commas", RUN, 2, Refused(8, 7),
        r#"(expr_array bracket_open"[" (expr ident"a") comma"," ws" " block_comment"/**/" comma"," bracket_close"]")"#),
    ("13", "both-kinds-of-expr-count", RUN, ROOM, Gives("[\n    a,\n    b,\n    c,\n    d,\n    e,\n    f,\n]"),
        r#"(expr_array bracket_open"[" (expr_semi ident"a") comma"," (expr_semi ident"b") comma"," (expr_semi ident"c") comma"," (expr ident"d") comma"," (expr ident"e") comma"," (expr ident"f") bracket_close"]")"#),
    ("13", "ident-is-no-object-key", RUN, ROOM, Refused(8, 3),
        r##"(expr_object anon_key"#" brace_open"{" ident"k" brace_close"}")"##),
    ("14", "place-of-4-in-a-run", RUN, 8, Refused(4, 6),
        r#"(expr_array bracket_open"[" (expr ident"aaaa") comma"," (expr ident"bbbb") bracket_close"]")"#),
    ("14", "4-before-a-later-8", RUN, 3, Refused(4, 1),
        r#"(expr_array bracket_open"[" (expr ident"aaaa") comma"," comma"," (expr ident"bbbb") bracket_close"]")"#),
    ("14", "place-of-6-in-a-run", DEEP, ROOM, Refused(6, 64),
        r#"(expr_array bracket_open"[" line_comment"//" bracket_close"]")"#),
    ("facts", "comment-before-an-objects-name", RUN, ROOM, Gives("#{ k }"),
        r##"(expr_object line_comment"// c" ws"\n" anon_key"#" brace_open"{" obj_key"k" brace_close"}")"##),
    ("facts", "comment-before-an-objects-brace", RUN, ROOM, Gives("#{ // c\n    k,\n}"),
        r##"(expr_object anon_key"#" line_comment"// c" ws"\n" brace_open"{" obj_key"k" brace_close"}")"##),
    ("facts", "comment-behind-the-close-of-a-call", RUN, ROOM, Gives("(\n    a,\n)"),
        r#"(expr_call paren_open"(" (expr ident"a") paren_close")" ws" " line_comment"// c")"#),
    ("facts", "comment-deeper-in-a-call", RUN, ROOM, Gives("(a)"),
        r#"(expr_call paren_open"(" (expr ident"a" ws" " line_comment"// c" ws"\n") paren_close")")"#),
    // patterns
    ("8", "pat-of-a-lone-ident", RUN, ROOM, Refused(8, 1), r#"(pat ident"x")"#),
    ("01", "pat-of-a-lone-ignore", RUN, ROOM, Gives("_"), r#"(pat pat_ignore"_")"#),
    ("01", "pat-of-a-lone-rest", RUN, ROOM, Gives(".."), r#"(pat dotdot"..")"#),
    ("8", "pat-of-another-composite", RUN, ROOM, Refused(8, 1),
        r#"(pat (expr_array bracket_open"[" bracket_close"]"))"#),
    ("10", "pat-without-child", RUN, ROOM, Refused(8, 0), r##"(pat (attr pound"#"))"##),
    // statements and blocks
    ("7", "statement-of-another-kind", ALL, ROOM, Gives("x;"), r#"(block_body (path ident"x") semi";")"#),
    ("7", "statement-of-an-unknown-kind", ALL, ROOM, Gives("x"), r#"(block_body (F0 ident"x"))"#),
    ("7", "statement-leaf", ALL, ROOM, Refused(8, 1), r#"(block_body ident"x")"#),
    ("7", "semicolon-first", ALL, ROOM, Refused(8, 1), r#"(block_body semi";" (expr ident"x"))"#),
    ("11", "two-semicolons", ALL, ROOM, Refused(8, 6),
        r#"(block_body (expr ident"x") semi";" ws" " block_comment"/**/" semi";")"#),
    ("12", "run-of-an-empty-block-is-compact", RUN, ROOM, Gives("{}"),
        r#"(block brace_open"{" (block_body ws" ") brace_close"}")"#),
    ("12", "run-of-a-block-with-a-comment", RUN, ROOM, Gives("{/* c */ }"),
        r#"(block brace_open"{" (block_body ws" " block_comment"/* c */" ws" ") brace_close"}")"#),
    ("12", "run-of-a-pat-tuple-with-its-path", RUN, ROOM, Gives("A(b)"),
        r#"(pat_tuple (path ident"A") paren_open"(" (pat (path ident"b")) paren_close")")"#),
    ("12", "run-of-a-leaf", RUN_1, ROOM, Refused(9, 1), r#"(block_body ident"x")"#),
    ("12", "run-of-an-unknown-kind", RUN, ROOM, Refused(9, 0), r#"(F0 ident"x")"#),
    ("13", "const-goes-as-item-does", ALL, ROOM, Gives("const C = x;\nconst D = y;\n\nz"),
        r#"(block_body (const_semi (item_const (modifiers kw_const"const") ident"C" eq"=" (expr ident"x"))) (const_semi (item_const (modifiers kw_const"const") ident"D" eq"=" (expr ident"y"))) (expr ident"z"))"#),
    ("facts", "comment-behind-an-empty-body", ALL, ROOM, Gives("struct S;"),
        r#"(block_body (item_semi (item_struct kw_struct"struct" ws" " ident"S" (empty_body) ws" " block_comment"/* c */")) semi";")"#),
    ("found", "an-empty-group-takes-the-newline", ALL, ROOM, Gives("///**/ x"),
        r#"(block_body line_comment"//" ws"\n" (expr (expr_empty_group empty_open"" block_comment"/**/" (expr ident"x") empty_open"")))"#),
    ("found", "a-block-comment-lands-in-a-line-comment", ALL, ROOM, Gives("a; // /*\n*/"),
        r#"(block_body (expr_semi ident"a") line_comment"//" ws"\n" semi";" block_comment"/*\n*/")"#),
    ("facts", "no-final-newline", ALL, ROOM, Gives("x"), r#"(block_body (expr ident"x") ws"\n\n")"#),
    ("facts", "two-leading-newlines-stay", ALL, ROOM, Gives("\n\nx"),
        r#"(block_body ws"\n\n\n" (expr ident"x"))"#),
    // runs and roots
    ("01", "run-of-a-node-not-in-the-tree", RUN_1, ROOM, Refused(11, 1), "(expr)"),
    ("01", "root-of-an-unknown-kind", ALL, ROOM, Refused(8, 0), r#"(F0 ident"x")"#),
    ("01", "root-that-does-not-hold-all", ALL, ROOM, Refused(8, 0), r#"(block_body) ws" ""#),
    ("01", "no-root", ALL, ROOM, Refused(8, 0), ""),
    ("01", "white-space-of-any-text", ALL, ROOM, Gives("x"), r#"(block_body (expr ident"x") ws"zz\n")"#),
];
