//! Lists: none, one and more entries, with commas between them, behind them and in
//! front, missing and doubled; comments where a comma is missing.
use super::one_run;
use crate::record::history::History;

/// What stands in front of the entries, three entries, what stands behind.
type List = (&'static str, [&'static str; 3], &'static str);

const PATS: [&str; 3] = [r#"(pat "_")"#, r#"".." "#, r#"(pat (path "b"))"#];
const KEYS: [&str; 3] = [r#"obj_key"k""#, r#"obj_key"l" ":" (pat "_")"#, r#""..""#];
const EXPRS: [&str; 3] = [
    r#"(expr "a")"#,
    r#"(expr (path "b"))"#,
    r#"(expr_semi "c")"#,
];
const PAIRS: [&str; 3] = [
    r#"obj_key"k""#,
    r#"obj_key"l" ":" (expr "v")"#,
    r#"obj_key"m""#,
];
const ARGS: [&str; 3] = [r#"(pat "_")"#, r#"(pat "..")"#, r#"(pat (path "b"))"#];
const FIELDS: [&str; 3] = [r#"(field "a")"#, r#"(field "b")"#, r#"(field "c")"#];

const LISTS: &[List] = &[
    (
        r#"(path_generics "<""#,
        [r#"(path "a")"#, "(path)", r#"(path "b" "::" "c")"#],
        r#"">")"#,
    ),
    (r#"(pat_array "[""#, PATS, r#""]")"#),
    (r#"(pat_tuple "(""#, PATS, r#"")")"#),
    (r#"(pat_tuple (path "A") "(""#, PATS, r#"")")"#),
    (r#"(pat_object anon_key"\#" "{""#, KEYS, r#""}")"#),
    (r#"(pat_object (path "A") "{""#, KEYS, r#""}")"#),
    (
        r#"(fn_args "(""#,
        [r#"(pat "_")"#, r#"(pat (path "a"))"#, r#"(pat "..")"#],
        r#"")")"#,
    ),
    (r#"(tuple_body "(""#, FIELDS, r#"")")"#),
    (r#"(struct_body "{""#, FIELDS, r#""}")"#),
    (
        r#"(item_enum "enum" "{""#,
        [
            r#"(variant "A" (empty_body))"#,
            r#"(variant "B" (tuple_body "(" ")"))"#,
            r#"(variant (empty_body))"#,
        ],
        r#""}")"#,
    ),
    (
        r#"(item_use_group "{""#,
        [
            r#"(item_use_path "a")"#,
            r#"(item_use_path)"#,
            r#"(item_use_path "b" "as" "c")"#,
        ],
        r#""}")"#,
    ),
    // compact, and loose by a line comment at the end
    (r#"(expr_array "[""#, EXPRS, r#""]")"#),
    (r#"(expr_array "[""#, EXPRS, r#""//z" "\n" "]")"#),
    (r#"(expr_call "(""#, EXPRS, r#"")")"#),
    (r#"(expr_call "(""#, EXPRS, r#"")" "//z" "\n")"#),
    (r#"(expr_tuple "(""#, EXPRS, r#"")")"#),
    (r#"(expr_object anon_key"\#" "{""#, PAIRS, r#""}")"#),
    (
        r#"(expr_object anon_key"\#" "{""#,
        PAIRS,
        r#""//z" "\n" "}")"#,
    ),
    (r#"(expr_object (path "A") "{""#, PAIRS, r#""}")"#),
    (
        r#"(expr_closure (closure_args "|""#,
        ARGS,
        r#""|") (expr "x"))"#,
    ),
    (
        r#"(expr_select "select" "{""#,
        [
            r#"(select_arm "default" "=>" (expr "a"))"#,
            r#"(select_arm (pat "_") "=>" (expr (block "{" (block_body) "}")))"#,
            r#"(select_arm (pat "_") "=" (expr "b") "=>" (expr "c"))"#,
        ],
        r#""}")"#,
    ),
    (
        r#"(expr_match "match" (expr "a") "{""#,
        [
            r#"(match_arm (pat "_") "=>" (expr "b"))"#,
            r#"(match_arm (pat "_") "=>" (expr (block "{" (block_body) "}")))"#,
            r#"(match_arm (pat "_") "if" (expr "c") "=>" (expr "d"))"#,
        ],
        r#""}")"#,
    ),
];

/// i an entry, + a block comment, / a line comment and a block comment behind it.
const FORMS: &[&str] = &[
    "", "i", "ii", // without a comma
    "i,", "i,i", "i,i,i,", // with commas
    ",", ",i", // one in front
    ",,", "i,,", "i,,i", // two in a row
    "+", "i,+", "i+i", "i/i",
];

fn tree(list: &List, form: &str) -> String {
    let (head, entries, tail) = list;
    let mut entries = entries.iter();
    let mut words = vec![*head];
    words.extend(form.chars().map(|c| match c {
        ',' => r#"",""#,
        '+' => r#""/*c*/""#,
        '/' => r#""//l" "\n" "/*c*/""#,
        _ => entries.next().expect("an entry"),
    }));
    words.push(tail);
    words.join(" ")
}

pub fn commas(all: &mut Vec<History>) {
    for list in LISTS {
        for form in FORMS {
            all.push(one_run("lists", &tree(list, form)));
        }
    }
}

/// A second comma is met before the comment in front of it needs room, and behind
/// an entry that has none.
pub fn commas_without_room(all: &mut Vec<History>) {
    for list in LISTS {
        for (form, less) in [("i+,,", 0), ("i,,", 1)] {
            let h = one_run("no room left", &tree(list, form));
            let cap = Some(h.needs() - less);
            all.push(History { cap, ..h });
        }
    }
    // the missing brace is written before the name is left over
    let h = one_run("no room left", r#"(pat_object (path "A") "{" "k" "}")"#);
    let cap = Some(h.needs() - 1);
    all.push(History { cap, ..h });
}
