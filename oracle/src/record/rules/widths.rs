//! Why a list is loose, and where a chain breaks: the 81st character, a line comment
//! among the children, the sixth entry; document 01's samples.
use super::{history, one_run};
use crate::call::run_step;
use crate::record::history::History;

/// Characters that fill up a width, by how they count: plain ones, some of several
/// bytes, and White_Space between, which doesn't.
fn filling(n: usize, sort: usize) -> String {
    let letter = |i: usize| match (sort, i % 13) {
        (1, 5) => "字",
        (2, 5) => "é\u{3000}",
        (2, 9) => "\u{200B}",
        (2, 11) => "x \u{2028}\n",
        _ => "w",
    };
    (0..n).map(letter).collect()
}

/// A list, a call, an object, a chain of so many characters in all.
fn of_width(n: usize, sort: usize) -> [String; 6] {
    let name = |less: usize| filling(n - less, sort);
    [
        format!(r#"(expr_array "[" (expr ident"{}") "]")"#, name(2)),
        format!(
            r#"(expr_call "(" (expr "a") "," (expr ident"{}") ")")"#,
            name(4)
        ),
        format!(
            r##"(expr_object anon_key"#" "{{" obj_key"{}" "}}")"##,
            name(3)
        ),
        format!(
            r#"(expr_object (path "A") "{{" obj_key"k" ":" (expr ident"{}") "," "}}")"#,
            name(6)
        ),
        // its head counts with the name
        format!(r#"(expr_object (path ident"{}") "{{" "}}")"#, name(2)),
        format!(r#"(expr_tuple "(" (expr ident"{}") ")")"#, name(2)),
    ]
}

pub fn lists(all: &mut Vec<History>) {
    for n in 79..=82 {
        for sort in 0..3 {
            let trees = of_width(n, sort);
            all.extend(trees.iter().map(|tree| one_run("widths", tree)));
        }
    }
}

/// Four to seven entries, and what doesn't count as one.
pub fn sixth(all: &mut Vec<History>) {
    for n in 4..=7 {
        for (open, entry, close) in [
            (r#"(expr_array "[""#, r#"(expr "v") ",""#, r#""]")"#),
            (r#"(expr_array "[""#, r#"(expr_semi "v") ",""#, r#""]")"#),
            (r#"(expr_call "(""#, r#"(expr "v")"#, r#"")")"#),
            (r#"(expr_tuple "(""#, r#"(expr "v") ",""#, r#"")")"#),
            (
                r#"(expr_object anon_key"\#" "{""#,
                r#"obj_key"k" ",""#,
                r#""}")"#,
            ),
            (
                r#"(expr_object (path "A") "{""#,
                r#"obj_key"k" ":" (expr "v") ",""#,
                r#""}")"#,
            ),
        ] {
            let tree = format!("{open} {} {close}", [entry].repeat(n).join(" "));
            all.push(one_run("sixth", &tree));
        }
    }
    let keys = [r#"obj_key"k""#].repeat(4).join(" ");
    for tree in [
        // comments and white space are no entries; keys before the brace, and
        // entries behind the bracket are
        format!(r#"(expr_array "[" {} "]")"#, [r#"(expr "v") "/*c*/" " ""#].repeat(5).join(" ")),
        format!(r##"(expr_object anon_key"\#" obj_key"k" obj_key"l" "{{" {keys} "}}")"##),
        format!(r#"(expr_call "(" {} ")" (expr "w"))"#, [r#"(expr "v")"#].repeat(5).join(" ")),
        r#"(expr_array "[" (expr (expr_array "[" (expr "1") (expr "2") (expr "3") "]")) (expr "4") (expr "5") (expr "6") "]")"#.into(),
    ] {
        all.push(one_run("sixth", &tree));
    }
}

/// A line comment among the children, and one that isn't.
#[rustfmt::skip]
const COMMENTS: &[&str] = &[
    r#"(expr_array "//l" "\n" "[" (expr "a") "]")"#, r#"(expr_array "[" "//l" "\n" (expr "a") "]")"#,
    r#"(expr_array "[" (expr "a" "//l" "\n") "]")"#, r#"(expr_array "[" (expr "a") "//l" "\n" "]")"#,
    r#"(expr_array "[" (expr "a") "]" "//l" "\n")"#, r#"(expr_array "[" (expr "a") "]") "//l" "\n""#,
    r#"(expr_array "[" (expr (path "a" "//l" "\n" "b")) "]")"#, r#"(expr_array "[" "/*//*/" (expr "a") "]")"#,
    r#"(expr_call "(" (expr "a") "," "//l" "\n" ")")"#, r#"(expr_call "(" ")" "//l" "\n")"#, r#"(expr_call "(" "//l" "\n" ")")"#,
    r#"(expr_object "//l" "\n" anon_key"\#" "{" obj_key"k" "}")"#, r#"(expr_object anon_key"\#" "//l" "\n" "{" obj_key"k" "}")"#,
    r#"(expr_object anon_key"\#" "{" "//l" "\n" obj_key"k" "}")"#, r#"(expr_object anon_key"\#" "{" obj_key"k" "}" "//l" "\n")"#,
    r#"(expr_object anon_key"\#" "{" obj_key"k" ":" (expr "a" "//l" "\n") "}")"#, r#"(expr_object (path "A" "//l" "\n") "{" obj_key"k" "}")"#,
    r#"(expr_object "//l" "\n" (path "A") "{" obj_key"k" "}")"#, r#"(expr_object (path "A") "//l" "\n" "{" "}")"#,
    r#"(expr_object anon_key"\#" "{" obj_key"k" "," "/*//*/" "}")"#,
    // the sixth entry behind a comment, and a comment behind the sixth
    r#"(expr_array "[" (expr "1") (expr "2") "//l" "\n" (expr "3") (expr "4") (expr "5") (expr "6") "]")"#,
    r#"(expr_array "[" (expr "1") (expr "2") (expr "3") (expr "4") (expr "5") (expr "6") "//l" "\n" "]")"#,
];

pub fn comments(all: &mut Vec<History>) {
    all.extend(COMMENTS.iter().map(|tree| one_run("line comments", tree)));
}

const FIELD: &str = r#"(expr_field "." (path "fff"))"#;
const CALL: &str = r#"(expr_call "(" (expr "x") ")")"#;
/// A call in lines, which shows how far its link is indented.
const LOOSE: &str = r#"(expr_call "(" "//l" "\n" (expr "x") ")")"#;
const TRY: &str = r#"(expr_try "?")"#;
const AWAIT: &str = r#"(expr_await "." "await")"#;
const INDEX: &str = r#"(expr_index "[" (expr "i") "]")"#;

/// What stands behind a chain's head: no call, one or two; a link that goes on a new
/// line in front of it, right behind it and later; white space and comments, which
/// one of the two ways of numbering counts.
const TAILS: &[&[&str]] = &[
    &[],
    &[FIELD],
    &[TRY],
    &[TRY, FIELD],
    &[r#""\n""#, FIELD],
    &[AWAIT, TRY],
    &[INDEX, AWAIT],
    &[CALL],
    &[CALL, TRY],
    &[CALL, FIELD],
    &[CALL, TRY, AWAIT],
    &[CALL, CALL, INDEX],
    &[r#"" ""#, CALL, r#""/*c*/""#, TRY, FIELD],
    &[r#""/*c*/" "\n""#, CALL, INDEX],
    &[LOOSE],
    &[LOOSE, TRY, FIELD],
    &[LOOSE, TRY, AWAIT],
    &[TRY, LOOSE, INDEX],
    &[FIELD, CALL],
    &[FIELD, CALL, TRY],
    &[FIELD, CALL, FIELD, CALL],
    &[TRY, AWAIT, CALL, TRY, INDEX],
    &[
        r#""//l" "\n""#,
        FIELD,
        r#""//m" "\n""#,
        CALL,
        r#""/*c*/""#,
        TRY,
    ],
];

/// The test of the whole chain, and that of its head up to the first call's first
/// byte, each around 80.
pub fn chains(all: &mut Vec<History>) {
    for tail in TAILS {
        let links = tail.join(" ");
        let behind = dark(&links);
        let to_call = tail
            .iter()
            .position(|t| *t == CALL || *t == LOOSE)
            .map(|at| {
                let before: usize = tail[..at].iter().map(|t| dark(t)).sum();
                before
            });
        let mut heads = vec![80 - behind, 81 - behind];
        heads.extend([79, 80, 81].map(|n| n - to_call.unwrap_or(0)));
        heads.dedup();
        for head in heads {
            let head = filling(head, head % 3);
            let tree = format!(r#"(expr_chain (path ident"{head}") {links})"#);
            all.push(one_run("broken chains", &tree));
        }
    }
}

/// How many characters of a tree in words count.
fn dark(words: &str) -> usize {
    let source = crate::sx::build(words).0;
    source.chars().filter(|c| !c.is_whitespace()).count()
}

/// Document 01's two lists, and P1 to P3: lists whose brackets are empty, so that
/// their span is the letters alone.
pub fn samples(all: &mut Vec<History>) {
    let letters = |n: usize| "a".repeat(n);
    for tree in [
        r#"(expr_call "(" (expr "a") "," (expr "b") " " "/* k */" ")")"#.to_string(),
        r#"(expr_call "(" (expr "a") " " "// n" "\n" ")")"#.to_string(),
        format!(
            r#"(expr_call paren_open"" (expr ident"{}") paren_close"")"#,
            letters(80)
        ),
        format!(
            r#"(expr_call paren_open"" (expr ident"{}") paren_close"")"#,
            letters(81)
        ),
        format!(
            r#"(expr_call paren_open"" (expr ident"{}") "\u{{3000}}" paren_close"")"#,
            letters(80)
        ),
    ] {
        all.push(history("document 01", &tree, vec![run_step(0)]));
    }
}
