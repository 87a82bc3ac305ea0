//! Statements of a block: each class behind each other, each kind with no semicolon,
//! one and two, and what stands between them.
use super::{encode, history, one_run};
use crate::call::{run_step, Call};
use crate::record::history::History;

/// A statement of each class: Item, Const, Local, other.
const CLASSES: [(&str, &str); 4] = [
    ("item", r#"(item_file_mod "mod" "m")"#),
    ("const_stmt", r#"(item_const "X" "=" (expr "1"))"#),
    ("local", r#""let" (pat "_") "=" (expr "x")"#),
    ("expr", r#""y""#),
];

/// The kinds that need a semicolon, in the same order.
const WITH_SEMI: [&str; 4] = ["item_semi", "const_semi", "local_semi", "expr_semi"];

/// Lines of the script between two statements: a count there is stays.
const BETWEEN: [&str; 3] = [r#""#, r#""\n\n\n""#, r#""\n" "//l" "\n" "/*c*/" "\n\n""#];

pub fn gaps(all: &mut Vec<History>) {
    for (i, (first, a)) in CLASSES.iter().enumerate() {
        for (j, (second, b)) in CLASSES.iter().enumerate() {
            for between in BETWEEN {
                let tree = format!("(block_body ({first} {a}) {between} ({second} {b}))");
                all.push(one_run("statements", &tree));
            }
            let (first, second) = (WITH_SEMI[i], WITH_SEMI[j]);
            let tree = format!(r#"(block_body ({first} {a}) ";" "\n" ({second} {b}))"#);
            all.push(one_run("statements", &tree));
        }
    }
    // other kinds go as expressions do
    for behind in ["(lit \"1\")", "(F0 \"z\")"] {
        let tree = format!(
            r#"(block_body (local "let" (pat "_") "=" (expr "x")) (F0 {behind}) (F0 "w"))"#
        );
        all.push(one_run("statements", &tree));
    }
}

/// What stands in front of a semicolon, or where it is missing.
const BEFORE: [&str; 3] = ["", r#""/*c*/""#, r#""//l" "\n" "/*c*/""#];

pub fn semicolons(all: &mut Vec<History>) {
    for (i, (kind, inside)) in CLASSES.iter().enumerate() {
        for kind in [kind, WITH_SEMI[i]] {
            for before in BEFORE {
                for semicolons in ["", r#"";""#, r#"";" "/*d*/" ";""#] {
                    let tree = format!(
                        r#"(block_body ({kind} {inside}) {before} {semicolons} (expr "z"))"#
                    );
                    all.push(one_run("semicolons", &tree));
                }
            }
        }
    }
}

/// A whole layout as the calls and the one run that it counts as.
pub fn layout_steps() -> Vec<Vec<u8>> {
    let mut steps = encode(&[Call::FlushPrefixComments]);
    steps.push(run_step(0));
    steps.extend(encode(&[Call::Nl(1), Call::Finish]));
    steps
}

/// Small programs.
pub fn programs(all: &mut Vec<History>) {
    for tree in [
        "(block_body)",
        r#"(block_body "//l" "\n")"#,
        r#"(block_body "/*c*/" "\n\n" (inner_attr "\#" "!" "[" "x" "]") "\n" (item_semi (item_use "use" "a")) ";" "//l" "\n")"#,
        r#"(block_body "\n\n\n" (item (item_fn "fn" "f" (fn_args "(" ")") (block "{" (block_body (expr "x")) "}"))) "\n" (expr_semi "y") ";" "//l")"#,
    ] {
        all.push(history("programs", tree, layout_steps()));
    }
}
