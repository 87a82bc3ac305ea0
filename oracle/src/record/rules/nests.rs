//! Nodes inside each other, each form by itself, down to depth 64: a tree level costs
//! a rule exactly one level of depth, which no tree by chance shows.
use super::history;
use crate::call::run_step;
use crate::gen::nests::{at_depth, depth, depths, nest, FILLER, FORMS};
use crate::record::history::History;
use crate::sx;

const MOST: usize = 64;
/// From 34 to 63 a form is recorded at every so manieth depth.
const APART: usize = 7;

/// Whole nodes, which stand with their deepest record at depth 64: a rule's own parts
/// cost no more than their levels either. B is an empty block.
#[rustfmt::skip]
const NODES: &[&str] = &[
    r#"(expr_array "[" (expr (attr "\#") (modifiers (mod_in "(" "in" (path "a" (path_generics "<" (path "b") ">")) ")")) "'l" ":" "x") "]")"#,
    r#"(expr_tuple "(" (expr (lit "-" "1")) "," ")")"#, r#"(expr_object (path "A" (path_generics "<" (path "b") ">")) "{" obj_key"k" ":" (expr "v") "}")"#,
    r#"(expr_object anon_key"\#" "{" "//l" "\n" obj_key"k" ":" (F0 (path "v")) "}")"#, r#"(expr_binary (path "a") (operator "+") (path "b"))"#,
    r#"(expr_assign (expr "a") "=" (expr (path "b")))"#, r#"(expr_empty_group empty_open"" (expr (path "a")) empty_open"")"#, r#"(range (path "a") ".." (lit "1"))"#,
    r#"(expr_if "if" (condition "let" (pat (lit "1")) "=" (expr "a")) B (expr_else_if "else" "if" (expr "b") B) (expr_else "else" B))"#,
    r#"(expr_if "if" (expr "a") (expr_else_if "else" "if" (expr "b") B))"#,
    r#"(expr_while "while" (expr "a") B)"#, r#"(expr_loop "loop" (block "{" (block_body (inner_attr "\#")) "}"))"#, r#"(expr_for "for" (pat "_") "in" (expr "a") B)"#,
    r#"(expr_break "break" "'l" (expr "x"))"#, r#"(expr_continue "continue" "'l")"#, r#"(expr_select "select" "{" (select_arm (pat "_") "=>" (expr (path "a"))) "}")"#,
    r#"(expr_match "match" (expr "a") "{" (match_arm (pat (path "b")) "=>" (expr B)) "}")"#, r#"(expr_closure (closure_args "|" (pat (pat_tuple (path "A") "(" (pat "_") ")")) "|") (expr "x"))"#,
    r#"(expr_chain "h" (expr_field "." (path "a" (path_generics "<" (path "b") ">"))))"#, r#"(expr_chain "h" (expr_try "?") (expr_await "." "await") (expr_field "." "1"))"#,
    r#"(block "{" (block_body (local "let" (pat (pat_object anon_key"\#" "{" obj_key"k" ":" (pat "_") "}")) "=" (expr "a"))) "}")"#,
    r#"(block "{" (block_body (F0 (path "a"))) "}")"#, r#"(block "{" (block_body (item_semi (item_use "use" (item_use_group "{" (item_use_path "a") "}")))) "}")"#,
    r#"(block "{" (block_body (item (item_struct (modifiers (mod_crate "(" "crate" ")")) "struct" "S" (struct_body "{" (field (F0 "a")) "}")))) "}")"#,
    r#"(block "{" (block_body (item (item_enum "enum" "E" "{" (variant "V" (tuple_body "(" (field "a") ")")) "}"))) "}")"#,
    r#"(block "{" (block_body (item (item_fn "fn" "f" (fn_args "(" (pat (path "a")) ")") B))) "}")"#, r#"(block "{" (block_body (item (item_impl "impl" (path "A") B))) "}")"#,
    r#"(block "{" (block_body (const_semi (item_const "X" "=" (expr (path "a"))))) "}")"#,
];

/// Each form at depth 64, and at four or five depths from 34 on; at each of these nine forms or ten.
pub fn all(all: &mut Vec<History>) {
    for tree in &at_depth(MOST) {
        assert_eq!(depth(tree), MOST, "{tree}");
        all.push(history("nests of 64", tree, vec![run_step(0)]));
    }
    for want in 34..MOST {
        let run = |tree: &String| history("nests", tree, vec![run_step(0)]);
        let trees = at_depth(want);
        all.extend(trees.iter().skip(want % APART).step_by(APART).map(run));
    }
    for node in NODES {
        let tree = nest(FILLER, FILLER, FILLER, node, MOST);
        assert_eq!(depth(&tree), MOST, "{tree}");
        all.push(history("nodes at 64", &tree, vec![run_step(0)]));
    }
    wide(all);
    at_the_bottom(all);
}

/// A name of 81 letters at the bottom makes every list loose, and breaks every chain.
fn wide(all: &mut Vec<History>) {
    let name = format!(r#""{}""#, "n".repeat(81));
    let lists = [
        r##"(expr_object anon_key"#" "{" obj_key"k" ":" (expr X) "}")"##,
        r#"(expr_chain "h" (expr_call "(" (expr X) ")"))"#,
    ];
    for form in lists {
        let tree = nest(form, form, FILLER, &name, MOST);
        all.push(history("wide nests", &tree, vec![run_step(0)]));
    }
}

/// What has no rule there stands at depth 64: refused by 9 or 8, and not by 7.
fn at_the_bottom(all: &mut Vec<History>) {
    for (i, form) in FORMS.iter().enumerate().step_by(7) {
        let bottom = ["(F0)", r#""x" "y""#, "(lit)"][i % 3];
        let tree = nest(form, form, FILLER, bottom, MOST);
        all.push(history("refused nests", &tree, vec![run_step(0)]));
    }
}

/// Nests with a record at depth 65, which opening refuses, and that record's number.
pub fn too_deep() -> Vec<(String, usize)> {
    let first = |tree: &String| {
        let depths = depths(&sx::build(tree).1);
        depths.iter().position(|d| *d == MOST + 1)
    };
    let trees = at_depth(MOST + 1).into_iter();
    trees.filter_map(|t| first(&t).map(|at| (t, at))).collect()
}
