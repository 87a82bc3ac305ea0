//! Forms that nest, and the family `nests`: forms by chance inside each other, down to
//! depths around 64.
use super::{rules, Rng};
use crate::call::run_step;
use crate::case::Case;
use crate::grammar::Rec;
use crate::kinds::k::LABEL;
use crate::opening::join;
use crate::sx::{self, with_blocks};

/// Forms that hold one of their own sort: X is where the next one stands, in a place
/// for an inner expression. Each form is one, too.
#[rustfmt::skip]
pub const FORMS: &[&str] = &[
    r#"(expr_array "[" (expr X) "]")"#, r#"(expr_array "[" "//l" "\n" (expr X) "]")"#, r#"(expr_tuple "(" (expr X) "," ")")"#,
    r#"(expr_object anon_key"\#" "{" obj_key"k" ":" (expr X) "}")"#, r#"(expr_object (path "A") "{" "//l" "\n" obj_key"k" ":" (expr X) "}")"#,
    r#"(expr_array "[" (expr (attr "\#") (modifiers "pub") "'a" ":" X) "]")"#,
    r#"(expr_unary "!" X)"#, r#"(expr_binary X (operator "+") "y")"#, r#"(expr_binary "y" (operator "+") X)"#,
    r#"(expr_assign (expr X) "=" (expr "y"))"#, r#"(expr_assign (expr "y") "=" (expr X))"#,
    r#"(expr_group "(" (expr X) ")")"#, r#"(expr_empty_group empty_open"" (expr X) empty_open"")"#,
    r#"(range_from X "..")"#, r#"(range_to ".." X)"#, r#"(range_to_incl "..=" X)"#, r#"(range X ".." "b")"#, r#"(range "a" ".." X)"#,
    r#"(range_incl X "..=" "b")"#, r#"(range_incl "a" "..=" X)"#,
    // conditions, loops, jumps
    r#"(expr_if "if" (expr X) B)"#, r#"(expr_if "if" (condition "let" (pat "_") "=" (expr X)) B)"#, r#"(expr_if "if" (expr "c") (block "{" (block_body (expr X)) "}"))"#,
    r#"(expr_if "if" (expr "c") B (expr_else "else" (block "{" (block_body (expr X)) "}")))"#, r#"(expr_if "if" (expr "c") B (expr_else_if "else" "if" (expr X) B))"#,
    r#"(expr_if "if" (expr "c") B (expr_else_if "else" "if" (condition "let" (pat "_") "=" (expr X)) B))"#,
    r#"(expr_if "if" (expr "c") B (expr_else_if "else" "if" (expr "d") (block "{" (block_body (expr X)) "}")))"#,
    r#"(expr_while "while" (expr X) B)"#, r#"(expr_while "while" (condition "let" (pat "_") "=" (expr X)) B)"#, r#"(expr_while "while" (expr "c") (block "{" (block_body (expr X)) "}"))"#,
    r#"(expr_loop "loop" (block "{" (block_body (expr X)) "}"))"#, r#"(expr_for "for" (pat "_") "in" (expr X) B)"#, r#"(expr_for "for" (pat "_") "in" (expr "c") (block "{" (block_body (expr X)) "}"))"#,
    r#"(expr_break "break" (expr X))"#, r#"(expr_return "return" (expr X))"#, r#"(expr_yield "yield" (expr X))"#,
    // arms, closures
    r#"(expr_select "select" "{" (select_arm (pat "_") "=" (expr X) "=>" (expr "y")) "}")"#, r#"(expr_select "select" "{" (select_arm "default" "=>" (expr X)) "," "}")"#,
    r#"(expr_match "match" (expr X) "{" "}")"#, r#"(expr_match "match" (expr "c") "{" (match_arm (pat "_") "if" (expr X) "=>" (expr "y")) "}")"#,
    r#"(expr_match "match" (expr "c") "{" (match_arm (pat "_") "=>" (expr X)) "," "}")"#, r#"(expr_closure (closure_args "||") (expr X))"#,
    // chains
    r#"(expr_chain X (expr_try "?"))"#, r#"(expr_chain "h" (expr_call "(" (expr X) ")"))"#, r#"(expr_chain "h" (expr_index "[" (expr X) "]"))"#,
    r#"(expr_chain "h" (expr_call "(" (expr X) ")") (expr_field "." (path "f")))"#,
    // blocks and what stands in them
    r#"(block "{" (block_body (expr X)) "}")"#, r#"(block "{" (block_body (local_semi "let" (pat "_") "=" (expr X)) ";") "}")"#,
    r#"(block "{" (block_body (const_semi (item_const (modifiers "const") "X" "=" (expr X)))) "}")"#,
    r#"(block "{" (block_body (item (item_fn "fn" "f" (fn_args "(" ")") (block "{" (block_body (expr X)) "}")))) "}")"#,
    r#"(block "{" (block_body (item (item_impl "impl" (path "A") (block "{" (block_body (expr X)) "}")))) "}")"#,
    r#"(block "{" (block_body (item (item_mod "mod" "m" (block "{" (block_body (expr X)) "}")))) "}")"#,
];

/// Places for a pattern or a path, each with what may stand around it, what nests in it
/// by two levels at a time, and what stands at the bottom.
#[rustfmt::skip]
const OTHERS: &[[&str; 4]] = &[
    [r#"(expr_unary "!" X)"#, r#"(expr_closure (closure_args "|" X "|") (expr "y"))"#, r#"(pat (pat_array "[" X "]"))"#, r#"(pat "_")"#],
    [r#"(expr_unary "!" X)"#, r#"(expr_for "for" X "in" (expr "a") B)"#, r#"(pat (pat_tuple "(" X ")"))"#, r#"(pat "_")"#],
    [r#"(block_body X)"#, r#"(local "let" X "=" (expr "a"))"#, r#"(pat (pat_object anon_key"\#" "{" obj_key"k" ":" X "}"))"#, r#"(pat "_")"#],
    [r#"(expr_while "while" X B)"#, r#"(condition "let" X "=" (expr "a"))"#, r#"(pat (pat_array "[" X "]"))"#, r#"(pat "_")"#],
    [r#"(expr_unary "!" X)"#, r#"(expr_match "match" (expr "a") "{" (match_arm X "=>" (expr "y")) "}")"#, r#"(pat (pat_tuple "(" X ")"))"#, r#"(pat "_")"#],
    [r#"(expr_unary "!" X)"#, r#"(expr_select "select" "{" (select_arm X "=>" (expr "y")) "}")"#, r#"(pat (pat_array "[" X "]"))"#, r#"(pat "_")"#],
    [r#"(item X)"#, r#"(item_fn "fn" "f" (fn_args "(" X ")") B)"#, r#"(pat (pat_tuple "(" X ")"))"#, r#"(pat "_")"#],
    [r#"(expr_group "(" X ")")"#, r#"(expr X)"#, r#"(path (path_generics "<" X ">"))"#, r#"(path "a")"#],
    [r#"(expr_unary "!" X)"#, r#"(expr_object X "{" "}")"#, r#"(path (path_generics "<" X ">"))"#, r#"(path "a")"#],
    [r#"(expr_unary "!" X)"#, r#"(expr_chain "h" (expr_field "." X))"#, r#"(path (path_generics "<" X ">"))"#, r#"(path "a")"#],
    [r#"(item X)"#, r#"(item_impl "impl" X B)"#, r#"(path (path_generics "<" X ">"))"#, r#"(path "a")"#],
    [r#"(block_body X)"#, r#"(item_semi (item_use "use" X))"#, r#"(item_use_group "{" (item_use_path X) "}")"#, r#""a""#],
];

/// The depth of each record; the first level is 1.
pub fn depths(records: &[Rec]) -> Vec<usize> {
    let mut ends: Vec<usize> = vec![];
    let mut depths = vec![];
    for (i, r) in records.iter().enumerate() {
        while ends.last().is_some_and(|end| *end <= i) {
            ends.pop();
        }
        depths.push(ends.len() + 1);
        ends.push(i + 1 + r.below as usize);
    }
    depths
}

pub fn depth(tree: &str) -> usize {
    let depths = depths(&sx::build(tree).1);
    depths.into_iter().max().unwrap_or(0)
}

/// Puts something where the next form stands.
fn grow(tree: &str, by: &str) -> String {
    tree.replacen(" X", &format!(" {by}"), 1)
}

/// A form of one level.
pub const FILLER: &str = r#"(expr_unary "!" X)"#;

/// The form so often that the deepest record stands at a depth; the levels that are
/// left over are filled with a form of one level, below all others.
pub fn nest(outside: &str, form: &str, filler: &str, bottom: &str, want: usize) -> String {
    let deep = |tree: &str| depth(&with_blocks(&grow(tree, bottom)));
    let mut tree = outside.to_string();
    for part in [form, filler] {
        loop {
            let next = grow(&tree, part);
            if deep(&next) > want {
                break;
            }
            tree = next;
        }
    }
    with_blocks(&grow(&tree, bottom))
}

/// A nest of each form whose deepest record stands at this depth.
pub fn at_depth(want: usize) -> Vec<String> {
    let inner = FORMS
        .iter()
        .map(|form| nest(form, form, FILLER, r#""x""#, want));
    let others = OTHERS.iter().map(|[around, outside, form, bottom]| {
        let tree = nest(outside, form, form, bottom, want);
        if depth(&tree) == want {
            return tree;
        }
        let outside = around.replace(" X", &format!(" {outside}"));
        nest(&outside, form, form, bottom, want)
    });
    inner.chain(others).collect()
}

/// The same as sources and trees.
pub fn built(want: usize) -> Vec<(String, Vec<Rec>)> {
    let trees = at_depth(want);
    trees.iter().map(|tree| sx::build(tree)).collect()
}

/// How many levels deeper the next form stands.
fn levels(form: &str) -> usize {
    let (_, records) = sx::build(&grow(&with_blocks(form), r#"label"""#));
    let is_mark = |r: &Rec| r.kind == LABEL && r.start == r.end;
    let at = records.iter().position(is_mark);
    depths(&records)[at.expect("a mark")] - 1
}

const BOTTOMS: [&str; 6] = [
    r#""x""#,
    r#"(lit "-" "1")"#,
    r#"(path "a" (path_generics "<" (path "b") ">"))"#,
    r#"(F0)"#,
    r#""x" "y""#,
    r#"(block "{" (block_body "//l" "\n") "}")"#,
];

/// Forms inside each other down to about a depth, and what stands at the bottom.
fn tree(rng: &mut Rng, want: usize) -> String {
    let same = rng.one_in(3).then(|| rng.pick(FORMS));
    let mut tree = rng.pick(FORMS).to_string();
    let mut deep = levels(&tree);
    while deep + 1 < want {
        let form = same.unwrap_or_else(|| rng.pick(FORMS));
        let form = if deep + levels(form) < want {
            form
        } else {
            FILLER
        };
        tree = grow(&tree, form);
        deep += levels(form);
    }
    let bottom = match rng.below(4) {
        0 => format!(r#""{}""#, "n".repeat(70 + rng.below(20))),
        1 => rng.pick(&BOTTOMS).to_string(),
        _ => BOTTOMS[0].to_string(),
    };
    with_blocks(&grow(&tree, &bottom))
}

/// A run on the first node and on some below it, over a tree of depth 34 to 66.
pub(super) fn nests(rng: &mut Rng) -> Case {
    let want = 34 + rng.below(33);
    let (source, records) = sx::build(&tree(rng, want));
    let mut steps = run_step(0);
    steps.extend(rules::some_runs(rng, &records, 3).concat());
    Case::new(source.into_bytes(), join(&records), steps)
}
