//! Layout cases at the bounds, made by hand: `oracle gen edge`.
use crate::call::{layout_step, run_step, Call};
use crate::case::Case;
use crate::sx;

pub fn cases() -> Vec<(String, Case)> {
    let mut all = vec![];
    roots(&mut all);
    sizes(&mut all);
    queues(&mut all);
    widths(&mut all);
    sixth_entries(&mut all);
    chains(&mut all);
    chains_with_a_field(&mut all);
    waiting_comments(&mut all);
    all
}

type Cases = Vec<(String, Case)>;

fn add(all: &mut Cases, name: &str, tree: &str, steps: Vec<u8>) {
    let (source, records) = sx::build(tree);
    let tree = crate::opening::join(&records);
    let case = Case::new(source.into_bytes(), tree, steps);
    all.push((name.to_string(), case));
}

fn roots(all: &mut Cases) {
    add(all, "no-records", "", layout_step());
    add(all, "body-only", "(block_body)", layout_step());
    add(all, "body-not-all", r#"(block_body) ws" ""#, layout_step());
    add(all, "root-leaf", r#"ident"a""#, layout_step());
}

/// The largest tree and source, and the slowest shape known: thirty lists inside
/// each other, each of which counts the same 65,000 blanks again.
fn sizes(all: &mut Cases) {
    for n in [8_191, 8_192] {
        let tree = format!("(block_body {})", r#"ws"" "#.repeat(n - 1));
        add(all, &format!("records-{n}"), &tree, layout_step());
    }
    let name = "x".repeat(65_536);
    let tree = format!(r#"(block_body (expr ident"{name}"))"#);
    add(all, "source-65536", &tree, layout_step());
    let open = r#"(expr (expr_array bracket_open"[" "#.repeat(30);
    let close = r#" bracket_close"]"))"#.repeat(30);
    let blanks = " ".repeat(65_000);
    let tree = format!(r#"(block_body {open}ws"{blanks}"{close})"#);
    add(all, "nest-30-blanks", &tree, layout_step());
}

/// So many comments in front of the first token.
fn queues(all: &mut Cases) {
    for n in [255, 256, 257] {
        let three = r#"block_comment"/*c*/" ws"\n" block_comment"/*c*/" block_comment"/*c*/" "#;
        let rest = r#"block_comment"/*c*/" "#.repeat(n % 3);
        let tree = format!("(block_body {}{rest})", three.repeat(n / 3));
        add(all, &format!("queue-{n}"), &tree, layout_step());
    }
}

/// A list of a width around 80, without and with White_Space that isn't counted.
fn widths(all: &mut Cases) {
    for width in 78..=83 {
        for (name, blank) in [("ascii", ""), ("blank", r#"ws"\u{3000}\u{2028}\n ""#)] {
            let name = format!("width-{width}-{name}");
            let key = "k".repeat(width - 2);
            let list =
                format!(r#"bracket_open"[" (expr (path ident"{key}")) {blank} bracket_close"]""#);
            let tree = format!("(block_body (expr (expr_array {list})))");
            add(all, &name, &tree, layout_step());
        }
    }
}

fn sixth_entries(all: &mut Cases) {
    for n in 4..=7 {
        let items = r#"(expr ident"v") comma"," "#.repeat(n);
        let list = format!(r#"(expr_array bracket_open"[" {items} bracket_close"]")"#);
        let keys = r#"obj_key"k" comma"," "#.repeat(n);
        let object =
            format!(r##"(expr_object anon_key"#" brace_open"{{" {keys} brace_close"}}")"##);
        for (name, node) in [("items", list), ("keys", object)] {
            let tree = format!("(block_body (expr {node}))");
            add(all, &format!("{name}-{n}"), &tree, layout_step());
        }
    }
}

/// The two tests of 80 in `expr_chain`, and its two ways of numbering.
const CHAIN_TAILS: &[(&str, &str)] = &[
    ("field", r#"(expr_field dot"." (path ident"fff"))"#),
    (
        "try-field",
        r#"(expr_try question"?") (expr_field dot"." (path ident"fff"))"#,
    ),
    (
        "ws-field",
        r#"ws"\n" (expr_field dot"." (path ident"fff"))"#,
    ),
    (
        "call",
        r#"(expr_call paren_open"(" (expr ident"x") paren_close")") (expr_try question"?")"#,
    ),
    (
        "call-field",
        r#"(expr_call paren_open"(" paren_close")") (expr_field dot"." (path ident"g"))"#,
    ),
    (
        "ws-call-field",
        r#"ws" " (expr_call ws" " paren_open"(" paren_close")") block_comment"/**/"
           (expr_try question"?") (expr_field dot"." (path ident"g"))"#,
    ),
    (
        "comment-call",
        r#"block_comment"/*c*/" (expr_call paren_open"(" (expr ident"x") paren_close")")
           (expr_index bracket_open"[" (expr ident"i") bracket_close"]")"#,
    ),
    (
        "await",
        r#"(expr_await dot"." kw_await"await") (expr_try question"?")"#,
    ),
    (
        "two-calls",
        r#"(expr_call paren_open"(" paren_close")") (expr_call paren_open"(" paren_close")")
           (expr_try question"?")"#,
    ),
];

fn chains(all: &mut Cases) {
    for width in 78..=83 {
        for (name, tail) in CHAIN_TAILS {
            let name = format!("chain-{name}-{width}");
            let head = "h".repeat(width);
            let tree = format!(r#"(expr (expr_chain (path ident"{head}") {tail}))"#);
            add(all, &name, &tree, run_step(0));
        }
    }
}

fn chains_with_a_field(all: &mut Cases) {
    let tails = [
        ("", ""),
        ("-try", r#"(expr_try question"?")"#),
        ("-field", r#"(expr_field dot"." (path ident"g"))"#),
    ];
    for width in 78..=83 {
        for (name, tail) in tails {
            let name = format!("chain-field-call{name}-{width}");
            let head = "h".repeat(width - 4);
            let tree = format!(
                r#"(expr (expr_chain (path ident"{head}") (expr_field dot"." (path ident"fff"))
                    (expr_call paren_open"(" (expr ident"x") paren_close")") {tail}))"#
            );
            add(all, &name, &tree, run_step(0));
        }
    }
}

/// Comments that wait where a rule's first or last hint must let them out.
fn waiting_comments(all: &mut Cases) {
    let variant = r#"(variant ident"V" (empty_body)) block_comment"/*b*/" line_comment"// c""#;
    let collected = [Call::Ignore(0).encode(), run_step(0)].concat();
    add(all, "variant-waiting", variant, collected);
    for (name, inside) in [
        ("suffix", r#"(expr ident"x") block_comment"/*c*/""#),
        ("prefix", r#"block_comment"/*c*/" (expr ident"x")"#),
        ("infix", r#"block_comment"/*c*/""#),
    ] {
        let tree = format!(
            r#"(expr_chain (expr_empty_group empty_open"" {inside} empty_open"")
                (expr_field dot"." (path ident"f")))"#
        );
        add(all, &format!("empty-group-{name}"), &tree, run_step(0));
    }
}
