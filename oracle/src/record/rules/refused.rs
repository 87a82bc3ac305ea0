//! Runs that are refused before their rule (9, 10, 11) and in the middle of it for
//! want of room (4), by the queue (5) and at the last indentation (6).
use super::nodes::{FIRST, NODES};
use super::words::Words;
use super::{encode, history};
use crate::call::run_step;
use crate::call::Call::{Finish, Ignore, Indent, Lit, Nl, Ws};
use crate::fmt::format::has_rule;
use crate::grammar::Rec;
use crate::kinds::{KIND_NAME, KIND_OF};
use crate::opening::join;
use crate::record::history::History;
use crate::record::pieces::Pieces;
use crate::sx::{self, with_blocks};

/// A run on each of these trees' first records, side by side in one tree.
fn side_by_side(sort: &'static str, trees: &[String]) -> History {
    let mut steps = encode(&[Lit(5), Ws]);
    let mut number = 0;
    for tree in trees {
        steps.push(run_step(number));
        number += sx::build(tree).1.len() as u32;
    }
    history(sort, &trees.join(" "), steps)
}

/// An empty record of a kind.
fn empty(kind: u8) -> String {
    match kind < 0x80 {
        true => format!(r#"{kind:02X}"""#),
        false => format!("({kind:02X})"),
    }
}

const PARENTS: [&str; 4] = ["pat", "variant", "expr", "block_body"];

/// Where few are taken, or any is written or run through `expr`: one in four will do.
const OTHERS: [&str; 4] = [
    "item",
    r#"expr_chain "h""#,
    r#"expr_if "if" (expr "c")"#,
    r#"item_const "X" "=""#,
];

/// The kinds without a rule; many a leaf and every composite as a pattern's and an
/// expression's child; every composite as a variant's body and as a statement; some as
/// an item, a chain's link, behind an `if`, and where any is run through `expr`.
pub fn kinds(all: &mut Vec<History>) {
    let known = |kind: &u8| !KIND_NAME[*kind as usize].is_empty();
    let without_rule = |kind: &u8| !has_rule(KIND_OF[*kind as usize]);
    let unknown = [0x0B, 0x50, 0x7F, 0xAB, 0xF0, 0xFF];
    let without = (0..=255).filter(known).filter(without_rule).chain(unknown);
    let inside = |parent: &str, kinds: Vec<u8>| -> Vec<String> {
        let kinds = kinds.into_iter().filter(known).map(empty);
        kinds.map(|k| format!("({parent} {k})")).collect()
    };
    let mut lists: Vec<Vec<String>> = vec![without.map(empty).collect()];
    lists.extend(["pat", "expr"].map(|p| inside(p, (3..0x80).step_by(3).collect())));
    lists.extend(PARENTS.map(|p| inside(p, (0x80..=255).collect())));
    lists.extend(OTHERS.map(|p| inside(p, (0x80..=255).step_by(4).collect())));
    for trees in lists.iter().flat_map(|l: &Vec<String>| l.chunks(20)) {
        all.push(side_by_side("kinds", trees));
    }
    // with records inside, and comments between
    let trees = ["field", "modifiers", "attr", "empty_body", "error", "FF"];
    let trees = trees.map(|kind| format!(r#"({kind} "x" "//l" "\n" "y")"#));
    all.push(side_by_side("kinds", &trees));
}

/// Numbers past the tree's last, alone and between runs that succeed.
pub fn nodes_missing(all: &mut Vec<History>) {
    let missing = |n: usize| [n as u32, n as u32 + 1, 8_191, 8_192, 1 << 31, u32::MAX];
    all.push(history(
        "no such node",
        "",
        missing(0).map(run_step).to_vec(),
    ));
    for tree in [NODES[0], NODES[8], NODES[11], r#""a" (F0)"#] {
        let mut steps = vec![run_step(0)];
        steps.extend(missing(sx::build(tree).1.len()).map(run_step));
        steps.extend([run_step(0), Ws.encode()]);
        all.push(history("no such node", tree, steps));
    }
}

/// 10 comes before 11, and 11 before 9.
pub fn finished(all: &mut Vec<History>) {
    for (i, node) in NODES.iter().enumerate() {
        let tree = format!(r#"{node} "//l" "\n" "z""#);
        let mut steps = vec![run_step(0), Finish.encode()];
        if i % 2 == 0 {
            steps.swap(0, 1);
        }
        let leaf = 1;
        // not all of them behind each node, so that the file stays small
        let late = [0, leaf, 99].map(run_step);
        steps.extend(late.into_iter().take(3 - i % 3));
        all.push(history("finished", &tree, steps));
    }
}

/// Too little room: for the first run, and for the second in its middle.
pub fn rooms(all: &mut Vec<History>) {
    for (i, node) in NODES.iter().enumerate() {
        let tree = format!(r#"{node} "/*c*/""#);
        let [lit, run, nl] = [Lit(5).encode(), run_step(0), Nl(1).encode()];
        let steps = || vec![lit.clone(), run.clone(), nl.clone(), run.clone()];
        let needed = history("rooms", &tree, steps()).needs();
        // one of the first nodes is also refused in its first run
        let caps = [needed - 2, needed / 3];
        for cap in &caps[..1 + (i < FIRST) as usize] {
            let cap = Some(*cap);
            let h = history("rooms", &tree, steps());
            all.push(History { cap, ..h });
        }
    }
    every_room(all);
}

/// The largest room for which each call of the run that writes is the one refused:
/// a call tests its room once, for all that it lets out.
fn every_room(all: &mut Vec<History>) {
    for tree in [
        r#"(variant "//l" "\n" "V" "/*c*/" (struct_body "{" (field "a") "//m" "\n" "}"))"#,
        r#"(struct_body "{" "/*c*/" "\n" "//l" "\n" (field "a") "," "/*d*/" "\n" "//m" "\n" (field "b") "/*e*/" "\n" "//n" "}")"#,
        r#"(item_enum "enum" "{" "/*c*/" "\n" "//l" "\n" (variant "A" (empty_body)) "," "/*d*/" "\n" "//m" "\n" "}")"#,
        r#"(expr_call "(" "//l" "\n" (expr "a") "//m" "\n" "," "/*d*/" "\n" (expr "b") ")")"#,
        r#"(expr_object anon_key"\#" "{" "//l" "\n" obj_key"k" ":" (expr "v") "/*c*/" "\n" "}")"#,
        r#"(expr_match "match" (expr "a") "{" "//l" "\n" (match_arm (pat "_") "=>" (expr "b")) "/*c*/" "\n" "}")"#,
        r#"(expr_select "select" "{" "//l" "\n" (select_arm "default" "=>" (expr "b")) "}")"#,
        r#"(block_body "//l" "\n" (local_semi "let" (pat "_") "=" (expr "x")) "/*c*/" (item (item_fn "fn" "f")))"#,
    ] {
        let with = |cap| History {
            cap: Some(cap),
            ..history("rooms", tree, vec![run_step(0)])
        };
        let (mut room, mut place) = (with(0).needs(), None);
        while room > 0 {
            room -= 1;
            let refused_at = with(room).last_place();
            if place.replace(refused_at) != Some(refused_at) {
                all.push(with(room));
            }
        }
    }
}

/// A tree in which 7F stands for so many empty comments.
fn many(tree: &str, line: bool, n: usize, steps: Vec<Vec<u8>>) -> History {
    let (source, mut records) = sx::build(tree);
    let at = records.iter().position(|r| r.kind == 0x7F).expect("a 7F");
    for (i, r) in records[..at].iter_mut().enumerate() {
        if i + r.below as usize >= at {
            r.below += n as u32 - 1;
        }
    }
    let place = records[at].start;
    let comment = Rec::new(if line { 1 } else { 2 }, place, place, 0);
    let tree = Pieces::from(join(&records[..at]))
        .and(Pieces::times(n, comment))
        .and(join(&records[at + 1..]));
    History {
        sort: "queues",
        source: source.as_str().into(),
        tree,
        cap: None,
        steps,
        runs: true,
    }
}

/// 257 comments behind the first record of each rule's node; 256 that are let out;
/// some that waited before.
pub fn queues(all: &mut Vec<History>) {
    for (i, node) in NODES.iter().enumerate() {
        let tree = Words::of(node).with_behind_first(r#"7F"""#);
        let run = vec![run_step(0), Ws.encode()];
        all.push(many(&tree, i % 2 == 0, 257, run));
    }
    for node in [NODES[7], NODES[8], NODES[11]] {
        let tree = Words::of(node).with_behind_first(r#"7F"""#);
        all.push(many(&tree, false, 256, vec![run_step(0)]));
    }
    let tree = r#"(tuple_body "(" "//1" "\n" "//2" "\n" (field "a") "//3" "," 7F"" ")")"#;
    for n in [253, 254] {
        all.push(many(tree, true, n, vec![run_step(0)]));
    }
    let tree = r#""q" 7F"" (path "a" "/*1*/" "::" "/*2*/" "b")"#;
    let steps = vec![Ignore(0).encode(), run_step(256)];
    all.push(many(tree, true, 255, steps));
}

/// What needs a level more, two, or none.
const INDENTED: &[&str] = &[
    r#"(struct_body "{" "}")"#,
    r#"(item_enum "enum" "{" "}")"#,
    r#"(item_enum "enum" "E")"#,
    r#"(item_enum "enum" "{" (variant (struct_body "{" "}")) "}")"#,
    r#"(variant "V" (struct_body "{" "}"))"#,
    r#"(item_struct "struct" "S" (struct_body "{" "}"))"#,
    r#"(item_struct "struct" "S" (tuple_body "(" ")"))"#,
    r#"(block "{" (block_body) "}")"#,
    r#"(block "{" (block_body (expr (block "{" (block_body (expr "x")) "}"))) "}")"#,
    r#"(item (item_fn "fn" "f" B))"#,
    r#"(item_fn "fn" "f" (fn_args "(" ")") B)"#,
    r#"(item_fn "fn" "f")"#,
    r#"(item_impl "impl" (path "A") B)"#,
    r#"(item_mod "mod" "m" B)"#,
    r#"(expr_array "[" "//l" "\n" "]")"#,
    r#"(expr_call "(" "//l" "\n" (expr (expr_array "[" "//m" "\n" "]")) ")")"#,
    r#"(expr_object anon_key"\#" "{" "//l" "\n" obj_key"k" "}")"#,
    r#"(expr_if "if" (expr "a"))"#,
    r#"(expr_if "if" (expr "a") (expr_else "else" B))"#,
    r#"(expr_while "while" (expr "a") B)"#,
    r#"(expr_loop "loop" B)"#,
    r#"(expr_for "for" (pat "_") "in" (expr "a") B)"#,
    r#"(expr_select "select" "{" "}")"#,
    r#"(expr_select "select")"#,
    r#"(expr_match "match" (expr "a") "{" (match_arm (pat "_") "=>" (expr B)) "}")"#,
    r#"(expr_match "match" (expr "a") "{" "}")"#,
];

/// `indent` at 62, 63 and 64: a run that needs one level more, two, or none.
pub fn indents(all: &mut Vec<History>) {
    // chains that break at their first link, and at their second
    let chain =
        |n: usize, links: &str| format!(r#"(expr_chain (path "{}") {links})"#, "h".repeat(n));
    let chains = [
        chain(80, r#"(expr_field "." (path "f"))"#),
        chain(79, r#"(expr_try "?") (expr_try "?")"#),
    ];
    let trees = INDENTED.iter().map(|tree| with_blocks(tree));
    for tree in trees.chain(chains) {
        let run = run_step(0);
        let mut steps = encode(&[Indent(64), Lit(5)]);
        steps.push(run.clone());
        for _ in 0..2 {
            steps.extend([Indent(-1).encode(), run.clone()]);
        }
        all.push(history("indents", &tree, steps));
    }
}

/// At the last indentation, and no room for the brace in front of it.
pub fn room_before_indent(all: &mut Vec<History>) {
    for tree in [
        r#"(struct_body "{" "}")"#,
        r#"(item_enum "enum" "{" "}")"#,
        r#"(item_struct "struct" (struct_body "{" "}"))"#,
        r#"(block "{" (block_body (expr "x")) "}")"#,
        r#"(expr_array "[" "//l" "\n" "]")"#,
        r#"(expr_object anon_key"\#" "{" "//l" "\n" "}")"#,
        r#"(expr_match "match" (expr "a") "{" (match_arm (pat "_") "=>" (expr "b")) "}")"#,
        // it indents before it writes its brace
        r#"(expr_select "select" "{" "}")"#,
    ] {
        let steps = vec![Indent(64).encode(), run_step(0)];
        let h = history("no room left", tree, steps);
        for cap in [h.needs() - 1, h.needs()] {
            let h = history("no room left", tree, h.steps.clone());
            let cap = Some(cap);
            all.push(History { cap, ..h });
        }
    }
}
