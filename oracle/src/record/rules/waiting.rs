//! Runs between calls: on an engine with comments waiting, a space or newlines on
//! offer; one run behind another; a run behind one that was refused.
use super::nodes::NODES;
use super::words::Words;
use super::{encode, has_rule, history};
use crate::call::Call::{
    self, Comments, Finish, FlushPrefixComments, Ignore, Indent, Lit, Nl, WriteOwned, Ws,
};
use crate::call::{run_step, script, Step};
use crate::case::Case;
use crate::gen;
use crate::opening::split;
use crate::record::history::History;
use crate::sx;

/// What stands between a token and the node, and between the node and another
/// token; the calls before the run and behind it.
type Between = (&'static str, &'static str, &'static [Call], &'static [Call]);

const BETWEEN: &[Between] = &[
    (
        r#""/*c*/" "//l" "\n\n""#,
        r#""//m" "\n""#,
        &[WriteOwned(0)],
        &[Nl(1)],
    ),
    (
        r#""\n" "//l" "\n\n""#,
        r#""/*m*/""#,
        &[Ignore(0), Nl(2)],
        &[Comments(0)],
    ),
    (
        r#""/*c*/""#,
        r#""\n" "/*m*/" "\n""#,
        &[Indent(2), WriteOwned(0), Ws],
        &[Ws],
    ),
];

/// First a run that is refused at its end, where all is written: the next one
/// finds the engine as it was.
pub fn before_a_run(all: &mut Vec<History>) {
    for (i, node) in NODES.iter().enumerate() {
        let words = Words::of(node);
        let refused = words.with_in(words.last_end(), r#""x""#);
        for (front, behind, before, after) in BETWEEN.iter().skip(i % 3).take(1) {
            let tree = format!(r#""q" {front} {node} {behind} "z" {refused}"#);
            let top = top_nodes(&tree);
            let mut steps = encode(before);
            steps.extend([run_step(top[1]), run_step(top[0])]);
            steps.extend(encode(after));
            steps.extend(encode(&[WriteOwned(top[1] - 1)]));
            all.push(history("waiting", &tree, steps));
        }
    }
}

/// Three nodes side by side with comments between them, the second one refused.
pub fn series(all: &mut Vec<History>) {
    let broken = [
        r#"(tuple_body "(" (field "a") "," ",")"#,
        r#"(item_enum "enum" "E" "{" (variant "A"))"#,
        r#"(pat (pat_array "[" (pat "_") "," "x"))"#,
        r#"(item_use_group "{" (item_use_path "a" "as" "b" "c"))"#,
        r#"(struct_body "{" (field "a") "z" "}")"#,
    ];
    let gaps = [r#""//l" "\n""#, r#""\n\n""#, r#""/*c*/""#, r#"" ""#];
    let calls = [Nl(1), Ws, Comments(0), Nl(2), Indent(1), Lit(6)];
    for i in (0..NODES.len()).step_by(3) {
        let node = |n: usize| NODES[(i + n) % NODES.len()];
        let wrong = broken[i % broken.len()];
        let gap = |n: usize| gaps[(i + n) % gaps.len()];
        let call = |n: usize| calls[(i + n) % calls.len()].encode();
        let parts = [gap(0), node(0), gap(1), wrong, gap(2), node(4), gap(3)];
        let tree = parts.join(" ");
        let top = top_nodes(&tree);
        let mut steps = encode(&[FlushPrefixComments]);
        steps.extend([run_step(top[0]), call(0), run_step(top[1]), call(1)]);
        steps.extend([run_step(top[2]), run_step(top[1]), run_step(top[0])]);
        steps.extend(encode(&[Finish]));
        all.push(history("series", &tree, steps));
    }
}

/// The composites of the top level, by number.
fn top_nodes(tree: &str) -> Vec<u32> {
    let records = sx::build(tree).1;
    let (mut found, mut at) = (vec![], 0);
    while at < records.len() {
        if !records[at].is_leaf() {
            found.push(at as u32);
        }
        at += 1 + records[at].below as usize;
    }
    found
}

/// Small ones of the family `rules`.
pub fn random(all: &mut Vec<History>) {
    let small = |case: &Case| {
        let records = split(&case.tree).list;
        let short = (1..12).contains(&script(&case.steps).len());
        short && (4..16).contains(&records.len()) && records.iter().any(has_rule)
    };
    let cases = (0..).map(|i| gen::make("rules", 1, i).expect("a family"));
    for case in cases.filter(small).take(25) {
        let part = |(place, step): (usize, Step<'_>)| match step {
            Step::Call(record) => record.to_vec(),
            _ => case.steps[place..place + 5].to_vec(),
        };
        let steps = script(&case.steps).into_iter().map(part).collect();
        all.push(History {
            sort: "random",
            source: case.source.clone().into(),
            tree: case.tree.clone().into(),
            cap: (case.cap < 2_000).then_some(case.cap),
            steps,
            runs: true,
        });
    }
}
