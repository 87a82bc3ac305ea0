//! The histories of runs.bin: layout runs on nodes of every kind that has a rule,
//! around every branch of the rules. Trees are in the words of sx.rs.
mod bases;
mod block_shapes;
mod expr_shapes;
mod families;
mod lists;
mod nests;
mod nodes;
mod refused;
mod shapes;
mod small;
mod statements;
mod waiting;
mod widths;
mod words;

pub use nests::too_deep;

use super::history::History;
use crate::call::{run_step, Call};
use crate::fmt::format;
use crate::grammar::Rec;
use crate::sx;

pub fn all() -> Vec<History> {
    let mut all = vec![];
    lists::commas(&mut all);
    lists::commas_without_room(&mut all);
    shapes::tables(&mut all);
    shapes::depths(&mut all);
    expr_shapes::tables(&mut all);
    block_shapes::tables(&mut all);
    statements::gaps(&mut all);
    statements::semicolons(&mut all);
    statements::programs(&mut all);
    widths::samples(&mut all);
    widths::lists(&mut all);
    widths::sixth(&mut all);
    widths::comments(&mut all);
    widths::chains(&mut all);
    nests::all(&mut all);
    bases::gaps(&mut all);
    bases::all_gaps(&mut all);
    bases::damages(&mut all);
    bases::left_over(&mut all);
    waiting::before_a_run(&mut all);
    waiting::series(&mut all);
    waiting::random(&mut all);
    families::by_chance(&mut all);
    families::by_hand(&mut all);
    refused::kinds(&mut all);
    refused::nodes_missing(&mut all);
    refused::finished(&mut all);
    refused::rooms(&mut all);
    refused::queues(&mut all);
    refused::indents(&mut all);
    refused::room_before_indent(&mut all);
    all
}

fn has_rule(r: &Rec) -> bool {
    format::has_rule(r.rust_kind())
}

/// The nodes that have a rule, by number.
fn nodes(tree: &str) -> Vec<u32> {
    let records = sx::build(tree).1;
    let numbers = 0..records.len() as u32;
    numbers
        .filter(|i| has_rule(&records[*i as usize]))
        .collect()
}

fn encode(calls: &[Call]) -> Vec<Vec<u8>> {
    calls.iter().map(|c| c.encode()).collect()
}

fn history(sort: &'static str, tree: &str, steps: Vec<Vec<u8>>) -> History {
    let (source, records) = sx::build(tree);
    History {
        sort,
        source: source.as_str().into(),
        tree: records.into(),
        cap: None,
        steps,
        runs: true,
    }
}

/// A run on the first node that has a rule.
fn one_run(sort: &'static str, tree: &str) -> History {
    history(sort, tree, vec![run_step(nodes(tree)[0])])
}
