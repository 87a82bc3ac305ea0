//! Small cases of the oracle's families, of edge.rs and of readings.rs.
use super::has_rule;
use super::statements::layout_steps;
use crate::call::{script, Step};
use crate::case::Case;
use crate::gen::{self, FOCUS};
use crate::kinds::k::BLOCK_BODY;
use crate::opening::{open, split};
use crate::record::history::History;
use crate::{edge, readings};

/// So many records at most, and so many bytes of source.
const RECORDS: usize = 48;
const SOURCE: usize = 700;

fn is_small(case: &Case) -> bool {
    let records = split(&case.tree).list;
    let opened = open(&case.source, &case.tree).is_ok();
    opened && records.len() <= RECORDS && case.source.len() <= SOURCE
}

/// The steps one by one; a whole layout, where it is a run on record 0, as its calls.
fn steps(case: &Case) -> Option<Vec<Vec<u8>>> {
    let records = split(&case.tree).list;
    let mut steps = vec![];
    for (place, step) in script(&case.steps) {
        match step {
            Step::Call(record) => steps.push(record.to_vec()),
            Step::Run(_) => steps.push(case.steps[place..place + 5].to_vec()),
            Step::Layout => {
                let first = records.first().filter(|r| r.kind == BLOCK_BODY)?;
                if first.below as usize != records.len() - 1 {
                    return None;
                }
                steps.extend(layout_steps());
            }
        }
    }
    Some(steps)
}

fn recorded(sort: &'static str, case: &Case) -> Option<History> {
    let steps = steps(case).filter(|s| !s.is_empty() && s.len() <= 12)?;
    Some(History {
        sort,
        source: case.source.clone().into(),
        tree: case.tree.clone().into(),
        cap: (case.cap < 4_000).then_some(case.cap),
        steps,
        runs: true,
    })
}

/// The first small cases of a family.
fn first_of(all: &mut Vec<History>, sort: &'static str, seed: u64, n: usize, least: usize) {
    let cases = (0..).map(|i| gen::make(sort, seed, i).expect("a family"));
    let small = cases.filter(|case| {
        is_small(case)
            && split(&case.tree)
                .list
                .iter()
                .filter(|r| has_rule(r))
                .count()
                >= least
    });
    all.extend(small.filter_map(|case| recorded(sort, &case)).take(n));
}

pub fn by_chance(all: &mut Vec<History>) {
    first_of(all, "runs", 1, 30, 4);
    first_of(all, "layout", 1, 25, 8);
    first_of(all, "trim", 1, 12, 8);
    first_of(all, "damaged", 1, 30, 4);
    // one of each sort of expression, item and pattern
    for sort in 0..FOCUS {
        let numbers = (0..).map(|n| (n * FOCUS + sort) as u64);
        let cases = numbers.map(|i| gen::make("focus", 1, i).expect("a family"));
        let small = cases.filter(is_small);
        all.extend(small.filter_map(|case| recorded("focus", &case)).take(1));
    }
}

pub fn by_hand(all: &mut Vec<History>) {
    let edges = edge::cases().into_iter().map(|c| c.1);
    let edges = edges.filter(is_small).step_by(3);
    all.extend(edges.filter_map(|case| recorded("edge", &case)));
    let readings = readings::all().map(|r| r.case());
    let readings = readings.filter(is_small);
    all.extend(readings.filter_map(|case| recorded("readings", &case)));
}
