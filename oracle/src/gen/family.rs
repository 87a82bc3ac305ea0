//! The families of cases by name.
use super::builder::Force;
use super::damage::Patient;
use super::{expr, history, item, nests, rules, small_tree, Builder, Opts, Rng};
use crate::call::{layout_step, run_step, Call};
use crate::case::{self, Case};
use crate::fmt::format::has_rule;
use crate::grammar::Rec;
use crate::opening::{join, MAX_RECORDS, MAX_SOURCE};

pub const FAMILIES: &[(&str, &str)] = &[
    ("calls", "histories of calls over small trees"),
    (
        "trimcalls",
        "the same, with line comments that end in White_Space of every sort",
    ),
    ("layout", "whole layouts of programs"),
    (
        "trim",
        "the same, with line comments that end in White_Space of every sort",
    ),
    (
        "focus",
        "small programs, each sort of expression, item and pattern in turn",
    ),
    ("runs", "layout runs of single nodes, some calls between"),
    (
        "rules",
        "runs on each node of paths, patterns, bodies and uses, good and damaged",
    ),
    (
        "exprs",
        "runs on nodes of expressions, statements, blocks and items, good and damaged",
    ),
    (
        "nests",
        "forms inside each other at depths 34 to 66, runs on their nodes",
    ),
    (
        "damaged",
        "programs with one or two damages, runs and a whole layout",
    ),
    ("big", "programs of nearly 8,192 records"),
];

/// Case number i of a family; None for an unknown name.
pub fn make(family: &str, seed: u64, i: u64) -> Option<Case> {
    let name = family.bytes().fold(0u64, |n, b| n * 31 + b as u64);
    let seed = seed.wrapping_mul(1_000_003).wrapping_add(i);
    let rng = &mut Rng::new(seed.wrapping_add(name << 32));
    Some(match family {
        "calls" => calls(rng, false),
        "trimcalls" => calls(rng, true),
        "layout" => layout(rng, false),
        "trim" => layout(rng, true),
        "focus" => focus(rng, i as usize),
        "runs" => runs(rng),
        "rules" => rules::rules(rng),
        "exprs" => rules::exprs(rng),
        "nests" => nests::nests(rng),
        "damaged" => damaged(rng),
        "big" => big(rng),
        _ => return None,
    })
}

fn program(rng: &mut Rng, opts: Opts, depth: usize) -> (String, Vec<Rec>) {
    Builder::new(rng.branch(), opts).program(depth)
}

fn case(source: String, records: Vec<Rec>, steps: Vec<u8>) -> Case {
    assert!(source.len() <= MAX_SOURCE && records.len() <= MAX_RECORDS);
    Case::new(source.into_bytes(), join(&records), steps)
}

/// How much room a case takes where there is enough.
fn full(case: &Case) -> usize {
    case::run(case).output.len()
}

fn calls(rng: &mut Rng, trim_all: bool) -> Case {
    let (source, records) = small_tree(rng, trim_all);
    let n = rng.pick(&[3, 10, 30, 80, 400]);
    let bad = rng.pick(&[0, 10, 40]);
    let mut steps = history(rng, records.len(), n, bad);
    if rng.one_in(10) && !records.is_empty() {
        // a queue that fills up
        let ignore = |_| Call::Ignore(rng.below(records.len()) as u32).encode();
        let filling: Vec<Vec<u8>> = (0..200).map(ignore).collect();
        steps.splice(0..0, filling);
    }
    let mut case = case(source, records, steps.concat());
    if rng.one_in(4) {
        case.cap = rng.below(full(&case) + 2);
    }
    case
}

fn layout(rng: &mut Rng, trim_all: bool) -> Case {
    let opts = Opts {
        trim_all,
        ..Opts::random(rng)
    };
    let depth = 1 + rng.below(6);
    let (source, records) = program(rng, opts, depth);
    let mut case = case(source, records, layout_step());
    if rng.one_in(12) {
        let full = full(&case);
        let less = rng.below(full + 1);
        case.cap = rng.pick(&[full, full.saturating_sub(1), less]);
    }
    case
}

const PATTERNS: usize = 6;
/// How many sorts `focus` takes in turn.
pub const FOCUS: usize = expr::SORTS + item::ITEMS.len() + PATTERNS;

fn focus(rng: &mut Rng, i: usize) -> Case {
    let sorts = (0..expr::SORTS).map(Force::Expr);
    let sorts = sorts.chain((0..item::ITEMS.len()).map(Force::Item));
    let sorts: Vec<Force> = sorts.chain((0..PATTERNS).map(Force::Pattern)).collect();
    let opts = Opts {
        size: rng.pick(&[8, 15, 30, 60]),
        comments: rng.pick(&[0, 10, 30, 55]),
        odd: rng.pick(&[0, 0, 8, 25]),
        force: sorts[i % sorts.len()],
        ..Opts::random(rng)
    };
    let depth = 1 + rng.below(3);
    let (source, records) = program(rng, opts, depth);
    case(source, records, layout_step())
}

/// A node for a run: nearly always one that has a rule.
fn run_node(rng: &mut Rng, records: &[Rec]) -> u32 {
    let with_rule: Vec<usize> = (0..records.len())
        .filter(|i| has_rule(records[*i].rust_kind()))
        .collect();
    if rng.one_in(15) || with_rule.is_empty() {
        rng.below(records.len() + 1) as u32
    } else {
        rng.pick(&with_rule) as u32
    }
}

fn runs(rng: &mut Rng) -> Case {
    let opts = Opts::random(rng);
    let depth = 1 + rng.below(6);
    let (source, records) = program(rng, opts, depth);
    let mut steps = vec![];
    if rng.one_in(3) {
        steps = history(rng, records.len(), 3, 0);
        // a finished engine would refuse all runs
        steps.retain(|s| *s != Call::Finish.encode());
    }
    if rng.one_in(10) {
        steps.push(Call::Indent(55 + rng.below(10) as i8).encode());
    }
    for _ in 0..1 + rng.below(5) {
        steps.push(run_step(run_node(rng, &records)));
        if rng.one_in(3) {
            let call = rng.pick(&[Call::Nl(1), Call::Ws, Call::Comments(0)]);
            steps.push(call.encode());
        }
    }
    let mut case = case(source, records, steps.concat());
    if rng.one_in(8) {
        case.cap = rng.below(full(&case) + 1);
    }
    case
}

fn damaged(rng: &mut Rng) -> Case {
    let mut opts = Opts::random(rng);
    opts.size = opts.size.min(60);
    let depth = 1 + rng.below(5);
    let (source, records) = program(rng, opts, depth);
    let mut patient = Patient {
        source: source.into_bytes(),
        records,
        bytes: None,
    };
    let mut damage = "";
    let times = if rng.one_in(4) { 2 } else { 1 };
    for _ in 0..times {
        if !patient.records.is_empty() {
            damage = patient.damage(rng);
        }
    }
    let mut steps = vec![];
    for _ in 0..rng.below(3) {
        steps.extend(run_step(run_node(rng, &patient.records)));
    }
    steps.extend(layout_step());
    let tree = patient.bytes.unwrap_or_else(|| join(&patient.records));
    Case {
        damage,
        ..Case::new(patient.source, tree, steps)
    }
}

/// A program that is as large as fits: 7,900 records or more, with names and
/// indentation as long as the source has room for.
fn big(rng: &mut Rng) -> Case {
    let mut opts = Opts {
        size: 8000,
        comments: 6,
        spaces: 50,
        odd: 0,
        pad: 90,
        ..Opts::random(rng)
    };
    loop {
        let (source, records) = program(rng, opts, 5);
        let fits = source.len() <= MAX_SOURCE && records.len() <= MAX_RECORDS;
        if fits && records.len() >= 7_900 {
            return case(source, records, layout_step());
        }
        if records.len() > MAX_RECORDS {
            opts.size -= 20;
        } else if opts.pad > 2 {
            opts.pad -= 1;
        }
    }
}
