//! Comparisons in memory: the Rust's engine with document 01's words, one way of
//! opening with the other, and what a family of cases holds.
use std::collections::BTreeMap;

use crate::alloc;
use crate::call::{script, Step};
use crate::case::{self, Case, Outcome};
use crate::docengine::{DocEngine, Piece};
use crate::engine::Engine;
use crate::gen::{self, Rng};
use crate::grammar::{Rec, Tree};
use crate::refusal::Refusal;
use crate::{opening, opening_again, Diagnostics};

/// The first step on which the two engines part, if any, and how many calls were
/// compared.
pub fn first_difference(
    source: &str,
    tree: &Tree,
    cap: usize,
    steps: &[Step<'_>],
) -> (Option<usize>, usize) {
    let (mut buffer, mut diagnostics) = (alloc::String::with_cap(cap), Diagnostics);
    let mut rust = Engine::new(source, tree, &mut buffer, &mut diagnostics);
    let mut words = DocEngine::new(source, &tree.records, cap);
    let mut calls = 0;
    let parts = |step: &Step<'_>| {
        rust.fmt.trace = Some(vec![]);
        let answer = rust.step(*step);
        let trace = rust.fmt.trace.take().unwrap_or_default();
        let made = match step {
            Step::Call(record) => vec![*record],
            _ => script(&trace).iter().map(|s| call_of(s.1)).collect(),
        };
        calls += made.len();
        as_one(&mut words, &made, answer) != Some(answer)
            || rust.state() != words.state
            || rust.fmt.output() != words.output
    };
    (steps.iter().position(parts), calls)
}

/// Calls that are made as one step, which the Rust answered so: by the one that is
/// refused, and then nothing was done. What a rule refuses by itself, or a run
/// before its rule, the calls don't show. None: the Rust made calls behind one
/// that is refused here.
fn as_one(
    words: &mut DocEngine<'_>,
    calls: &[&[u8]],
    answer: Result<(), Refusal>,
) -> Option<Result<(), Refusal>> {
    let before = words.clone();
    for (i, call) in calls.iter().enumerate() {
        if let Err(r) = words.call(call) {
            *words = before;
            return (i + 1 == calls.len()).then_some(Err(r));
        }
    }
    let by_itself = answer.is_err_and(|r| (8..=11).contains(&r.no));
    if by_itself {
        *words = before;
        return Some(answer);
    }
    Some(Ok(()))
}

/// `compare engines`: a family, step by step. A run and a layout count as their
/// calls. Says whether nothing is left to explain.
pub fn engines(family: &str, cases: impl Iterator<Item = Case>) -> bool {
    let (mut histories, mut calls, mut different) = (0, 0, 0);
    for (i, case) in cases.enumerate() {
        let Ok(tree) = opening::open(&case.source, &case.tree) else {
            continue;
        };
        let source = std::str::from_utf8(&case.source).unwrap();
        let steps: Vec<Step> = script(&case.steps).iter().map(|s| s.1).collect();
        histories += 1;
        let (at, made) = first_difference(source, &tree, case.cap, &steps);
        calls += made;
        if let Some(at) = at {
            different += 1;
            println!("case {i} step {at} {:?} parts", steps[at]);
        }
    }
    println!("{family}: {histories} histories");
    println!("  {calls} calls compared, {different} histories part");
    different == 0
}

fn call_of(step: Step<'_>) -> &[u8] {
    match step {
        Step::Call(record) => record,
        _ => unreachable!("a trace holds calls only"),
    }
}

/// The tree of a case, and its steps as call records. Refused layouts, and trees
/// that aren't opened, have none.
fn calls_of(case: &Case) -> Option<(Tree, Vec<u8>)> {
    let tree = opening::open(&case.source, &case.tree).ok()?;
    let only_calls = script(&case.steps)
        .iter()
        .all(|s| matches!(s.1, Step::Call(_)));
    if only_calls {
        return Some((tree, case.steps.clone()));
    }
    let outcome = case::run(case);
    outcome.refusals.is_empty().then_some((tree, outcome.trace))
}

/// A random source and tree for the opening checks: mostly small, some deep, some
/// near the bounds, most of them damaged.
pub fn opening_input(rng: &mut Rng, i: u64) -> (Vec<u8>, Vec<u8>) {
    let mut source = gen::random_source(rng, 30);
    let mut records = match i % 500 {
        0 => {
            let place = source.len() as u32;
            let n = 8_185 + rng.below(14);
            let kind = rng.below(256) as u8;
            vec![Rec::new(kind, place, place, 0); n]
        }
        1 => {
            source = "x".repeat(65_530 + rng.below(10));
            gen::random_tree(rng, &source, 40, false)
        }
        _ => {
            let n = rng.pick(&[3, 10, 30, 90]);
            let deep = rng.one_in(8);
            gen::random_tree(rng, &source, n, deep)
        }
    };
    let mut source = source.into_bytes();
    let tree = if rng.one_in(3) {
        opening::join(&records)
    } else {
        gen::damaged_bytes(rng, &mut source, &mut records)
    };
    (source, tree)
}

/// Both references' answer: the number of records, or the refusal, packed. None
/// where they part.
pub fn opened(source: &[u8], tree: &[u8]) -> Option<u64> {
    let flat = opening::open(source, tree).map(|t| t.records.len());
    let again = opening_again::open(source, tree);
    (flat == again).then(|| flat.map_or_else(|r| r.packed(), |n| n as u64))
}

/// `compare opening`. Says whether the two ways always agree.
pub fn openings(seed: u64, count: u64) -> bool {
    let mut rng = Rng::new(seed);
    let mut answers: BTreeMap<&str, usize> = BTreeMap::new();
    let mut parted = 0;
    for i in 0..count {
        let (source, tree) = opening_input(&mut rng, i);
        let Some(answer) = opened(&source, &tree) else {
            println!("case {i} parts: {source:02x?} {tree:02x?}");
            parted += 1;
            continue;
        };
        let sort = match (answer >> 32, answer as u32) {
            (0, _) => "good",
            (1, _) => "refusal 1",
            (2, _) => "refusal 2",
            (3, 8_192) => "refusal 3, too many",
            (3, _) => "refusal 3",
            _ => "refusal 7",
        };
        *answers.entry(sort).or_default() += 1;
    }
    println!("{count} sources and trees opened in two ways, {parted} part");
    for (sort, n) in answers {
        println!("  {sort:20} {n}");
    }
    parted == 0
}

/// `stats`: a family's sizes and refusals; and each layout counts as its calls.
#[derive(Default)]
pub struct Stats {
    cases: usize,
    without_refusal: usize,
    records: usize,
    steps: usize,
    source: usize,
    output: usize,
    refusals: BTreeMap<u8, usize>,
    /// what was done to the tree, and the last refusal's number
    damages: BTreeMap<(&'static str, u8), usize>,
}

impl Stats {
    pub fn add(&mut self, name: &str, case: &Case) -> Outcome {
        let outcome = case::run(case);
        case::counts_as_its_calls(name, case, &outcome);
        self.cases += 1;
        self.without_refusal += outcome.refusals.is_empty() as usize;
        self.records += opening::split(&case.tree).list.len();
        self.steps += script(&case.steps).len();
        self.source += case.source.len();
        self.output += outcome.output.len();
        for r in &outcome.refusals {
            *self.refusals.entry(r.no).or_default() += 1;
        }
        if !case.damage.is_empty() {
            let last = outcome.refusals.last().map_or(0, |r| r.no);
            *self.damages.entry((case.damage, last)).or_default() += 1;
        }
        outcome
    }

    pub fn show(&self, family: &str) {
        println!(
            "{family}: {} cases, {} without refusal, {} records, {} steps",
            self.cases, self.without_refusal, self.records, self.steps
        );
        println!(
            "  {} source bytes, {} output bytes",
            self.source, self.output
        );
        println!("  refusals: {:?}", self.refusals);
        if !self.damages.is_empty() {
            println!("  damage and last refusal: {:?}", self.damages);
        }
    }
}

/// Whether every line comment stands before a newline, as a parser leaves it.
fn is_tidy(source: &str, records: &[Rec]) -> bool {
    records.iter().enumerate().all(|(i, r)| match r.kind {
        0 => source[r.span().range()].chars().all(char::is_whitespace),
        1 => {
            let behind = &source[r.end as usize..];
            let newline = behind.is_empty() || behind.starts_with('\n');
            newline && records.get(i + 1).is_none_or(|next| next.kind == 0)
        }
        _ => true,
    })
}

/// What stands behind a line comment on its line: the place in the output, and
/// whether it is another comment.
fn swallowed(pieces: &[Piece]) -> Vec<(usize, bool)> {
    let (mut place, mut behind_line_comment) = (0, false);
    let mut found = vec![];
    for piece in pieces {
        let text = piece.text();
        if behind_line_comment && !text.trim_matches(' ').is_empty() {
            if !text.starts_with('\n') {
                found.push((place, matches!(piece, Piece::Comment { .. })));
            }
            behind_line_comment = false;
        }
        behind_line_comment |= matches!(piece, Piece::Comment { line: true, .. });
        place += text.len();
    }
    found
}

/// `swallow`: layouts in which text lands behind a line comment on its line, a
/// fault of the Rust that the port keeps (document 03, facts).
pub fn swallow(family: &str, cases: impl Iterator<Item = Case>) {
    let (mut layouts, mut code, mut comments) = (0, 0, 0);
    for (i, case) in cases.enumerate() {
        let Some((tree, trace)) = calls_of(&case) else {
            continue;
        };
        let source = std::str::from_utf8(&case.source).unwrap();
        if !is_tidy(source, &tree.records) {
            continue;
        }
        layouts += 1;
        let mut words = DocEngine::new(source, &tree.records, case.cap);
        for (_, step) in script(&trace) {
            // a refused call, in a case of calls alone, writes nothing
            let _ = words.call(call_of(step));
        }
        let found = swallowed(&words.pieces);
        comments += found.iter().any(|f| f.1) as usize;
        if let Some((place, _)) = found.iter().find(|f| !f.1) {
            code += 1;
            let (before, behind) = words.output.split_at(*place);
            let line = before.lines().last().unwrap_or("");
            let rest = behind.lines().next().unwrap_or("");
            println!("case {i}: {line}{rest}");
        }
    }
    println!("{family}: {layouts} layouts");
    println!("  {code} have code behind a line comment on its line");
    println!("  {comments} have another comment there");
}
