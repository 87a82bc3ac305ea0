//! Fresh histories and openings with the reference's answers, as files of the form
//! that oracle/README.md gives for the recorded ones: the C harness replays them.
use std::fs;
use std::path::Path;

use oracle::call::{layout_step, run_step};
use oracle::case::Case;
use oracle::gen::{self, Rng};
use oracle::{compare, opening};

use crate::histories::needed;
use crate::large;
use crate::layouts;
use crate::lent::{self, STATE};
use crate::reference::{self, Script};
use crate::rules::records_of;
use crate::tally::SHORT;

/// Steps of a history.
const LONGEST: usize = 60;

fn put_u32(file: &mut Vec<u8>, n: usize) {
    file.extend((n as u32).to_le_bytes());
}

/// One piece, once.
fn put_bytes(file: &mut Vec<u8>, bytes: &[u8]) {
    put_u32(file, 1);
    put_u32(file, 1);
    put_u32(file, bytes.len());
    file.extend_from_slice(bytes);
}

pub fn write(folder: &Path, seed: u64, count: u64) {
    let rng = &mut Rng::new(seed);
    fs::write(folder.join("fresh-trees.bin"), trees(rng, count)).expect("a file can be written");
    for (name, families) in [
        (
            "fresh-calls.bin",
            &["trimcalls", "calls", "calls", "calls"][..],
        ),
        (
            "fresh-runs.bin",
            &["rules", "exprs", "exprs", "nests", "runs"],
        ),
        (
            "fresh-layouts.bin",
            &["layout", "focus", "damaged", "focus", "trim"],
        ),
    ] {
        let file = histories(families, seed, count);
        fs::write(folder.join(name), file).expect("a file can be written");
    }
    fs::write(folder.join("large-runs.bin"), large_runs()).expect("a file can be written");
    fs::write(folder.join("large-layouts.bin"), large_layouts(rng)).expect("a file can be written");
}

/// Runs on the largest and deepest nodes: they take the most stack.
fn large_runs() -> Vec<u8> {
    let scripts: Vec<Script> = large::all()
        .into_iter()
        .filter(|s| s.good().is_some())
        .collect();
    let mut file = vec![];
    put_u32(&mut file, scripts.len());
    for script in scripts {
        let steps = [0, 1, 2].map(run_step);
        put_history(&mut file, &script, 20_000, &steps);
    }
    file
}

/// Layouts of trees on both sides of the small table's length, of nearly 8,192
/// records, and as deep as can be.
fn large_layouts(rng: &mut Rng) -> Vec<u8> {
    let mut scripts: Vec<Script> = [SHORT, SHORT + 1]
        .map(|len| layouts::of_length(rng, len))
        .into();
    let big = gen::make("big", rng.next(), 0).expect("a family");
    scripts.push(Script::new(big.source, big.tree));
    let deep = large::in_bodies().into_iter();
    scripts.extend(deep.filter(|s| s.good().is_some()));
    let mut file = vec![];
    put_u32(&mut file, scripts.len());
    for script in scripts {
        let steps = [layout_step()];
        let room = needed(&script, &steps) + 8;
        put_history(&mut file, &script, room, &steps);
    }
    file
}

fn trees(rng: &mut Rng, count: u64) -> Vec<u8> {
    let mut file = vec![];
    put_u32(&mut file, count as usize);
    for i in 0..count {
        let (source, tree) = compare::opening_input(rng, i);
        put_bytes(&mut file, &source);
        put_bytes(&mut file, &tree);
        let answer = compare::opened(&source, &tree).expect("two ways of opening that agree");
        file.extend(answer.to_le_bytes());
    }
    file
}

/// Histories of these families in turn, over trees that are opened: nests may be too
/// deep.
fn histories(families: &[&str], seed: u64, count: u64) -> Vec<u8> {
    let mut file = vec![];
    put_u32(&mut file, count as usize);
    let cases = (0..).map(|i| {
        let family = families[i as usize % families.len()];
        gen::make(family, seed, i).expect("a family")
    });
    let opened = |case: &Case| opening::open(&case.source, &case.tree).is_ok();
    for case in cases.filter(opened).take(count as usize) {
        let script = Script::new(case.source, case.tree);
        // each step is recorded with the whole output, so long histories are cut
        let mut steps = records_of(&case.steps);
        steps.truncate(LONGEST);
        let room = case.cap.min(needed(&script, &steps) + 8);
        put_history(&mut file, &script, room, &steps);
    }
    file
}

fn put_history(file: &mut Vec<u8>, script: &Script, room: usize, steps: &[Vec<u8>]) {
    put_bytes(file, &script.source);
    put_bytes(file, &script.tree);
    put_u32(file, room);
    put_u32(file, steps.len());
    let (mut state, mut output, mut zeroed) = (vec![0; STATE], vec![], false);
    for step in steps {
        let want = reference::step(script, &state, room, step);
        output.extend_from_slice(&want.written);
        zeroed |= want.zero_from.is_some();
        state = want.state.unwrap_or(state);
        put_u32(file, step.len());
        file.extend_from_slice(step);
        file.extend(want.answer.to_le_bytes());
        let words = lent::SCALARS + lent::COMMENT * lent::word(&state, lent::COUNT) as usize;
        let mut recorded = state[..words * 4].to_vec();
        lent::put_word(&mut recorded, lent::ZERO, zeroed as u32);
        file.extend_from_slice(&recorded);
        file.extend_from_slice(&output);
    }
}
