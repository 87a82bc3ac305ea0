//! Histories from the oracle's families, replayed step by step: a step is a call
//! record, or a run as the oracle's files have it.
use oracle::alloc;
use oracle::call::{layout_step, run_step, Step};
use oracle::case::{self, Case, ROOM};
use oracle::engine::Engine;
use oracle::gen::{self, Rng};
use oracle::{compare, Diagnostics};

use crate::lent::{self, STATE};
use crate::reference::{self, Script};
use crate::rules::{self, records_of};
use crate::session::{Differs, Session};

/// How much the steps need where there is room.
pub fn needed(script: &Script, steps: &[Vec<u8>]) -> usize {
    let mut state = vec![0; STATE];
    for step in steps {
        let want = reference::step(script, &state, ROOM, step);
        state = want.state.unwrap_or(state);
    }
    lent::word(&state, lent::LENGTH) as usize
}

/// A run on a node: mostly on one whose kind has a rule.
pub fn any_run(rng: &mut Rng, script: &Script) -> Vec<u8> {
    let records = script.records();
    let with_rule: Vec<usize> = (0..records.len())
        .filter(|i| rules::name(records[*i].kind).is_some())
        .collect();
    let node = match rng.below(8) {
        0 => rng.pick(&[0, records.len(), 8_191, 8_192, u32::MAX as usize]),
        1 => rng.below(records.len() + 2),
        _ if with_rule.is_empty() => rng.below(records.len() + 1),
        _ => rng.pick(&with_rule),
    };
    run_step(node as u32)
}

/// The same steps, and runs among them.
pub fn with_runs(rng: &mut Rng, script: &Script, steps: Vec<Vec<u8>>) -> Vec<Vec<u8>> {
    let mut all = vec![];
    for step in steps {
        if rng.one_in(3) {
            all.push(any_run(rng, script));
        }
        all.push(step);
    }
    all
}

/// The same steps, and layouts among them. One that is done ends the engine, so
/// there are few.
pub fn with_layouts(rng: &mut Rng, steps: Vec<Vec<u8>>) -> Vec<Vec<u8>> {
    let mut all = vec![];
    for step in steps {
        if rng.one_in(8) {
            all.push(layout_step());
        }
        all.push(step);
    }
    all
}

/// Opens, and makes the steps, beside the Rust's own engine.
pub fn replay(
    s: &mut Session,
    rng: &mut Rng,
    script: &Script,
    room: usize,
    records: &[Vec<u8>],
) -> Result<(), Differs> {
    s.lend(script);
    s.lend_room(room);
    s.lend_state((0..STATE).map(|_| rng.below(256) as u8).collect());
    if !s.open(script)? {
        // refused: every step is, too, whatever state is lent
        for record in records.iter().take(4) {
            s.step(script, record)?;
        }
        s.run(script, 0)?;
        s.layout(script)?;
        return Ok(());
    }
    replay_beside_rust(s, script, records)
}

fn replay_beside_rust(
    s: &mut Session,
    script: &Script,
    records: &[Vec<u8>],
) -> Result<(), Differs> {
    let (text, tree) = script.good().expect("an opened script");
    let (mut buffer, mut diagnostics) = (alloc::String::with_cap(s.out.len()), Diagnostics);
    let mut rust = Engine::new(text, tree, &mut buffer, &mut diagnostics);
    for record in records {
        let want = s.step(script, record)?;
        let step = rules::step_of(record);
        let answer = rust.step(step).map_or_else(|r| r.packed(), |()| 0);
        // The library gave what the reference did: so both are compared.
        assert_eq!(
            answer, want.answer,
            "the Rust and document 01's words part at {record:02x?}"
        );
        assert_eq!(
            lent::encode(&rust.state()),
            s.state,
            "the Rust and document 01's words part"
        );
        let output = rust.fmt.output().as_bytes();
        assert_eq!(
            output,
            &s.out[..output.len()],
            "the Rust and document 01's words part"
        );
        s.tally.with_rust += 1;
        s.tally.layouts_with_rust += matches!(step, Step::Layout) as u64;
    }
    Ok(())
}

pub fn family(
    s: &mut Session,
    rng: &mut Rng,
    case: Case,
    records: Vec<Vec<u8>>,
) -> Result<(), Differs> {
    let script = Script::new(case.source, case.tree);
    let room = match case.cap {
        // a run that is refused late may have written more than all the others
        ROOM => needed(&script, &records) + rng.pick(&[0, 1, 8, 100, 1_000, 5_000]),
        cap => cap,
    };
    replay(s, rng, &script, room, &records)
}

/// Histories of calls over small trees.
pub fn calls(s: &mut Session, rng: &mut Rng, name: &str, seed: u64, i: u64) -> Result<(), Differs> {
    let case = gen::make(name, seed, i).expect("a family");
    let records = records_of(&case.steps);
    family(s, rng, case, records)
}

/// Runs on nodes of random items, patterns, paths and expressions, of nests, or of
/// whole programs.
pub fn runs(s: &mut Session, rng: &mut Rng, name: &str, seed: u64, i: u64) -> Result<(), Differs> {
    let case = gen::make(name, seed, i).expect("a family");
    let mut steps = records_of(&case.steps);
    if ["runs", "damaged"].contains(&name) {
        // a program holds many more nodes than its case has runs on
        let script = Script::new(case.source.clone(), case.tree.clone());
        steps.extend((0..8).map(|_| any_run(rng, &script)));
    }
    family(s, rng, case, steps)
}

/// The calls that a layout or some runs make; where a tree isn't opened, any.
pub fn traces(
    s: &mut Session,
    rng: &mut Rng,
    name: &str,
    seed: u64,
    i: u64,
) -> Result<(), Differs> {
    let case = gen::make(name, seed, i).expect("a family");
    let outcome = case::run(&case);
    let mut records = records_of(&outcome.trace);
    if outcome.state.is_none() {
        records = gen::history(rng, 10, 4, 40);
    }
    let own = records_of(&case.steps);
    let script = Script::new(case.source.clone(), case.tree.clone());
    family(s, rng, case, records)?;
    // the oracle's own steps are unknown records to a call
    if rng.one_in(20) {
        for record in own {
            s.call(&script, &record)?;
        }
    }
    Ok(())
}

/// A program of nearly 8,192 records: the calls at its head, runs, and a layout.
pub fn big(s: &mut Session, rng: &mut Rng, seed: u64, i: u64) -> Result<(), Differs> {
    let case = gen::make("big", seed, i).expect("a family");
    let mut records = records_of(&case::run(&case).trace);
    records.truncate(400);
    let script = Script::new(case.source.clone(), case.tree.clone());
    records.extend((0..100).map(|_| any_run(rng, &script)));
    records.push(layout_step());
    family(s, rng, case, records)
}

/// Sources and trees for opening, most of them damaged, and a call or two on each.
pub fn openings(s: &mut Session, rng: &mut Rng, i: u64) -> Result<(), Differs> {
    let (source, tree) = compare::opening_input(rng, i);
    let script = Script::new(source, tree);
    let n = 1 + rng.below(6);
    let records = gen::history(rng, script.records().len(), n, 40);
    let records = with_runs(rng, &script, records);
    let records = with_layouts(rng, records);
    let room = rng.below(60);
    replay(s, rng, &script, room, &records)
}

/// Buffers of exactly the size that some step of a history needs, or one byte less.
pub fn rooms(s: &mut Session, rng: &mut Rng, seed: u64, i: u64) -> Result<(), Differs> {
    let name = ["calls", "rules", "exprs", "focus"][i as usize % 4];
    let case = gen::make(name, seed ^ 0x5EED, i).expect("a family");
    let records = records_of(&case.steps);
    let script = Script::new(case.source, case.tree);
    let some = &records[..rng.below(records.len() + 1)];
    let full = needed(&script, some);
    replay(s, rng, &script, full, &records)?;
    replay(s, rng, &script, full.saturating_sub(1), &records)
}
