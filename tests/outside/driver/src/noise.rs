//! Random bytes as everything: source, tree, state, buffer and record, each of them
//! good or not by chance.
use oracle::gen::{self, Rng};
use oracle::opening::join;

use crate::changed;
use crate::histories::any_run;
use crate::lent::{self, STATE};
use crate::reference::Script;
use crate::session::{Differs, Session};

fn bytes(rng: &mut Rng, most: usize) -> Vec<u8> {
    (0..rng.below(most + 1))
        .map(|_| rng.below(256) as u8)
        .collect()
}

/// Small numbers are more telling than any.
fn low_bytes(rng: &mut Rng, most: usize) -> Vec<u8> {
    let one = |rng: &mut Rng| rng.pick(&[0, 0, 0, 0, 1, 2, 3, 0x7F, 0x80, 0x81, 0xFF]);
    (0..rng.below(most + 1)).map(|_| one(rng)).collect()
}

fn source(rng: &mut Rng) -> Vec<u8> {
    match rng.below(4) {
        0 => bytes(rng, 60),
        1 => vec![b'x'; rng.below(60)],
        2 if rng.one_in(60) => vec![b'x'; 65_530 + rng.below(10)],
        _ => gen::random_source(rng, 30).into_bytes(),
    }
}

fn tree(rng: &mut Rng, source: &[u8]) -> Vec<u8> {
    match rng.below(4) {
        0 => bytes(rng, 60),
        1 => low_bytes(rng, 60),
        _ => {
            let text = String::from_utf8_lossy(source).into_owned();
            let deep = rng.one_in(6);
            join(&gen::random_tree(rng, &text, 12, deep))
        }
    }
}

pub fn state(rng: &mut Rng) -> Vec<u8> {
    let mut state = vec![0; STATE];
    match rng.below(5) {
        0 => state.iter_mut().for_each(|b| *b = rng.below(256) as u8),
        1 => {
            let scalars = low_bytes(rng, 4 * lent::SCALARS);
            state[..scalars.len()].copy_from_slice(&scalars);
        }
        2 => state = bytes(rng, 5_000),
        3 => {
            for number in 0..lent::SCALARS {
                lent::put_word(&mut state, number, rng.pick(&[0, 0, 1, 2, 70, u32::MAX]));
            }
        }
        _ => {}
    }
    state
}

fn record(rng: &mut Rng, records: usize) -> Vec<u8> {
    match rng.below(4) {
        0 => bytes(rng, 8),
        1 => {
            let mut record = vec![rng.below(14) as u8];
            record.extend(low_bytes(rng, 5));
            record
        }
        _ => gen::history(rng, records, 1, 100).swap_remove(0),
    }
}

pub fn source_and_tree(rng: &mut Rng) -> (Vec<u8>, Vec<u8>) {
    let source = source(rng);
    let tree = tree(rng, &source);
    (source, tree)
}

/// Calls and runs; layouts too, where they are wanted.
pub fn noise(s: &mut Session, rng: &mut Rng, layouts: bool) -> Result<(), Differs> {
    let script = match rng.one_in(4) {
        true => changed::script(rng),
        false => {
            let (source, tree) = source_and_tree(rng);
            Script::new(source, tree)
        }
    };
    s.lend(&script);
    for _ in 0..1 + rng.below(12) {
        let state = state(rng);
        s.lend_state(state);
        let room = rng.below(80);
        s.lend_room(room);
        if rng.one_in(4) {
            s.open(&script)?;
        }
        for _ in 0..1 + rng.below(3) {
            let record = record(rng, script.records().len());
            s.call(&script, &record)?;
            if rng.one_in(2) {
                let run = any_run(rng, &script);
                s.step(&script, &run)?;
            }
            if layouts && rng.one_in(2) {
                s.layout(&script)?;
            }
        }
    }
    Ok(())
}
