//! Histories in which what is lent changes between the calls: words of the state,
//! its length, the buffer, the source and the tree.
use oracle::call::layout_step;
use oracle::gen::{self, Rng};
use oracle::opening::join;

use crate::histories::{with_layouts, with_runs};
use crate::lent::{self, of_comment, put_word, word, MOST_WAITING, SCALARS, STATE};
use crate::reference::Script;
use crate::session::{Differs, Session};

/// Small trees that no rule fits, or nodes that have one.
pub fn script(rng: &mut Rng) -> Script {
    if rng.one_in(2) {
        let case = gen::make("rules", rng.next(), 0).expect("a family");
        return Script::new(case.source, case.tree);
    }
    let trim_all = rng.one_in(4);
    let (source, records) = gen::small_tree(rng, trim_all);
    Script::new(source.into_bytes(), join(&records))
}

/// A small program.
fn program(rng: &mut Rng) -> Script {
    let sort = rng.below(gen::FOCUS) as u64;
    let case = gen::make("focus", rng.next(), sort).expect("a family");
    Script::new(case.source, case.tree)
}

/// Numbers around every bound that a word may be held against.
fn value(rng: &mut Rng, script: &Script, room: usize) -> u32 {
    let places = [room, script.source.len()];
    match rng.below(6) {
        0 => rng.pick(&[0, 1, 2, 3]),
        1 => rng.pick(&[63, 64, 65, 66, 128]),
        2 => rng.pick(&[255, 256, 257, 512, 65_535, 65_536, 65_600]),
        3 => rng.pick(&[u32::MAX, u32::MAX - 1, 1 << 31, 1 << 24, 256 << 8]),
        4 => (rng.pick(&places) + rng.below(3)).saturating_sub(1) as u32,
        _ => rng.below(script.source.len() + 2) as u32,
    }
}

/// A comment that waits, a free one, or any.
fn comment(rng: &mut Rng, state: &[u8]) -> usize {
    let count = (word(state, lent::COUNT) as usize).min(MOST_WAITING);
    match rng.below(3) {
        0 if count > 0 => rng.below(count),
        1 if count < MOST_WAITING => count,
        _ => rng.below(MOST_WAITING),
    }
}

fn change_word(rng: &mut Rng, state: &mut [u8], script: &Script, room: usize) {
    let value = value(rng, script, room);
    let number = match rng.below(3) {
        0 => rng.below(SCALARS),
        1 => rng.pick(&[lent::COUNT, lent::INDENT, lent::LENGTH, lent::LINES]),
        _ => of_comment(comment(rng, state), rng.below(4)),
    };
    put_word(state, number, value);
}

/// Some comments put into the queue, mostly good ones.
fn fill_queue(rng: &mut Rng, state: &mut [u8], script: &Script) {
    let count = rng.pick(&[1, 2, 3, 20, 254, 255, 256]);
    let text = String::from_utf8_lossy(&script.source).into_owned();
    let edges: Vec<usize> = (0..=text.len())
        .filter(|i| text.is_char_boundary(*i))
        .collect();
    put_word(state, lent::COUNT, count as u32);
    for k in 0..count {
        let (a, b) = (rng.pick(&edges), rng.pick(&edges));
        put_word(state, of_comment(k, 0), a.min(b) as u32);
        put_word(state, of_comment(k, 1), a.max(b) as u32);
        put_word(
            state,
            of_comment(k, 2),
            rng.pick(&[0, 0, 1, 2, 3, u32::MAX]),
        );
        put_word(state, of_comment(k, 3), rng.below(2) as u32);
    }
    if rng.one_in(4) {
        let bad = of_comment(rng.below(count), rng.below(4));
        put_word(state, bad, rng.below(script.source.len() + 3) as u32);
    }
}

fn change_state(s: &mut Session, rng: &mut Rng, script: &Script) {
    let mut state = s.state.clone();
    if state.len() != STATE {
        state.resize(STATE, 0);
    }
    let room = s.out.len();
    match rng.below(10) {
        0 | 1 => fill_queue(rng, &mut state, script),
        2 => {
            let at = rng.below(STATE);
            state[at] = rng.below(256) as u8;
        }
        3 => put_word(&mut state, lent::ZERO, rng.below(1 << 20) as u32),
        4 => put_word(&mut state, lent::FINISHED, rng.below(2) as u32),
        5 if rng.one_in(3) => state.resize(rng.pick(&[0, 1, 32, 4_127, 4_129, 8_192]), 0),
        _ => {
            for _ in 0..rng.pick(&[1, 1, 2]) {
                change_word(rng, &mut state, script, room);
            }
        }
    }
    s.lend_state(state);
}

fn change_out(s: &mut Session, rng: &mut Rng) {
    let mut out = s.out.clone();
    match rng.below(3) {
        0 => out.resize(rng.below(out.len() + 40), 0x55),
        1 => out.resize(out.len() + 200, 0x33),
        _ => out.iter_mut().for_each(|b| *b = rng.below(256) as u8),
    }
    s.lend_out(out);
}

/// Calls and runs, with something changed before every second one; layouts too,
/// where they are wanted.
pub fn lent(s: &mut Session, rng: &mut Rng, layouts: bool) -> Result<(), Differs> {
    let scripts = match layouts {
        true => [program(rng), program(rng)],
        false => [script(rng), script(rng)],
    };
    let mut at = 0;
    s.lend(&scripts[0]);
    let room = rng.pick(&[0, 5, 40, 400, 4_000]);
    s.lend_room(room);
    s.lend_state(vec![0; STATE]);
    let mut good = s.state.clone();
    let records = gen::history(rng, scripts[0].records().len(), 50, 20);
    let mut records = with_runs(rng, &scripts[0], records);
    if layouts {
        records = with_layouts(rng, records);
    }
    for record in records {
        match rng.below(10) {
            0..=3 => change_state(s, rng, &scripts[at]),
            4 => change_out(s, rng),
            5 if rng.one_in(3) => {
                at = 1 - at;
                s.lend(&scripts[at]);
            }
            _ => {}
        }
        let done = s.step(&scripts[at], &record)?.answer == 0;
        if done && record == layout_step() {
            // an engine that is finished would refuse all that follows
            s.lend_state(good.clone());
        } else if done {
            good = s.state.clone();
        } else if rng.one_in(2) {
            s.lend_state(good.clone());
        }
    }
    Ok(())
}
