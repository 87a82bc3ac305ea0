//! Cases at the bounds: queues around 256, sizes around every limit, empty slices,
//! buffers around 4 GiB.
use oracle::call::{layout_step, run_step};
use oracle::gen::{self, Rng};
use oracle::grammar::Rec;
use oracle::opening::join;

use crate::histories::{needed, replay, with_layouts, with_runs};
use crate::large;
use crate::lent::{self, STATE};
use crate::reference::Script;
use crate::session::{Differs, Session};

fn ignore(node: u32) -> Vec<u8> {
    [&[3][..], &node.to_le_bytes()].concat()
}

/// A name, so many comments behind it, some with newlines between, another name;
/// in a path, so that a run writes both.
fn with_comments(rng: &mut Rng, count: usize) -> Script {
    let (mut text, mut records) = (String::new(), vec![]);
    let mut add = |kind: u8, piece: &str| {
        let start = text.len() as u32;
        text += piece;
        records.push(Rec::new(kind, start, text.len() as u32, 0));
    };
    add(3, "a");
    for _ in 0..count {
        if rng.one_in(3) {
            add(0, rng.pick(&["\n", " ", "\n\n\n", "\u{2028}"]));
        }
        if rng.one_in(3) {
            add(1, rng.pick(&["//", "//x ", "// é\t\r", "//\u{3000}"]));
        } else {
            add(2, rng.pick(&["/**/", "/*\n*/", "/*€*/", ""]));
        }
    }
    add(3, "z");
    let path = Rec::new(0xB0, 0, text.len() as u32, records.len() as u32);
    records.insert(0, path);
    Script::new(text.into_bytes(), join(&records))
}

/// Queues of 0, 1, 255, 256 and 257 comments, filled at once or little by little,
/// and calls of every sort on them.
pub fn queues(s: &mut Session, rng: &mut Rng) -> Result<(), Differs> {
    let count = rng.pick(&[0, 1, 2, 3, 51, 64, 85, 127, 128, 254, 255, 256, 257, 300]);
    let script = with_comments(rng, count);
    let mut records = vec![];
    for _ in 0..rng.pick(&[1, 2, 6]) {
        let between = rng.pick(&[0, 1, 4]);
        records.push(ignore(1));
        records.extend(gen::history(rng, script.records().len(), between, 10));
    }
    records.push(if rng.one_in(2) {
        ignore(1)
    } else {
        run_step(0)
    });
    let more = gen::history(rng, script.records().len(), 30, 10);
    let more = with_runs(rng, &script, more);
    records.extend(with_layouts(rng, more));
    let room = needed(&script, &records) + rng.below(20);
    replay(s, rng, &script, room, &records)
}

fn leaf(kind: u8, start: usize, end: usize) -> Rec {
    Rec::new(kind, start as u32, end as u32, 0)
}

/// So many levels of one composite in the other, the last one without children.
fn nested(levels: u32, len: usize) -> Vec<Rec> {
    (0..levels)
        .map(|i| Rec::new(0x80, 0, len as u32, levels - 1 - i))
        .collect()
}

/// Sources and trees of every size around a limit.
fn sizes() -> Vec<Script> {
    let mut all = vec![Script::new(vec![], vec![])];
    for n in [65_535, 65_536, 65_537, 70_000] {
        let whole = leaf(3, 0, n);
        all.push(Script::new(vec![b'x'; n], join(&[whole])));
        let mut last = vec![b'x'; n - 2];
        last.extend("é".bytes());
        all.push(Script::new(
            last.clone(),
            join(&[leaf(1, 0, n), leaf(3, n, n)]),
        ));
        last.pop();
        all.push(Script::new(last, vec![]));
    }
    for n in [8_191, 8_192, 8_193, 9_000] {
        all.push(Script::new(vec![], join(&vec![leaf(2, 0, 0); n])));
        all.push(Script::new(vec![], join(&vec![Rec::new(0x80, 0, 0, 0); n])));
        all.push(Script::new(b"x".to_vec(), join(&nested(n as u32, 1))));
    }
    for n in 62..=66 {
        all.push(Script::new(b"//".to_vec(), join(&nested(n, 2))));
        let mut inner = nested(n, 2);
        inner.iter_mut().for_each(|r| r.below += 1);
        inner.push(leaf(1, 0, 2));
        all.push(Script::new(b"//".to_vec(), join(&inner)));
    }
    all.extend(large::all());
    all
}

pub fn all_sizes(s: &mut Session, rng: &mut Rng) -> Result<(), Differs> {
    for script in sizes() {
        let mut records = vec![vec![0x0A], vec![0x01, 0, 0, 0, 0]];
        let last = script.records().len().saturating_sub(1) as u32;
        records.push(ignore(last));
        records.push(ignore(last + 1));
        records.extend([0, 1, 2, last, last + 1, u32::MAX].map(run_step));
        records.push(vec![]);
        records.push(vec![0x08; 1_000]);
        records.push(layout_step());
        records.push(vec![0x0B]);
        records.push(vec![0x08]);
        records.push(run_step(0));
        records.push(layout_step());
        for room in [0, 1, 66_000, 140_000] {
            replay(s, rng, &script, room, &records)?;
        }
    }
    for script in large::in_bodies() {
        for room in [1, 140_000] {
            replay(s, rng, &script, room, &[layout_step()])?;
        }
    }
    state_lengths(s)
}

/// States of every other length, at opening and at a call.
fn state_lengths(s: &mut Session) -> Result<(), Differs> {
    let script = Script::new(b"a".to_vec(), join(&[leaf(3, 0, 1)]));
    s.lend(&script);
    s.lend_room(10);
    for len in (0..=40).chain(4_090..=4_160).chain([8_192]) {
        s.lend_state(vec![0; len]);
        s.open(&script)?;
        s.call(&script, &[0x08])?;
        s.run(&script, 0)?;
        s.layout(&script)?;
        s.lend_state(vec![0xFF; len]);
        s.call(&script, &[])?;
        s.run(&script, 0)?;
        s.layout(&script)?;
    }
    Ok(())
}

/// Every value that a flag, the indent and the count may have, near their bounds.
pub fn all_words(s: &mut Session) -> Result<(), Differs> {
    // a path in an expression, in a body
    let records = [
        Rec::new(0x80, 0, 4, 4),
        Rec::new(0x96, 0, 4, 3),
        Rec::new(0xB0, 0, 4, 2),
        leaf(3, 0, 2),
        leaf(1, 2, 4),
    ];
    let script = Script::new("é//".into(), join(&records));
    s.lend(&script);
    s.lend_room(600);
    let values = (0..=300).chain([511, 512, 65_536, 1 << 24, 1 << 31, u32::MAX]);
    for value in values {
        for number in 0..12 {
            let mut state = vec![0; STATE];
            lent::put_word(&mut state, lent::COUNT, 1);
            lent::put_word(&mut state, lent::of_comment(0, 1), 2);
            lent::put_word(&mut state, number, value);
            s.lend_state(state.clone());
            s.call(&script, &[0x0B])?;
            for step in [run_step(2), layout_step()] {
                s.lend_state(state.clone());
                s.step(&script, &step)?;
            }
        }
    }
    Ok(())
}
