//! A session written down for the gate's program `exported`: what is lent, what is
//! asked, and what the reference answers and leaves. README.md has the file's form.
use std::collections::BTreeMap;

use crate::reference::Want;

// Kinds of a step in the file.
pub const SOURCE: usize = 0;
pub const TREE: usize = 1;
pub const STATE: usize = 2;
pub const OUT: usize = 3;
pub const OPEN: usize = 4;
pub const CALL: usize = 5;
pub const RUN: usize = 6;
pub const LAYOUT: usize = 7;
pub const WHY: usize = 8;

/// What the program has room for.
const ROOM: [usize; 4] = [70_000, 90_000, 8_192, 8_192];

/// Which part of a step is written down wrong.
#[derive(Clone, Copy, PartialEq, Eq)]
pub enum Wrong {
    Answer,
    State,
    Buffer,
}

#[derive(Default)]
pub struct Recorder {
    pub steps: usize,
    pub bytes: Vec<u8>,
    /// the steps by kind and answer
    pub answers: BTreeMap<(usize, u64), usize>,
    /// something was larger than the program's arrays
    pub too_large: bool,
    /// of the steps from now on
    pub wrong: Option<Wrong>,
}

impl Recorder {
    pub fn lend(&mut self, kind: usize, bytes: &[u8]) {
        self.too_large |= bytes.len() > ROOM[kind];
        self.number(kind);
        self.pieces(bytes);
        self.steps += 1;
    }

    /// `from`: where the output ended before.
    pub fn made(&mut self, kind: usize, asked: &[u8], want: &Want, from: usize, out_len: usize) {
        let wrong = |part| (self.wrong == Some(part)) as u8;
        let (answer, state, buffer) = (
            want.answer + wrong(Wrong::Answer) as u64,
            wrong(Wrong::State),
            wrong(Wrong::Buffer),
        );
        self.number(kind);
        self.number(asked.len());
        self.bytes.extend_from_slice(asked);
        self.bytes.extend(answer.to_le_bytes());
        let mut left = want.state.clone().unwrap_or_default();
        left.iter_mut().take(1).for_each(|b| *b ^= state);
        self.change(0, &left);
        let (from, mut changed) = match want.zero_from {
            Some(zero) => (zero.min(out_len), vec![0; out_len.saturating_sub(zero)]),
            None => (from, want.written.clone()),
        };
        changed.iter_mut().take(1).for_each(|b| *b ^= buffer);
        self.change(from, &changed);
        self.steps += 1;
        *self.answers.entry((kind, want.answer >> 32)).or_default() += 1;
    }

    /// 0 where nothing changes, else 1, the place and the bytes there.
    fn change(&mut self, from: usize, bytes: &[u8]) {
        self.number(!bytes.is_empty() as usize);
        if !bytes.is_empty() {
            self.number(from);
            self.pieces(bytes);
        }
    }

    fn number(&mut self, n: usize) {
        self.bytes.extend((n as u32).to_le_bytes());
    }

    /// As oracle/README.md has bytes: pieces, each so many times.
    fn pieces(&mut self, bytes: &[u8]) {
        let pieces = cut(bytes);
        self.number(pieces.len());
        for (times, unit) in pieces {
            self.number(times);
            self.number(unit.len());
            self.bytes.extend_from_slice(unit);
        }
    }
}

/// How often the first `unit` bytes stand one behind the other.
fn repeats(bytes: &[u8], unit: usize) -> usize {
    if bytes.len() < unit {
        return 0;
    }
    bytes
        .chunks(unit)
        .take_while(|c| *c == &bytes[..unit])
        .count()
}

/// Equal bytes, records and comments in a row are one piece.
fn cut(bytes: &[u8]) -> Vec<(usize, &[u8])> {
    let (mut pieces, mut plain, mut at) = (vec![], 0, 0);
    while at < bytes.len() {
        let units = [1, 9, 13, 16].map(|unit| (repeats(&bytes[at..], unit), unit));
        let (times, unit) = units.into_iter().max_by_key(|(n, unit)| n * unit).unwrap();
        if times > 1 && times * unit > unit + 24 {
            if plain < at {
                pieces.push((1, &bytes[plain..at]));
            }
            pieces.push((times, &bytes[at..at + unit]));
            at += times * unit;
            plain = at;
        } else {
            at += 1;
        }
    }
    if plain < at {
        pieces.push((1, &bytes[plain..]));
    }
    pieces
}
