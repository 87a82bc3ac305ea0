//! Small trees that no rule fits, and histories of calls over them.
use super::builder::Force;
use super::{Builder, Opts, Rng};
use crate::call::Call;
use crate::grammar::Rec;

/// A tree of at most five levels of tokens, white space and comments.
pub fn small_tree(rng: &mut Rng, trim_all: bool) -> (String, Vec<Rec>) {
    let opts = Opts {
        size: 40,
        comments: rng.pick(&[5, 30, 60]),
        spaces: rng.pick(&[20, 60]),
        odd: rng.pick(&[0, 5, 30]),
        non_ascii: rng.one_in(2),
        trim_all,
        pad: 0,
        fill: false,
        force: Force::Nothing,
    };
    let mut b = Builder::new(rng.branch(), opts);
    b.gap();
    if b.rng.one_in(2) {
        b.start(0x80);
        let n = 3 + b.rng.below(12);
        b.anything(n, 1);
        b.close();
    } else {
        let n = b.rng.below(14);
        b.anything(n, 1);
    }
    b.gap();
    b.done()
}

impl Builder {
    /// n things: composites, gaps, tokens. The engine asks for no kind but those
    /// of white space and comments, so any will do.
    fn anything(&mut self, n: usize, depth: usize) {
        for _ in 0..n {
            match self.rng.below(8) {
                0 if depth < 4 => {
                    let kind = self.rng.pick(&[0x80, 0x96, 0xB0, 0xF7]);
                    self.node(kind);
                    let n = self.rng.below(4);
                    self.anything(n, depth + 1);
                    self.close();
                }
                1 | 2 => self.gap(),
                _ => {
                    let name = self.name();
                    let kind = self.rng.pick(&[0x03, 0x05, 0x18, 0x7E]);
                    self.token(kind, &name);
                }
            }
        }
    }
}

/// Call records with a body value that document 01 doesn't list.
const BAD_BODIES: &[&[u8]] = &[&[4, 8], &[5, 4], &[9, 2], &[4, 255], &[5, 77], &[9, 255]];
/// Unknown kinds and cut records: in a case file they can only stand last.
const BAD_LAST: &[&[u8]] = &[&[0], &[0x0E], &[1, 0, 0], &[4], &[0xFF, 1], &[7]];

/// Some n calls over a tree of so many records; `bad` in 1,000 of the chances for
/// it are refused ones.
pub fn history(rng: &mut Rng, records: usize, n: usize, bad: usize) -> Vec<Vec<u8>> {
    let mut calls = vec![];
    let mut maker = Maker {
        records: records as u32,
        bad,
        next: 0,
    };
    for _ in 0..n {
        if rng.one_in(100) && rng.per_mille(bad) {
            calls.push(rng.pick(BAD_BODIES).to_vec());
        }
        calls.push(maker.call(rng).encode());
    }
    if rng.one_in(2) {
        calls.push(Call::Finish.encode());
        if rng.one_in(2) {
            calls.push(Call::Ws.encode());
        }
    }
    if rng.per_mille(bad * 3) {
        calls.push(rng.pick(BAD_LAST).to_vec());
    }
    calls
}

struct Maker {
    records: u32,
    bad: usize,
    /// a history mostly goes forward through the tree
    next: u32,
}

impl Maker {
    fn node(&mut self, rng: &mut Rng) -> u32 {
        if rng.per_mille(self.bad) {
            return rng.pick(&[self.records, self.records + 1, u32::MAX, 8192]);
        }
        if self.records == 0 {
            return 0;
        }
        if !rng.percent(70) {
            return rng.below(self.records as usize) as u32;
        }
        let node = self.next;
        self.next = (self.next + 1 + rng.below(3) as u32) % self.records;
        node
    }

    fn call(&mut self, rng: &mut Rng) -> Call {
        match rng.below(100) {
            0..=27 => Call::WriteOwned(self.node(rng)),
            28..=33 => Call::WriteRaw(self.node(rng)),
            34..=41 => Call::Ignore(self.node(rng)),
            42..=51 => Call::Lit(rng.below(8) as u8),
            52..=63 => Call::Comments(rng.below(4) as u8),
            64..=71 if rng.per_mille(self.bad) => Call::Indent(rng.below(256) as u8 as i8),
            64..=71 => Call::Indent(rng.pick(&[1, 1, -1, 0, 2])),
            72..=82 if rng.one_in(10) => Call::Nl(rng.below(256) as u8),
            72..=82 => Call::Nl(rng.pick(&[0, 1, 1, 2, 3])),
            83..=92 => Call::Ws,
            93..=96 => Call::FlushWhitespace(rng.one_in(2)),
            97 | 98 => Call::FlushPrefixComments,
            _ if rng.per_mille(self.bad * 2) => Call::Finish,
            _ => Call::Ws,
        }
    }
}
