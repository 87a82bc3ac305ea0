//! Damage to a good tree: most of it leaves a good tree that no rule fits, some
//! breaks the tree itself.
use super::Rng;
use crate::grammar::Rec;
use crate::kinds::k::{BLOCK, EXPR, EXPR_UNARY, PATH};
use crate::kinds::KIND_NAME;
use crate::opening::join;

/// A source and its tree; `bytes` stands for the records once those are cut.
pub struct Patient {
    pub source: Vec<u8>,
    pub records: Vec<Rec>,
    pub bytes: Option<Vec<u8>>,
}

impl Patient {
    /// Damages in one place; tells what was done.
    pub fn damage(&mut self, rng: &mut Rng) -> &'static str {
        let at = rng.below(self.records.len());
        match rng.below(16) {
            0..=2 => self.another_kind(rng, at),
            3 | 4 => self.drop_leaf(rng),
            5 | 6 => self.double_leaf(rng),
            7 => self.empty_composite(rng),
            8 => self.drop_composite(rng),
            9 => self.insert(rng, at),
            10 => self.miscount(rng),
            11 => self.move_span(rng, at),
            12 => self.cut(rng),
            13 => self.deepen(rng, at),
            14 => self.break_source(rng),
            _ => self.swap_kinds(rng, at),
        }
    }

    /// Damages one token or composite and leaves the tree good; tells what was done.
    pub fn damage_in_good_tree(&mut self, rng: &mut Rng) -> &'static str {
        if self.records.is_empty() {
            return "none";
        }
        let Some(at) = self.find(rng, |_, r| !r.is_trivia()) else {
            return "none";
        };
        match rng.below(8) {
            0 | 1 => self.another_kind(rng, at),
            2 | 3 => self.remove(at),
            4 | 5 => self.double(at),
            6 => self.insert(rng, at),
            _ => self.swap_kinds(rng, at),
        }
    }

    /// Some record that fits, if fifty tries find one.
    fn find(&self, rng: &mut Rng, fits: impl Fn(usize, &Rec) -> bool) -> Option<usize> {
        let mut tries = (0..50).map(|_| rng.below(self.records.len()));
        tries.find(|i| fits(*i, &self.records[*i]))
    }

    /// Every composite that holds record `at` holds so many more.
    fn grow_parents(&mut self, at: usize, by: i64) {
        for (i, r) in self.records[..at].iter_mut().enumerate() {
            if i as u64 + r.below as u64 >= at as u64 {
                r.below = (r.below as i64 + by) as u32;
            }
        }
    }

    fn known_kind(rng: &mut Rng) -> u8 {
        loop {
            let kind = rng.below(256);
            if !KIND_NAME[kind].is_empty() {
                return kind as u8;
            }
        }
    }

    fn another_kind(&mut self, rng: &mut Rng, at: usize) -> &'static str {
        let old = self.records[at];
        loop {
            let kind = match rng.one_in(6) {
                true => rng.below(256) as u8,
                false => Self::known_kind(rng),
            };
            if (kind < 0x80) == old.is_leaf() && kind != old.kind {
                self.records[at].kind = kind;
                return "kind";
            }
        }
    }

    fn drop_leaf(&mut self, rng: &mut Rng) -> &'static str {
        if let Some(i) = self.find(rng, |_, r| r.is_leaf()) {
            self.grow_parents(i, -1);
            self.records.remove(i);
        }
        "drop-leaf"
    }

    /// The copy is empty, so that it stands in place.
    fn double_leaf(&mut self, rng: &mut Rng) -> &'static str {
        if let Some(i) = self.find(rng, |_, r| r.is_leaf()) {
            let mut copy = self.records[i];
            copy.start = copy.end;
            self.grow_parents(i, 1);
            self.records.insert(i + 1, copy);
        }
        "double-leaf"
    }

    /// With everything below it.
    fn remove(&mut self, at: usize) -> &'static str {
        let n = self.records[at].below as usize + 1;
        self.grow_parents(at, -(n as i64));
        self.records.drain(at..at + n);
        "remove"
    }

    /// With everything below it; the copy is empty, so that it stands in place.
    fn double(&mut self, at: usize) -> &'static str {
        let behind = at + 1 + self.records[at].below as usize;
        let place = self.records[at].end;
        let mut copy = self.records[at..behind].to_vec();
        for r in &mut copy {
            (r.start, r.end) = (place, place);
        }
        self.grow_parents(at, copy.len() as i64);
        self.records.splice(behind..behind, copy);
        "double"
    }

    fn empty_composite(&mut self, rng: &mut Rng) -> &'static str {
        if let Some(i) = self.find(rng, |i, r| i > 0 && r.below > 0) {
            let below = (self.records[i].below as usize).min(self.records.len() - 1 - i);
            self.grow_parents(i, -(below as i64));
            self.records[i].below = 0;
            self.records.drain(i + 1..i + 1 + below);
        }
        "empty-composite"
    }

    fn drop_composite(&mut self, rng: &mut Rng) -> &'static str {
        if let Some(i) = self.find(rng, |i, r| i > 0 && !r.is_leaf()) {
            let n = (self.records[i].below as usize + 1).min(self.records.len() - i);
            self.grow_parents(i, -(n as i64));
            self.records.drain(i..i + n);
        }
        "drop-composite"
    }

    fn insert(&mut self, rng: &mut Rng, at: usize) -> &'static str {
        let kind = Self::known_kind(rng);
        let place = self.records[at].start;
        if at > 0 {
            self.grow_parents(at, 1);
            self.records.insert(at, Rec::new(kind, place, place, 0));
        }
        "insert"
    }

    fn miscount(&mut self, rng: &mut Rng) -> &'static str {
        let by = rng.pick(&[1u32, 2, u32::MAX, 1000, u32::MAX - 1]);
        if let Some(i) = self.find(rng, |_, r| !r.is_leaf()) {
            self.records[i].below = self.records[i].below.wrapping_add(by);
        }
        "count"
    }

    fn move_span(&mut self, rng: &mut Rng, at: usize) -> &'static str {
        let by = rng.pick(&[1u32, u32::MAX, 7, 0x8000_0000]);
        let r = &mut self.records[at];
        let edge = if rng.one_in(2) {
            &mut r.start
        } else {
            &mut r.end
        };
        *edge = edge.wrapping_add(by);
        "span"
    }

    fn cut(&mut self, rng: &mut Rng) -> &'static str {
        let mut bytes = join(&self.records);
        bytes.truncate(bytes.len().saturating_sub(1 + rng.below(14)));
        self.bytes = Some(bytes);
        "cut"
    }

    /// Wraps a record in composites, down to a depth around 64.
    fn deepen(&mut self, rng: &mut Rng, at: usize) -> &'static str {
        let holds = |(i, r): &(usize, &Rec)| *i as u64 + r.below as u64 >= at as u64;
        let depth = self.records[..at].iter().enumerate().filter(holds).count() + 1;
        let want = 62 + rng.below(5);
        if depth < want && self.records.len() + want < 8000 {
            let kind = rng.pick(&[EXPR, PATH, BLOCK, EXPR_UNARY]);
            let inner = self.records[at];
            self.grow_parents(at, (want - depth) as i64);
            for i in 0..(want - depth) as u32 {
                let below = inner.below + 1 + i;
                let wrapper = Rec::new(kind, inner.start, inner.end, below);
                self.records.insert(at, wrapper);
            }
        }
        "deep"
    }

    fn break_source(&mut self, rng: &mut Rng) -> &'static str {
        if !self.source.is_empty() {
            let at = rng.below(self.source.len());
            self.source[at] = rng.pick(&[0x80, 0xFF, 0xC0, 0xE0, 0xED, 0xF5]);
        }
        "source"
    }

    fn swap_kinds(&mut self, rng: &mut Rng, at: usize) -> &'static str {
        let other = rng.below(self.records.len());
        if self.records[at].is_leaf() && self.records[other].is_leaf() {
            let kind = self.records[at].kind;
            self.records[at].kind = self.records[other].kind;
            self.records[other].kind = kind;
        }
        "swap"
    }
}
