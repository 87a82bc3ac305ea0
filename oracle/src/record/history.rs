//! A history as the recorded files hold it: what is lent, the steps, and behind
//! each the answer, the whole state and the output, from the Rust; the second
//! engine must say the same.
use super::pieces::Pieces;
use super::{put_u32, put_u64, Sorts};
use crate::alloc;
use crate::call::{self, Step};
use crate::case::ROOM;
use crate::compare::first_difference;
use crate::engine::Engine;
use crate::grammar::Tree;
use crate::opening::open;
use crate::state::State;
use crate::Diagnostics;

/// A history to record. Without a `cap` the buffer gets eight bytes more than the
/// output needs, or as many as a refused step had written if those are more.
pub struct History {
    pub sort: &'static str,
    pub source: Pieces,
    pub tree: Pieces,
    pub cap: Option<usize>,
    pub steps: Vec<Vec<u8>>,
    /// whether E0 with a node number is a layout run (runs.bin) or a call record
    /// that no one knows (calls.bin)
    pub runs: bool,
}

impl History {
    fn read(&self) -> Vec<Step<'_>> {
        let read = |record| match self.runs {
            true => call::step(record),
            false => Step::Call(record),
        };
        self.steps.iter().map(|s| read(&s[..])).collect()
    }

    fn source(&self) -> String {
        String::from_utf8(self.source.bytes()).expect("a good source")
    }

    fn tree(&self) -> Tree {
        open(&self.source.bytes(), &self.tree.bytes()).expect("a good tree")
    }

    /// Makes the steps with so much room: the output's length at the end, the
    /// longest that a refused step had written, and the place of the last refusal.
    fn try_with(&self, room: usize) -> (usize, usize, Option<u32>) {
        let (source, tree) = (self.source(), self.tree());
        let (mut buffer, mut diagnostics) = (alloc::String::with_cap(room), Diagnostics);
        let mut engine = Engine::new(&source, &tree, &mut buffer, &mut diagnostics);
        let answers: Vec<_> = self.read().into_iter().map(|s| engine.step(s)).collect();
        let last = answers.into_iter().filter_map(|a| a.err()).next_back();
        (engine.fmt.len(), engine.most, last.map(|r| r.place))
    }

    /// How much room the steps take where there is enough.
    pub fn needs(&self) -> usize {
        let (len, most, _) = self.try_with(ROOM);
        len.max(most)
    }

    pub fn last_place(&self) -> Option<u32> {
        self.try_with(self.room()).2
    }

    fn room(&self) -> usize {
        self.cap.unwrap_or_else(|| {
            let (len, most, _) = self.try_with(ROOM);
            most.max(len + 8)
        })
    }
}

/// A step that was recorded.
pub struct Made<'a> {
    pub step: Step<'a>,
    pub tree: &'a Tree,
    /// 0, or the refusal's number * 2^32 + its place
    pub answer: u64,
    pub state: State,
}

/// The largest of each that a reader must have room for.
#[derive(Default)]
pub struct Largest {
    pub source: usize,
    pub tree: usize,
    pub cap: usize,
    pub step: usize,
}

/// A file so far.
#[derive(Default)]
pub struct Recorded {
    pub histories: usize,
    pub steps: usize,
    pub sorts: Sorts,
    /// those with a refused step
    pub refused: Sorts,
    pub largest: Largest,
    bytes: Vec<u8>,
}

impl Recorded {
    /// A history, on which the two engines may not part. `note` is told of each step.
    pub fn add(&mut self, h: &History, note: &mut dyn FnMut(&Made)) {
        let (source, tree) = (h.source(), h.tree());
        let cap = h.room();
        let steps = h.read();
        let (parts, _) = first_difference(&source, &tree, cap, &steps);
        assert_eq!(parts, None, "{}: the engines part", h.sort);
        h.source.put(&mut self.bytes);
        h.tree.put(&mut self.bytes);
        put_u32(&mut self.bytes, cap);
        put_u32(&mut self.bytes, steps.len());
        let (mut buffer, mut diagnostics) = (alloc::String::with_cap(cap), Diagnostics);
        let mut engine = Engine::new(&source, &tree, &mut buffer, &mut diagnostics);
        let mut refused = false;
        for (record, step) in h.steps.iter().zip(steps) {
            let made = self.put_step(&mut engine, &tree, record, step);
            refused |= made.answer != 0;
            note(&made);
        }
        self.count(h, cap);
        if refused {
            self.refused.count(h.sort);
        }
    }

    fn put_step<'a>(
        &mut self,
        engine: &mut Engine<'_>,
        tree: &'a Tree,
        record: &[u8],
        step: Step<'a>,
    ) -> Made<'a> {
        let answer = engine.step(step).map_or_else(|r| r.packed(), |()| 0);
        let state = engine.state();
        put_u32(&mut self.bytes, record.len());
        self.bytes.extend_from_slice(record);
        put_u64(&mut self.bytes, answer);
        for word in state.words(engine.zeroed) {
            put_u32(&mut self.bytes, word as usize);
        }
        self.bytes.extend_from_slice(engine.fmt.output().as_bytes());
        Made {
            step,
            tree,
            answer,
            state,
        }
    }

    fn count(&mut self, h: &History, cap: usize) {
        self.histories += 1;
        self.steps += h.steps.len();
        self.sorts.count(h.sort);
        let steps = h.steps.iter().map(|s| s.len());
        let largest = &mut self.largest;
        largest.source = largest.source.max(h.source.bytes().len());
        largest.tree = largest.tree.max(h.tree.bytes().len());
        largest.cap = largest.cap.max(cap);
        largest.step = largest.step.max(steps.max().unwrap_or(0));
    }

    /// The file's bytes.
    pub fn file(&self) -> Vec<u8> {
        let mut bytes = vec![];
        put_u32(&mut bytes, self.histories);
        bytes.extend_from_slice(&self.bytes);
        bytes
    }
}
