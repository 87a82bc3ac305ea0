//! `oracle replay`: a recorded file read back, and its steps made once more. It
//! reads as the README has the files, and shares nothing with what writes them.
use crate::alloc;
use crate::call::{self, Step};
use crate::engine::Engine;
use crate::opening::open;
use crate::Diagnostics;

struct Reader<'a>(&'a [u8]);

impl<'a> Reader<'a> {
    fn take(&mut self, n: usize) -> &'a [u8] {
        let (front, rest) = self.0.split_at(n);
        self.0 = rest;
        front
    }

    fn u32(&mut self) -> u32 {
        u32::from_le_bytes(self.take(4).try_into().unwrap())
    }

    fn u64(&mut self) -> u64 {
        u64::from_le_bytes(self.take(8).try_into().unwrap())
    }

    fn len(&mut self) -> usize {
        self.u32() as usize
    }

    fn pieces(&mut self) -> Vec<u8> {
        let mut bytes = vec![];
        for _ in 0..self.u32() {
            let (times, len) = (self.len(), self.len());
            bytes.extend(self.take(len).repeat(times));
        }
        bytes
    }
}

/// A file of histories; `runs`: whether E0 is a layout run. Says whether every step
/// is answered and leaves what was recorded.
pub fn replay(file: &[u8], runs: bool) -> bool {
    let mut reader = Reader(file);
    let (mut steps, mut refused, mut different) = (0, 0, 0);
    let histories = reader.u32();
    for i in 0..histories {
        let (source, tree) = (reader.pieces(), reader.pieces());
        let tree = open(&source, &tree).expect("a good tree");
        let source = std::str::from_utf8(&source).expect("a good source");
        let (mut buffer, mut diagnostics) = (alloc::String::with_cap(reader.len()), Diagnostics);
        let mut engine = Engine::new(source, &tree, &mut buffer, &mut diagnostics);
        for n in 0..reader.u32() {
            let len = reader.len();
            let record = reader.take(len);
            let step = match runs {
                true => call::step(record),
                false => Step::Call(record),
            };
            let answer = engine.step(step).map_or_else(|r| r.packed(), |()| 0);
            let recorded = reader.u64();
            steps += 1;
            refused += (recorded != 0) as usize;
            if !same_left(&mut reader, &engine) | (answer != recorded) {
                different += 1;
                println!("history {i} step {n} differs");
            }
        }
    }
    println!("{histories} histories, {steps} steps, {refused} refused, {different} differ");
    reader.0.is_empty() && different == 0
}

/// The state and the output behind a step; reads them in any case.
fn same_left(reader: &mut Reader, engine: &Engine) -> bool {
    let mut words: Vec<u32> = (0..8).map(|_| reader.u32()).collect();
    let waiting = words[6];
    words.extend((0..4 * waiting).map(|_| reader.u32()));
    let output = reader.take(words[0] as usize);
    words == engine.state().words(engine.zeroed) && output == engine.fmt.output().as_bytes()
}
