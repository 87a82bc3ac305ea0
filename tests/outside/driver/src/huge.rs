//! Buffers around 4 GiB, in memory that is there only once it is touched.
use oracle::call::{layout_step, run_step, Step};
use oracle::grammar::Rec;
use oracle::opening::join;

use crate::area::{Area, Side};
use crate::exported::Library;
use crate::lent::{self, STATE};
use crate::reference::{self, Script, Want};
use crate::rules;
use crate::tally::Tally;

const FOUR_GIB: usize = 1 << 32;
/// Bytes in front of the written ones and behind them that are looked at.
const AROUND: usize = 1_000;

struct Huge<'a> {
    library: Library,
    tally: &'a mut Tally,
    script: Script,
    out: Area,
    calls: u64,
}

impl Huge<'_> {
    /// One step on a fresh engine whose output has this length already.
    fn step(&mut self, out_len: usize, length: u32, step: &[u8]) {
        let mut state = vec![0; STATE];
        lent::put_word(&mut state, lent::LENGTH, length);
        let want = reference::step(&self.script, &state, out_len, step);
        self.out.size(out_len, Side::Front);
        let from = (length as usize).min(out_len);
        let (first, last) = (from.saturating_sub(AROUND), out_len.min(from + AROUND));
        let around = self.out.bytes()[first..last].to_vec();
        let mut left = state.clone();
        let got = match rules::step_of(step) {
            Step::Run(node) => self.run(out_len, &mut left, node, &want),
            Step::Layout => self.layout(out_len, &mut left, &want),
            Step::Call(_) => self.call(out_len, &mut left, step, &want),
        };
        self.calls += 1;
        let mut around = around;
        around[from - first..][..want.written.len()].copy_from_slice(&want.written);
        if want.zero_from.is_some() {
            around[from - first..].fill(0);
        }
        let same = got == want.answer
            && left == *want.state.as_ref().unwrap_or(&state)
            && self.out.bytes()[first..last] == around
            && self.out.strip_is_whole();
        if !same {
            let what = format!("length {length}, {step:02x?}: answer {got:#x}");
            let what = format!("buffer of {out_len}, {what}");
            self.tally.differences.push(what);
        }
    }

    fn call(&mut self, out_len: usize, left: &mut [u8], record: &[u8], want: &Want) -> u64 {
        let (source, tree) = (&self.script.source, &self.script.tree);
        self.tally.called(record, 0, want);
        unsafe {
            (self.library.call)(
                source.as_ptr(),
                source.len(),
                tree.as_ptr(),
                tree.len(),
                left.as_mut_ptr(),
                left.len(),
                self.out.pointer(),
                out_len,
                record.as_ptr(),
                record.len(),
            )
        }
    }

    fn run(&mut self, out_len: usize, left: &mut [u8], node: u32, want: &Want) -> u64 {
        let (source, tree) = (&self.script.source, &self.script.tree);
        let kind = self.script.records().get(node as usize).map(|r| r.kind);
        self.tally.ran(kind, want);
        unsafe {
            (self.library.run)(
                source.as_ptr(),
                source.len(),
                tree.as_ptr(),
                tree.len(),
                left.as_mut_ptr(),
                left.len(),
                self.out.pointer(),
                out_len,
                node,
            )
        }
    }

    fn layout(&mut self, out_len: usize, left: &mut [u8], want: &Want) -> u64 {
        let (source, tree) = (&self.script.source, &self.script.tree);
        self.tally.laid(tree.len(), want);
        unsafe {
            (self.library.layout)(
                source.as_ptr(),
                source.len(),
                tree.as_ptr(),
                tree.len(),
                left.as_mut_ptr(),
                left.len(),
                self.out.pointer(),
                out_len,
            )
        }
    }
}

pub fn huge(library: Library, tally: &mut Tally) {
    // a path in an expression, in a body
    let records = [
        Rec::new(0x80, 0, 7, 4),
        Rec::new(0x96, 0, 7, 3),
        Rec::new(0xB0, 0, 7, 2),
        Rec::new(3, 0, 3, 0),
        Rec::new(2, 3, 7, 0),
    ];
    for out_len in [FOUR_GIB - 2, FOUR_GIB - 1, FOUR_GIB, FOUR_GIB + 1] {
        let mut huge = Huge {
            library,
            tally,
            script: Script::new(b"abc/**/".to_vec(), join(&records)),
            out: Area::new(out_len + AROUND),
            calls: 0,
        };
        for less in 0..6 {
            for record in [&[4, 0][..], &[4, 5], &[8], &[1, 3, 0, 0, 0], &[11], &[12]] {
                huge.step(out_len, u32::MAX - less, record);
            }
            for node in [0, 2, 3, 5] {
                huge.step(out_len, u32::MAX - less, &run_step(node));
            }
            huge.step(out_len, u32::MAX - less, &layout_step());
        }
        // refused ones would make all of it zero: these are done
        huge.step(out_len, 0, &[1, 3, 0, 0, 0]);
        huge.step(out_len, 0, &run_step(2));
        huge.step(out_len, 0, &layout_step());
        let calls = huge.calls;
        tally.history("huge buffers", calls);
    }
}
