//! The stand-in's layouts, with one fault at a time (faults.rs).
use crate::faults::{bytes, fault, Fault};
use crate::faulty_runs::{former_length, left};
use crate::lent::{self, word};
use crate::reference::{self, By, Script, Want};
use crate::tally::SHORT;

pub unsafe extern "C" fn layout(
    source: *const u8,
    source_len: usize,
    tree: *const u8,
    tree_len: usize,
    state: *mut u8,
    state_len: usize,
    out: *mut u8,
    out_len: usize,
) -> u64 {
    let script = Script::new(
        bytes(source, source_len).to_vec(),
        bytes(tree, tree_len).to_vec(),
    );
    let old = bytes(state, state_len).to_vec();
    let want = served(&script, &old, out_len);
    let length = former_length(&old, out_len);
    let zero = match fault() {
        Fault::LayoutZeroesNothing => None,
        _ => want.zero_from.map(|_| (length, out_len)),
    };
    left(&want, length, state, out, zero);
    want.answer
}

/// The reference's answer, changed by the fault.
fn served(script: &Script, lent: &[u8], out_len: usize) -> Want {
    let long = script.tree.len() > SHORT;
    let altered = |calls| altered(calls, long);
    let mut want = reference::layout_by(&altered, script, lent, out_len);
    match (fault(), want.answer >> 32) {
        // as if only the kind of record 0 were asked for
        (Fault::LayoutTakesATreeWithRecordsBehind, 8)
            if want.by == By::Call && script.records().first().is_some_and(|r| r.kind == 0x80) =>
        {
            want = reference::run(script, lent, out_len, 0)
        }
        (Fault::LayoutNamesTheLengthItBeganWith, 4) if want.by == By::Call => {
            want.answer = 4 << 32 | word(lent, lent::LENGTH) as u64
        }
        _ => {}
    }
    want
}

/// Faults in the calls of a layout.
fn altered(mut calls: Vec<Vec<u8>>, long: bool) -> Vec<Vec<u8>> {
    match fault() {
        Fault::LayoutForgetsTheCommentsInFront => calls.retain(|c| c[..] != [0x0A]),
        Fault::LayoutForgetsTheFinish => calls.retain(|c| c[..] != [0x0B]),
        Fault::LayoutOfALongTreeLosesAComma if long => calls.retain(|c| c[..] != [4, 5]),
        _ => {}
    }
    calls
}
