//! The stand-in's runs, with one fault at a time (faults.rs).
use crate::faults::{bytes, fault, Fault};
use crate::lent::{self, word, STATE};
use crate::reference::{self, By, Script, Want};

pub unsafe extern "C" fn run(
    source: *const u8,
    source_len: usize,
    tree: *const u8,
    tree_len: usize,
    state: *mut u8,
    state_len: usize,
    out: *mut u8,
    out_len: usize,
    node: u32,
) -> u64 {
    let script = Script::new(
        bytes(source, source_len).to_vec(),
        bytes(tree, tree_len).to_vec(),
    );
    let old = bytes(state, state_len).to_vec();
    let want = served(&script, &old, out_len, node);
    let length = former_length(&old, out_len);
    left(&want, length, state, out, zeroed(&want, length, out_len));
    if fault() == Fault::RunWritesTheStateWhereItRefuses && !want.hidden.is_empty() {
        let length = (length + want.hidden.len()) as u32;
        state.copy_from(length.to_le_bytes().as_ptr(), 4);
    }
    want.answer
}

pub fn former_length(state: &[u8], out_len: usize) -> usize {
    match state.len() {
        STATE => (word(state, lent::LENGTH) as usize).min(out_len),
        _ => 0,
    }
}

/// Leaves what a run or layout leaves: done, its text and the state; refused, what it
/// had written, with a part of the buffer made zero.
pub unsafe fn left(
    want: &Want,
    length: usize,
    state: *mut u8,
    out: *mut u8,
    zero: Option<(usize, usize)>,
) {
    if let Some(new) = &want.state {
        out.wrapping_add(length)
            .copy_from(want.written.as_ptr(), want.written.len());
        state.copy_from(new.as_ptr(), STATE);
        return;
    }
    out.wrapping_add(length)
        .copy_from(want.hidden.as_ptr(), want.hidden.len());
    if let Some((from, to)) = zero {
        out.wrapping_add(from).write_bytes(0, to - from);
    }
}

/// Which part of the buffer a refused run makes zero.
fn zeroed(want: &Want, length: usize, out_len: usize) -> Option<(usize, usize)> {
    let reached = length + want.hidden.len();
    match fault() {
        Fault::RunZeroesNothing => None,
        Fault::RunZeroesFromTheLengthItReached => Some((reached, out_len)),
        Fault::RunZeroesOnlyWhatItWrote => Some((length, reached)),
        Fault::RunZeroesWithoutAShape => Some((length, out_len)),
        _ => want.zero_from.map(|_| (length, out_len)),
    }
}

/// The reference's answer, changed by the fault.
fn served(script: &Script, lent: &[u8], out_len: usize, node: u32) -> Want {
    let taken = match fault() {
        Fault::RunTakesTheNodeBehind => node.saturating_add(1),
        _ => node,
    };
    let mut want = reference::run_by(&altered, script, lent, out_len, taken);
    let finished = lent.len() == STATE && word(lent, lent::FINISHED) == 1;
    let missing = script.records().len() <= node as usize;
    match (fault(), want.answer >> 32) {
        (Fault::RunNamesItsNodeForTheRecordMet, 8) => want.answer = 8 << 32 | node as u64,
        (Fault::RunNamesTheLengthItBeganWith, 4) if want.by == By::Call => {
            want.answer = 4 << 32 | word(lent, lent::LENGTH) as u64
        }
        (Fault::RunAsksForTheNodeBeforeTheFinish, 10) if finished && missing => {
            want.answer = 11 << 32 | node as u64
        }
        _ => {}
    }
    want
}

/// Faults in the calls of a rule.
fn altered(mut calls: Vec<Vec<u8>>) -> Vec<Vec<u8>> {
    match fault() {
        Fault::RunSwapsPrefixAndSuffix => {
            for call in calls.iter_mut().filter(|c| c[0] == 5) {
                call[1] = [0, 2, 1, 3][call[1] as usize];
            }
        }
        Fault::RunLosesAComma => calls.retain(|c| c[..] != [4, 5]),
        Fault::RunSetsABlankLineForANewLine => {
            for call in calls.iter_mut().filter(|c| c[..] == [7, 1]) {
                call[1] = 2;
            }
        }
        _ => {}
    }
    calls
}
