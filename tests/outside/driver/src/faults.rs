//! A stand-in for the library that has one fault at a time: the comparison must
//! find each. The first are the errors that document 01 names.
use std::slice;
use std::sync::atomic::{AtomicUsize, Ordering};

use crate::exported::Library;
use crate::faulty_layouts::layout;
use crate::faulty_runs::run;
use crate::lent::{self, of_comment, put_word, word, STATE};
use crate::reference::{self, By, Script, Want};

macro_rules! faults {
    ($($fault:ident),*) => {
        #[derive(Debug, Clone, Copy, PartialEq, Eq)]
        pub enum Fault { $($fault),* }
        pub const ALL: &[Fault] = &[$(Fault::$fault),*];
    };
}

faults!(
    None,
    BlockCommentPassesALineComment,
    NlStoresAtMostTwo,
    NlOverwritesACount,
    LitClearsTheLines,
    FinishDropsTheQueue,
    TrimsThreeSorts,
    TouchesAByteBeyondTheNewLength,
    TouchesTheBufferWhereItRefuses,
    TouchesTheStateWhereItRefuses,
    LeavesAFreeCommentBehind,
    LooksAtTheLastWord,
    LooksAtAFreeComment,
    CountsFinishedBeforeTheRecord,
    CutsTheIndentToAByte,
    Takes257,
    TakesASpanInsideACharacter,
    TakesAFlagOfTwo,
    TakesAnyLengthOfState,
    NamesTheRecordBehind,
    OpeningTouchesWhereItRefuses,
    OpeningLeavesTheLastByte,
    WritesBesideTheState,
    WritesIntoTheSource,
    RunZeroesNothing,
    RunZeroesFromTheLengthItReached,
    RunZeroesOnlyWhatItWrote,
    RunZeroesWithoutAShape,
    RunWritesTheStateWhereItRefuses,
    RunNamesItsNodeForTheRecordMet,
    RunNamesTheLengthItBeganWith,
    RunAsksForTheNodeBeforeTheFinish,
    RunTakesTheNodeBehind,
    RunSwapsPrefixAndSuffix,
    RunLosesAComma,
    RunSetsABlankLineForANewLine,
    LayoutForgetsTheCommentsInFront,
    LayoutForgetsTheFinish,
    LayoutTakesATreeWithRecordsBehind,
    LayoutZeroesNothing,
    LayoutNamesTheLengthItBeganWith,
    LayoutOfALongTreeLosesAComma
);

static FAULT: AtomicUsize = AtomicUsize::new(0);

pub fn fault() -> Fault {
    ALL[FAULT.load(Ordering::Relaxed)]
}

/// The library with this fault.
pub fn with(fault: Fault) -> Library {
    FAULT.store(fault as usize, Ordering::Relaxed);
    Library {
        open,
        call,
        run,
        layout,
    }
}

pub unsafe fn bytes<'a>(at: *const u8, len: usize) -> &'a [u8] {
    match len {
        0 => &[],
        _ => slice::from_raw_parts(at, len),
    }
}

unsafe extern "C" fn open(
    source: *const u8,
    source_len: usize,
    tree: *const u8,
    tree_len: usize,
    state: *mut u8,
    state_len: usize,
) -> u64 {
    let script = Script::new(
        bytes(source, source_len).to_vec(),
        bytes(tree, tree_len).to_vec(),
    );
    let want = reference::open(&script, state_len);
    match want.state {
        Some(new) => {
            let keep = (fault() == Fault::OpeningLeavesTheLastByte) as usize;
            state.copy_from(new.as_ptr(), STATE - keep);
        }
        None if fault() == Fault::OpeningTouchesWhereItRefuses && state_len > 0 => *state ^= 1,
        None => {}
    }
    want.answer
}

unsafe extern "C" fn call(
    source: *const u8,
    source_len: usize,
    tree: *const u8,
    tree_len: usize,
    state: *mut u8,
    state_len: usize,
    out: *mut u8,
    out_len: usize,
    record: *const u8,
    record_len: usize,
) -> u64 {
    let script = Script::new(
        bytes(source, source_len).to_vec(),
        bytes(tree, tree_len).to_vec(),
    );
    let lent = bytes(state, state_len);
    let want = served(&script, lent, out_len, bytes(record, record_len));
    if fault() == Fault::WritesIntoTheSource && source_len > 20 {
        *source.cast_mut() ^= 1;
    }
    let length = if state_len == STATE {
        word(lent, lent::LENGTH) as usize
    } else {
        0
    };
    match &want.state {
        Some(new) => {
            let back = length + want.written.len();
            out.wrapping_add(length)
                .copy_from(want.written.as_ptr(), want.written.len());
            state.copy_from(new.as_ptr(), STATE);
            match fault() {
                Fault::TouchesAByteBeyondTheNewLength if back < out_len => *out.add(back) = 0,
                // at the end of a page it would end the program
                Fault::WritesBesideTheState if (state as usize + STATE) % 4_096 != 0 => {
                    *state.add(STATE) = 0
                }
                _ => {}
            }
        }
        None => match fault() {
            Fault::TouchesTheBufferWhereItRefuses if length < out_len => *out.add(length) ^= 1,
            Fault::TouchesTheStateWhereItRefuses if state_len == STATE => *state.add(12) ^= 1,
            _ => {}
        },
    }
    want.answer
}

/// The reference's answer to a state that the fault may have changed, changed by
/// the fault once more.
fn served(script: &Script, lent: &[u8], out_len: usize, record: &[u8]) -> Want {
    let trim: fn(&str) -> &str = match fault() {
        Fault::TrimsThreeSorts => |text| text.trim_end_matches([' ', '\t', '\r']),
        _ => str::trim_end,
    };
    let mut state = lent.to_vec();
    if fault() == Fault::TakesAnyLengthOfState && lent.len() > STATE {
        state.truncate(STATE);
    }
    if state.len() == STATE {
        before(&mut state, script, record);
    }
    let mut want = reference::call_by(trim, script, &state, out_len, record);
    if state.len() == STATE {
        after(&mut want, &state, record);
    }
    if state.len() != lent.len() {
        want.state = None;
    }
    want
}

/// Faults in what is read.
fn before(state: &mut [u8], script: &Script, record: &[u8]) {
    let count = word(state, lent::COUNT) as usize;
    match fault() {
        Fault::BlockCommentPassesALineComment if record == [8] && count == 2 => {
            let (first, second) = (of_comment(0, 0) * 4, of_comment(1, 0) * 4);
            if word(state, of_comment(0, 3)) == 1 && word(state, of_comment(1, 3)) == 0 {
                let comment: Vec<u8> = state[first..first + 16].to_vec();
                state.copy_within(second..second + 16, first);
                state[second..second + 16].copy_from_slice(&comment);
            }
        }
        Fault::FinishDropsTheQueue if record == [11] => put_word(state, lent::COUNT, 0),
        Fault::LooksAtTheLastWord if word(state, lent::ZERO) != 0 => put_word(state, lent::WS, 7),
        Fault::LooksAtAFreeComment if count < 256 && word(state, of_comment(count, 3)) > 1 => {
            put_word(state, lent::WS, 7)
        }
        Fault::CutsTheIndentToAByte => {
            let low = word(state, lent::INDENT) & 0xFF;
            put_word(state, lent::INDENT, low);
        }
        Fault::Takes257 if count == 257 => put_word(state, lent::COUNT, 256),
        Fault::TakesASpanInsideACharacter if count > 0 => {
            let start = word(state, of_comment(0, 0)) as usize;
            let inside = script.source.get(start).is_some_and(|b| b & 0xC0 == 0x80);
            put_word(
                state,
                of_comment(0, 0),
                start.saturating_sub(inside as usize) as u32,
            );
        }
        Fault::TakesAFlagOfTwo if word(state, lent::WS) == 2 => put_word(state, lent::WS, 1),
        _ => {}
    }
}

/// Faults in what is answered.
fn after(want: &mut Want, old: &[u8], record: &[u8]) {
    let finished = word(old, lent::FINISHED) == 1;
    if fault() == Fault::CountsFinishedBeforeTheRecord && want.answer == 12 << 32 && finished {
        want.answer = 10 << 32 | word(old, lent::LENGTH) as u64;
    }
    if fault() == Fault::NamesTheRecordBehind && want.by == By::Call && want.answer >> 32 == 5 {
        want.answer += 1;
    }
    let Some(state) = &mut want.state else {
        return;
    };
    let lines = word(old, lent::LINES);
    match (fault(), record) {
        (Fault::NlStoresAtMostTwo, [7, n]) if *n > 2 && lines == 0 => {
            put_word(state, lent::LINES, 2)
        }
        (Fault::NlOverwritesACount, [7, n]) if *n > 0 => put_word(state, lent::LINES, *n as u32),
        (Fault::LitClearsTheLines, [4, _]) => put_word(state, lent::LINES, 0),
        (Fault::LeavesAFreeCommentBehind, _) => {
            let count = word(state, lent::COUNT) as usize;
            if count < word(old, lent::COUNT) as usize {
                put_word(state, of_comment(count, 1), 1);
            }
        }
        _ => {}
    }
}
