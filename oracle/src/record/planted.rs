//! Histories of one call with one number or byte of what is recorded wrong: a
//! program that replays them must find each, in that part and in no other.
use super::history::{History, Recorded};
use super::put_u32;
use crate::grammar::Rec;

/// One name is written, and the comment behind it waits.
fn history() -> History {
    let records = [Rec::new(3, 0, 1, 0), Rec::new(2, 1, 6, 0)];
    History {
        sort: "planted",
        source: "a/*k*/".into(),
        tree: records.into(),
        cap: Some(8),
        steps: vec![vec![1, 0, 0, 0, 0]],
        runs: false,
    }
}

// Where the parts stand, seen from the record's end: a comment of four words and
// one byte of output are the last of it.
const OUTPUT: usize = 1;
const COMMENT: usize = OUTPUT + 16;
const WORDS: usize = COMMENT + 32;
const ANSWER: usize = WORDS + 8;

/// The file's bytes; prints how many are wrong in each part.
pub fn record() -> Vec<u8> {
    let mut recorded = Recorded::default();
    recorded.add(&history(), &mut |_| ());
    let right = recorded.file()[4..].to_vec();
    let at = |back: usize| right.len() - back;
    let one_more = |place: usize| {
        let mut wrong = right.clone();
        wrong[place] += 1;
        wrong
    };
    // the place, and the number
    let answers = [0, 4].map(|i| one_more(at(ANSWER) + i)).to_vec();
    // lines, use_lines, ws, indent, finished
    let mut states = [1, 2, 3, 4, 5]
        .map(|i| one_more(at(WORDS) + i * 4))
        .to_vec();
    // a length with the byte that stands behind the output, a comment that is zero
    let mut longer = one_more(at(WORDS));
    longer.push(0xEE);
    let mut waiting = one_more(at(WORDS) + 6 * 4);
    waiting.splice(at(OUTPUT)..at(OUTPUT), [0; 16]);
    states.extend([longer, waiting]);
    let queues = [0, 1, 2, 3].map(|i| one_more(at(COMMENT) + i * 4)).to_vec();
    let outputs = vec![one_more(at(OUTPUT))];
    // `zeroed`
    let rests = vec![one_more(at(WORDS) + 7 * 4)];
    let parts = [answers, states, queues, outputs, rests];
    println!(
        "wrong answers, states, queues, outputs, rests: {:?}",
        parts.each_ref().map(Vec::len)
    );
    let all = parts.concat();
    let mut file = vec![];
    put_u32(&mut file, all.len());
    file.extend(all.concat());
    file
}
