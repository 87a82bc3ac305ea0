//! Recorded histories of calls.
use std::collections::BTreeSet;

use super::histories;
use super::history::{Made, Recorded};
use crate::call::{Call, Step};

/// The file's bytes; prints how many histories of each sort they hold.
pub fn record() -> Vec<u8> {
    let mut recorded = Recorded::default();
    let mut reach = Reach::default();
    for history in histories::all() {
        recorded.add(&history, &mut |made| reach.note(made));
    }
    let bytes = recorded.file();
    println!(
        "{} histories, {} calls, {} bytes",
        recorded.histories,
        recorded.steps,
        bytes.len()
    );
    recorded.sorts.show();
    reach.show();
    assert!(bytes.len() < 1_000_000, "the file grew too large");
    bytes
}

/// What the histories reach, so that a sort that is lost is noticed.
#[derive(Default)]
struct Reach {
    /// calls that succeeded, without the numbers of nodes and lines
    done: BTreeSet<String>,
    refusals: BTreeSet<u64>,
    queues: BTreeSet<usize>,
}

impl Reach {
    fn note(&mut self, made: &Made) {
        self.queues.insert(made.state.queue.len());
        if made.answer != 0 {
            self.refusals.insert(made.answer >> 32);
            return;
        }
        let Step::Call(record) = made.step else {
            unreachable!("these histories hold calls only");
        };
        let name = match Call::decode(record).expect("a good record") {
            Call::WriteOwned(_) => "write_owned".into(),
            Call::WriteRaw(_) => "write_raw".into(),
            Call::Ignore(_) => "ignore".into(),
            Call::Indent(_) => "indent".into(),
            Call::Nl(_) => "nl".into(),
            call => format!("{call:?}"),
        };
        self.done.insert(name);
    }

    fn show(&self) {
        // 5 calls named above, 8 literals, 4 hints, 2 flushes, and 3 more
        assert_eq!(self.done.len(), 22, "a call is missing");
        assert!(self.refusals.iter().eq(&[4, 5, 6, 10, 11, 12]));
        for n in [0, 1, 255, 256] {
            assert!(self.queues.contains(&n), "no queue of {n}");
        }
        println!("  every call, hint and literal is done at least once");
        println!("  refusals: {:?}", self.refusals);
        println!("  waiting: 0, 1, 255, 256 and others");
    }
}
