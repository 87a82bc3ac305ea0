//! What `savetnuok_why` must answer. Whether a list goes over several lines is read
//! off the calls that rune's format.rs makes for it; the reason and its place come
//! from counting the list's characters and records one by one.
use oracle::call::Step;
use oracle::grammar::{Rec, Tree};
use oracle::refusal::Refusal;
use oracle::state::State;

use crate::reference::Script;
use crate::rules;

pub const WIDE: u64 = 101;
pub const COMMENT: u64 = 102;
pub const SIXTH: u64 = 103;

const CALL: u8 = 0xE6;
const ARRAY: u8 = 0xC3;
const OBJECT: u8 = 0xC5;
const PATH: u8 = 0xB0;
const ANON_KEY: u8 = 0x09;
const LINE_COMMENT: u8 = 0x01;

/// A stand-in's fault: the comparison must find each.
#[derive(Debug, Clone, Copy, PartialEq, Eq)]
pub enum Fault {
    None,
    NamesThe80th,
    NamesTheByteBehind,
    CountsTheName,
    TakesABlockComment,
    TakesADeepComment,
    TakesACommentBeforeTheName,
    AsksForTheWidthLast,
    TakesTheLastReason,
    SaysNoneOfSix,
    TakesATuple,
    AsksForTheKindFirst,
}

pub const FAULTS: [Fault; 12] = [
    Fault::None,
    Fault::NamesThe80th,
    Fault::NamesTheByteBehind,
    Fault::CountsTheName,
    Fault::TakesABlockComment,
    Fault::TakesADeepComment,
    Fault::TakesACommentBeforeTheName,
    Fault::AsksForTheWidthLast,
    Fault::TakesTheLastReason,
    Fault::SaysNoneOfSix,
    Fault::TakesATuple,
    Fault::AsksForTheKindFirst,
];

/// The reasons that hold of a node, each by itself, with number and place.
pub struct Reasons {
    pub wide: Option<u64>,
    /// those of its records, in their order
    pub crowd: Vec<u64>,
}

pub struct Told {
    pub answer: u64,
    pub reasons: Option<Reasons>,
    /// loose or compact, as far as the Rust came to decide it
    pub by_rust: Option<bool>,
}

fn with_place(number: u64, place: usize) -> u64 {
    number << 32 | place as u64
}

fn children(records: &[Rec], node: usize) -> Vec<usize> {
    let end = node + 1 + records[node].below as usize;
    let (mut at, mut all) = (node + 1, vec![]);
    while at < end {
        all.push(at);
        at += 1 + records[at].below as usize;
    }
    all
}

/// The children without white space and comments.
fn kept(records: &[Rec], node: usize) -> Vec<usize> {
    let all = children(records, node).into_iter();
    all.filter(|k| !records[*k].is_trivia()).collect()
}

/// The 81st character outside white space.
fn wide(text: &str, r: &Rec, fault: Fault) -> Option<u64> {
    let span = &text[r.start as usize..r.end as usize];
    let dark = || span.char_indices().filter(|(_, c)| !c.is_whitespace());
    let (at, c) = dark().nth(80)?;
    let at = match fault {
        Fault::NamesThe80th => dark().nth(79)?.0,
        Fault::NamesTheByteBehind => at + c.len_utf8(),
        _ => at,
    };
    Some(with_place(WIDE, r.start as usize + at))
}

/// Line comments, and the sixth entry, as they stand.
fn crowd(records: &[Rec], node: usize, name: Option<usize>, fault: Fault) -> Vec<u64> {
    let (mut found, mut entries) = (vec![], 0);
    let behind = match fault {
        Fault::TakesACommentBeforeTheName => None,
        _ => name,
    };
    let shown = match fault {
        Fault::TakesADeepComment => (node + 1..node + 1 + records[node].below as usize).collect(),
        _ => children(records, node),
    };
    for k in shown {
        let entry = match name {
            Some(n) => records[k].kind == 0x08 || fault == Fault::CountsTheName && k == n,
            None => [0x96, 0x97].contains(&records[k].kind),
        };
        entries += entry as usize;
        if entry && entries == 6 {
            found.push(with_place(SIXTH, k));
        }
        let comment = match fault {
            Fault::TakesABlockComment => [1, 2].contains(&records[k].kind),
            _ => records[k].kind == LINE_COMMENT,
        };
        if comment && behind.is_none_or(|n| k > n) {
            found.push(with_place(COMMENT, k));
        }
    }
    found
}

/// Width first, then what the records reach first.
fn answer(reasons: &Reasons, fault: Fault) -> u64 {
    let of_records = match fault {
        Fault::TakesTheLastReason => reasons.crowd.last(),
        _ => reasons.crowd.first(),
    };
    let first = match fault {
        Fault::AsksForTheWidthLast => of_records.copied().or(reasons.wide),
        _ => reasons.wide.or(of_records.copied()),
    };
    match first.unwrap_or(0) {
        sixth if fault == Fault::SaysNoneOfSix && sixth >> 32 == SIXTH => 0,
        reason => reason,
    }
}

/// Right behind the opening token a loose list has `nl(1)`, and a compact one never.
fn by_rust(text: &str, tree: &Tree, node: usize, opening: usize) -> Option<bool> {
    let plan = rules::plan(text, tree, &State::default(), Step::Run(node as u32));
    let mut written = vec![0x01];
    written.extend((opening as u32).to_le_bytes());
    let at = plan.calls.iter().position(|call| *call == written)?;
    plan.calls.get(at + 1).map(|call| call[..] == [0x07, 1])
}

fn refused(no: u8, place: usize) -> Told {
    Told {
        answer: Refusal::new(no, place as u32).packed(),
        reasons: None,
        by_rust: None,
    }
}

pub fn why(script: &Script, node: u32, fault: Fault) -> Told {
    let Some((text, tree)) = script.good() else {
        let r = script.refusal().expect("a script that is refused");
        return refused(r.no, r.place as usize);
    };
    let (records, node) = (&tree.records[..], node as usize);
    let Some(r) = records.get(node) else {
        return refused(
            if fault == Fault::AsksForTheKindFirst {
                9
            } else {
                11
            },
            node,
        );
    };
    let inside = kept(records, node);
    let (name, opening) = match r.kind {
        CALL | ARRAY => (None, inside.first()),
        OBJECT => match inside.first() {
            Some(n) if [PATH, ANON_KEY].contains(&records[*n].kind) => (Some(*n), inside.get(1)),
            Some(n) => return refused(8, *n),
            None => return refused(8, node),
        },
        0xC4 if fault == Fault::TakesATuple => (None, None),
        _ => return refused(9, node),
    };
    let reasons = Reasons {
        wide: wide(text, r, fault),
        crowd: crowd(records, node, name, fault),
    };
    let decided = |opening: &usize| by_rust(text, tree, node, *opening);
    Told {
        answer: answer(&reasons, fault),
        by_rust: match fault {
            Fault::None => opening.and_then(decided),
            _ => None,
        },
        reasons: Some(reasons),
    }
}
