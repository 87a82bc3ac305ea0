//! The histories that are recorded. Their trees use kinds by number, so that they
//! don't change with kinds.txt: 00 white space, 01 and 02 comments, 03 a token.
mod counts;
mod queues;
mod refused;
mod releases;
mod texts;

use crate::call::Call;
use crate::record::history::History;
use crate::sx;

pub fn all() -> Vec<History> {
    let mut all = vec![];
    releases::sessions(&mut all);
    releases::each(&mut all);
    releases::two(&mut all);
    releases::on_empty_output(&mut all);
    releases::trimming(&mut all);
    counts::flushes(&mut all);
    counts::literals(&mut all);
    counts::indents(&mut all);
    counts::lines(&mut all);
    queues::collecting(&mut all);
    queues::sizes(&mut all);
    queues::rooms(&mut all);
    refused::nodes(&mut all);
    refused::records(&mut all);
    refused::finished(&mut all);
    texts::other_characters(&mut all);
    texts::random(&mut all);
    all
}

fn encode(calls: &[Call]) -> Vec<Vec<u8>> {
    calls.iter().map(|c| c.encode()).collect()
}

/// A history over a tree in the words of sx.rs.
fn history(sort: &'static str, tree: &str, calls: &[Call]) -> History {
    let (source, records) = sx::build(tree);
    History {
        sort,
        source: source.as_str().into(),
        tree: records.into(),
        cap: None,
        steps: encode(calls),
        runs: false,
    }
}

/// The number of the last record.
fn last_of(tree: &str) -> u32 {
    sx::build(tree).1.len() as u32 - 1
}

/// Every call that may let comments out.
const RELEASES: [Call; 7] = [
    Call::Nl(1),
    Call::Ws,
    Call::Comments(0),
    Call::Comments(1),
    Call::Comments(2),
    Call::Comments(3),
    Call::Finish,
];
