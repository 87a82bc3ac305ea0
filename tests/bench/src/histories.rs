//! Histories of calls from the oracle's generators. None is refused, and both
//! sides give the same bytes.
use oracle::alloc;
use oracle::call::Call;
use oracle::case;
use oracle::engine::Engine;
use oracle::gen::{self, Rng};
use oracle::opening;
use oracle::Diagnostics;

use crate::exported;
use crate::rust::{self, record_len};
use crate::trees;

/// A buffer length that is always enough.
pub const ROOM: usize = 1 << 20;

pub struct History {
    pub source: Vec<u8>,
    pub tree: Vec<u8>,
    pub records: Vec<u8>,
    pub calls: usize,
}

impl History {
    pub fn text(&self) -> &str {
        std::str::from_utf8(&self.source).unwrap()
    }

    pub fn new(source: Vec<u8>, tree: Vec<u8>, records: Vec<u8>) -> Self {
        let (mut calls, mut at) = (0, 0);
        while at < records.len() {
            at += record_len(records[at]);
            calls += 1;
        }
        Self {
            source,
            tree,
            records,
            calls,
        }
    }

    /// Both sides give the same bytes.
    fn agrees(&self) -> bool {
        let mut out = vec![0; ROOM];
        let mut buffer = alloc::String::with_cap(ROOM);
        let tree = rust::tree(&self.tree);
        let len = rust::calls(self.text(), &tree, &mut buffer, &self.records);
        let len = len.expect("no refusal") as u64;
        let same = exported::calls(&self.source, &self.tree, &mut out, &self.records) == len;
        same && out[..len as usize] == *buffer.text.as_bytes()
    }
}

/// The calls of whole layouts of a family's programs, of at least so many calls.
pub fn layouts(family: &str, seed: u64, count: usize, calls: usize) -> Vec<History> {
    let mut found = vec![];
    for i in 0.. {
        if found.len() == count {
            break;
        }
        let case = gen::make(family, seed, i).expect("a family");
        let outcome = case::run(&case);
        if !outcome.refusals.is_empty() {
            continue;
        }
        let history = History::new(case.source, case.tree, outcome.trace);
        if history.calls >= calls {
            assert!(history.agrees(), "{family} {i}");
            found.push(history);
        }
    }
    found
}

/// Random calls over small trees, `n` offered to each: those that would be refused
/// or leave 8 levels of indent are left out.
pub fn random(seed: u64, count: usize, n: usize) -> Vec<History> {
    let rng = &mut Rng::new(seed);
    let mut found = vec![];
    while found.len() < count {
        let (source, records) = gen::small_tree(rng, false);
        let tree = opening::join(&records);
        let offered = gen::history(rng, records.len(), n, 0);
        let kept = kept(&source, &tree, &offered);
        let history = History::new(source.into_bytes(), tree, kept);
        assert!(history.agrees(), "a random history");
        found.push(history);
    }
    found
}

/// 400 line comments let out by line releases, by what they end in.
pub fn trimmed() -> Vec<(&'static str, History)> {
    let ends = [
        ("no blank", String::new()),
        ("one space", " ".into()),
        ("one U+3000", "\u{3000}".into()),
        ("40 spaces", " ".repeat(40)),
        ("40 of U+3000", "\u{3000}".repeat(40)),
    ];
    let history = |(name, end): (&'static str, String)| {
        let (source, tree) = trees::remarks(400, &end);
        let calls = (0..400).flat_map(|i| [Call::WriteOwned(i * 3).encode(), Call::Nl(1).encode()]);
        let history = History::new(source, tree, calls.collect::<Vec<_>>().concat());
        assert!(history.agrees(), "{name}");
        (name, history)
    };
    ends.into_iter().map(history).collect()
}

fn kept(source: &str, tree: &[u8], offered: &[Vec<u8>]) -> Vec<u8> {
    let tree = rust::tree(tree);
    let (mut buffer, mut diagnostics) = (alloc::String::with_cap(ROOM / 2), Diagnostics);
    let mut engine = Engine::new(source, &tree, &mut buffer, &mut diagnostics);
    let mut kept = vec![];
    for record in offered {
        if let Some(Call::Indent(d)) = Call::decode(record) {
            if engine.state().indent as i64 + d as i64 > 8 {
                continue;
            }
        }
        if engine.call(record).is_ok() {
            kept.extend(record);
        }
    }
    kept
}

/// Each call by itself, some thousand times over tokens of four letters with a
/// space between: no comment waits.
pub fn single() -> Vec<(&'static str, History)> {
    let (source, tree) = trees::words(2048);
    let each = |f: &dyn Fn(u32) -> Call| {
        let calls = (0..2048).map(|i| f(i * 2).encode());
        History::new(
            source.clone(),
            tree.clone(),
            calls.collect::<Vec<_>>().concat(),
        )
    };
    vec![
        ("write_owned", each(&|i| Call::WriteOwned(i))),
        ("write_raw", each(&|i| Call::WriteRaw(i))),
        ("ignore", each(&|i| Call::Ignore(i))),
        ("lit", each(&|i| Call::Lit((i / 2 % 8) as u8))),
        ("comments", each(&|i| Call::Comments((i / 2 % 4) as u8))),
        (
            "indent",
            each(&|i| Call::Indent(if i % 4 == 0 { 1 } else { -1 })),
        ),
        ("nl", each(&|_| Call::Nl(1))),
        ("ws", each(&|_| Call::Ws)),
        (
            "flush_whitespace",
            each(&|i| Call::FlushWhitespace(i % 4 == 0)),
        ),
    ]
}
