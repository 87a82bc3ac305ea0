//! Each table: the proved code, the Rust, and how many times the Rust's time the
//! proved code takes.
use oracle::alloc;
use oracle::opening;

use crate::clock::least;
use crate::histories::{self, History, ROOM};
use crate::texts::SIZE;
use crate::{exported, rust, texts, trees};

const ROUNDS: u32 = 1000;

fn head(title: &str, unit: &str) {
    println!("\n{title}\n");
    println!(
        "| {:44} | {:>12} | {:>12} | ratio |",
        unit, "proved", "Rust"
    );
    println!(
        "|{}|{}|{}|{}|",
        "-".repeat(46),
        "-".repeat(14),
        "-".repeat(14),
        "-".repeat(7)
    );
}

fn row(name: &str, ours: f64, theirs: f64) {
    println!(
        "| {name:44} | {ours:12.1} | {theirs:12.1} | {:5.2} |",
        ours / theirs
    );
}

/// The UTF-8 check and the count of characters outside White_Space.
pub fn texts() {
    head("Text, 64 KiB", "ns a text");
    for (name, text) in texts::all() {
        let bytes = text.as_bytes();
        assert_eq!(exported::utf8(bytes), u64::MAX);
        let best = least(
            ROUNDS,
            &mut [&mut || exported::utf8(bytes), &mut || {
                std::str::from_utf8(std::hint::black_box(bytes)).is_ok() as u64
            }],
        );
        row(&format!("UTF-8 check, {name}"), best[0], best[1]);
    }
    for (name, text) in texts::all() {
        let theirs = |s: &str| s.chars().filter(|c| !c.is_whitespace()).count() as u64;
        assert_eq!(exported::count(text.as_bytes(), u32::MAX), theirs(&text));
        let best = least(
            ROUNDS,
            &mut [
                &mut || exported::count(text.as_bytes(), u32::MAX),
                &mut || theirs(std::hint::black_box(&text)),
            ],
        );
        row(
            &format!("count outside White_Space, {name}"),
            best[0],
            best[1],
        );
    }
}

fn opening_row(name: &str, source: &[u8], tree: &[u8]) {
    assert_eq!(exported::open(source, tree), 0);
    assert!(opening::open(source, tree).is_ok());
    let best = least(
        ROUNDS,
        &mut [&mut || exported::open(source, tree), &mut || {
            opening::open(source, tree).is_ok() as u64
        }],
    );
    row(name, best[0], best[1]);
}

/// Opening: the source's check, then the tree's.
pub fn opening() {
    head("Opening, 64 KiB and 8,192 records", "ns an opening");
    let source = trees::letters(SIZE);
    opening_row("records side by side", &source, &trees::flat(SIZE, 8192));
    for depth in [16, 64] {
        let name = format!("records in chains of depth {depth}");
        opening_row(&name, &source, &trees::chains(SIZE, 8192, depth));
    }
    let program = &histories::layouts("big", 1, 1, 1)[0];
    opening_row("a generated program", &program.source, &program.tree);
}

/// All histories once, on each side. Nanoseconds a call: by the calls alone, and
/// with the tree read from its bytes.
fn measured(list: &[History]) -> [(f64, f64); 2] {
    let total: usize = list.iter().map(|h| h.calls).sum();
    let trees: Vec<_> = list.iter().map(|h| rust::tree(&h.tree)).collect();
    let (mut out, mut out2) = (vec![0; ROOM], vec![0; ROOM]);
    let mut buffer = alloc::String::with_cap(ROOM);
    let mut buffer2 = alloc::String::with_cap(ROOM);
    let best = least(
        ROUNDS,
        &mut [
            &mut || {
                let one = |h: &History| exported::calls(&h.source, &h.tree, &mut out, &h.records);
                list.iter().map(one).sum()
            },
            &mut || {
                let one = |h: &History| exported::calls(&h.source, &h.tree, &mut out2, &[]);
                list.iter().map(one).sum()
            },
            &mut || {
                let mut sum = 0;
                for h in list {
                    let tree = rust::tree(&h.tree);
                    sum += rust::calls(h.text(), &tree, &mut buffer, &h.records).unwrap();
                }
                sum as u64
            },
            &mut || {
                let mut sum = 0;
                for (h, tree) in list.iter().zip(&trees) {
                    sum += rust::calls(h.text(), tree, &mut buffer2, &h.records).unwrap();
                }
                sum as u64
            },
        ],
    );
    let a_call = |ns: f64| ns / total as f64;
    [
        (a_call(best[0] - best[1]), a_call(best[3])),
        (a_call(best[0]), a_call(best[2])),
    ]
}

fn calls_rows(name: &str, list: &[History]) {
    let total: usize = list.iter().map(|h| h.calls).sum();
    let [alone, whole] = measured(list);
    row(&format!("{name}, {total} calls"), alone.0, alone.1);
    row("  and the tree from its bytes", whole.0, whole.1);
}

/// Each call by itself.
pub fn single() {
    head("Each call by itself, no comment waiting", "ns a call");
    for (name, history) in histories::single() {
        let [alone, _] = measured(std::slice::from_ref(&history));
        row(name, alone.0, alone.1);
    }
}

/// A token with a line comment behind it, and the line release that lets it out.
pub fn trimmed() {
    head("Line comments, by what they end in", "ns a call");
    for (name, history) in histories::trimmed() {
        let [alone, _] = measured(std::slice::from_ref(&history));
        row(name, alone.0, alone.1);
    }
}

/// Calls beside the Rust's own `Formatter`.
pub fn calls() {
    head("Engine calls", "ns a call");
    calls_rows(
        "layouts of 4 large programs",
        &histories::layouts("big", 1, 4, 1),
    );
    calls_rows(
        "layouts of 40 programs",
        &histories::layouts("layout", 1, 40, 300),
    );
    calls_rows("20 random histories", &histories::random(1, 20, 2000));
}
