//! Whole layouts beside the Rust's: the rules alone, and all that a public layout does
//! beside the Rust with the oracle's opening checks in front.
use oracle::{alloc, opening};

use crate::clock::least;
use crate::exported::{self, public_layout, STATE};
use crate::histories::ROOM;
use crate::public::times;
use crate::rust;
use crate::scripts::{self, Script};

const ROUNDS: u32 = 200;
/// So many scripts of each size.
const SCRIPTS: usize = 4;

/// A whole layout on a state of zeroes, which is a fresh engine: the output's length.
/// The function checks all that it is lent, so that nothing opens before it.
fn layout(s: &Script, out: &mut [u8]) -> u64 {
    let mut state = [0; STATE];
    assert_eq!(public_layout(&s.source, &s.tree, &mut state, out), 0);
    u32::from_le_bytes(state[..4].try_into().unwrap()) as u64
}

/// The rules alone, the public function and the Rust give the same bytes, and the first
/// two leave zeroes behind them.
fn compare(s: &Script) {
    let (mut out, mut out2) = (vec![0; ROOM], vec![0; ROOM]);
    let mut buffer = alloc::String::with_cap(ROOM);
    let len = rust::layout(s.text(), &rust::tree(&s.tree), &mut buffer).expect("no refusal");
    let alone = exported::layouts(&s.source, &s.tree, &mut out, 1);
    assert_eq!(alone, len as u64);
    assert_eq!(layout(s, &mut out2), len as u64);
    assert_eq!(out[..len], *buffer.text.as_bytes());
    assert!(out[len..].iter().all(|b| *b == 0));
    assert_eq!(out, out2);
}

/// Nanoseconds of the rules alone, of the Rust's with its tree ready, of all that a
/// public layout does, and of the Rust's with the opening checks.
fn measured(s: &Script) -> [f64; 4] {
    let tree = rust::tree(&s.tree);
    let times = times(s.records);
    let (mut out, mut out2) = (vec![0; ROOM], vec![0; ROOM]);
    let mut buffer = alloc::String::with_cap(ROOM);
    let mut buffer2 = alloc::String::with_cap(ROOM);
    let best = least(
        ROUNDS,
        &mut [
            &mut || exported::layouts(&s.source, &s.tree, &mut out, times),
            &mut || rust::layout(s.text(), &tree, &mut buffer).unwrap() as u64,
            &mut || layout(s, &mut out2),
            &mut || {
                let tree = opening::open(&s.source, &s.tree).unwrap();
                rust::layout(s.text(), &tree, &mut buffer2).unwrap() as u64
            },
        ],
    );
    [best[0] / f64::from(times), best[1], best[2], best[3]]
}

fn row(scripts: &[Script]) {
    let mean = |n: usize| n / scripts.len();
    let bytes = mean(scripts.iter().map(|s| s.source.len()).sum());
    let records = mean(scripts.iter().map(|s| s.records).sum());
    let mut sum = [0.0; 4];
    for s in scripts {
        let best = measured(s);
        (0..4).for_each(|i| sum[i] += best[i] / scripts.len() as f64);
    }
    let [rules, theirs, whole, opened] = sum;
    println!(
        "| {bytes:6} | {records:7} | {rules:9.0} | {theirs:8.0} | {:5.2} | {whole:14.0} | {opened:17.0} | {:5.2} |",
        rules / theirs,
        whole / opened
    );
}

/// Means of a few scripts of each size. tests/bench/plot reads the rows.
pub fn table() {
    println!("\nWhole layouts\n");
    println!("| bytes  | records | rules, ns | Rust, ns | ratio | everything, ns | Rust, opening, ns | ratio |");
    println!("|--------|---------|-----------|----------|-------|----------------|-------------------|-------|");
    for kib in [1, 2, 4, 8, 16, 32, 64] {
        let scripts = scripts::all(kib * 1024, SCRIPTS);
        scripts.iter().for_each(compare);
        row(&scripts);
    }
}

/// Mean nanoseconds a script of all that a public layout does, and of the Rust's with the
/// opening checks. A turn goes over all scripts, so that none is laid out whose branches
/// the processor has just learnt.
fn in_turn(scripts: &[Script]) -> [f64; 2] {
    let mut out = vec![0; ROOM];
    let mut buffer = alloc::String::with_cap(ROOM);
    let mut opened = |s: &Script| {
        let tree = opening::open(&s.source, &s.tree).unwrap();
        rust::layout(s.text(), &tree, &mut buffer).unwrap() as u64
    };
    let best = least(
        ROUNDS,
        &mut [
            &mut || scripts.iter().map(|s| layout(s, &mut out)).sum(),
            &mut || scripts.iter().map(&mut opened).sum(),
        ],
    );
    [
        best[0] / scripts.len() as f64,
        best[1] / scripts.len() as f64,
    ]
}

/// Many scripts of each size, one behind the other.
pub fn turns() {
    println!("\nWhole layouts, sixteen scripts in turn\n");
    println!("| bytes  | everything, ns | Rust, opening, ns | ratio |");
    println!("|--------|----------------|-------------------|-------|");
    for kib in [1, 2, 4, 8, 16, 32, 64] {
        let scripts = scripts::all(kib * 1024, 16);
        let bytes = scripts.iter().map(|s| s.source.len()).sum::<usize>() / scripts.len();
        let [whole, opened] = in_turn(&scripts);
        println!(
            "| {bytes:6} | {whole:14.0} | {opened:17.0} | {:5.2} |",
            whole / opened
        );
    }
}
