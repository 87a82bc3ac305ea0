//! What a public call costs, which checks anew all that is lent, and how that
//! grows with the source, the records and the queue.
use oracle::alloc;

use crate::clock::least;
use crate::exported::{self, public_call, public_open, public_run, STATE};
use crate::histories::{self, History, ROOM};
use crate::rust::{self, record_len};
use crate::texts::{self, SIZE};
use crate::{nodes, trees};

const ROUNDS: u32 = 200;

/// The first calls of a history, each through the public function: the output's
/// length.
fn replay(h: &History, calls: usize, out: &mut [u8]) -> u64 {
    let mut state = [0; STATE];
    assert_eq!(public_open(&h.source, &h.tree, &mut state), 0);
    let mut at = 0;
    for _ in 0..calls.min(h.calls) {
        let end = at + record_len(h.records[at]);
        let answer = public_call(&h.source, &h.tree, &mut state, out, &h.records[at..end]);
        assert_eq!(answer, 0);
        at = end;
    }
    u32::from_le_bytes(state[..4].try_into().unwrap()) as u64
}

/// Public calls beside the calls alone, on scripts of three sizes.
pub fn calls() {
    println!("\nA public call, beside the call alone\n");
    println!("| script                                       | call alone, ns | public call, ns |");
    println!("|----------------------------------------------|----------------|-----------------|");
    let mut scripts = histories::layouts("focus", 3, 1, 20);
    scripts.extend(histories::layouts("layout", 1, 1, 300));
    scripts.extend(histories::layouts("big", 1, 1, 1));
    for h in &scripts {
        let (mut out, mut out2, mut out3) = (vec![0; ROOM], vec![0; ROOM], vec![0; ROOM]);
        let all = exported::calls(&h.source, &h.tree, &mut out, &h.records);
        if h.calls < 1000 {
            assert_eq!(replay(h, h.calls, &mut out2), all);
            assert_eq!(out, out2);
        }
        let some = h.calls.min(200);
        let best = least(
            ROUNDS,
            &mut [
                &mut || exported::calls(&h.source, &h.tree, &mut out, &h.records),
                &mut || exported::calls(&h.source, &h.tree, &mut out2, &[]),
                &mut || replay(h, some, &mut out3),
            ],
        );
        let records = rust::tree(&h.tree).records.len();
        let name = format!("{} bytes, {records} records", h.source.len());
        let alone = (best[0] - best[1]) / h.calls as f64;
        println!(
            "| {name:44} | {alone:14.1} | {:15.0} |",
            best[2] / some as f64
        );
    }
}

/// Nanoseconds of a call that changes nothing, `indent` by 0: all that is left is
/// what checking and decoding cost.
fn idle(source: &[u8], tree: &[u8], waiting: usize) -> f64 {
    let mut state = [0u8; STATE];
    state[24..28].copy_from_slice(&(waiting as u32).to_le_bytes());
    for i in 0..waiting {
        // a block comment of one byte
        state[32 + i * 16 + 4] = 1;
    }
    let before = state;
    let mut out = [0u8; 64];
    let best = least(
        ROUNDS,
        &mut [&mut || {
            let answer = public_call(source, tree, &mut state, &mut out, &[6, 0]);
            assert_eq!(answer, 0);
            answer
        }],
    );
    assert_eq!(state, before);
    best[0]
}

fn rows(title: &str, unit: &str, sizes: &[usize], cost: impl Fn(usize) -> f64) {
    println!("\n| {title:44} | public call, ns | ns more a {unit:7} |");
    println!(
        "|----------------------------------------------|-----------------|-------------------|"
    );
    let mut last: Option<(usize, f64)> = None;
    for &n in sizes {
        let ns = cost(n);
        let slope = last.map(|(m, was)| (ns - was) / (n - m) as f64);
        let slope = slope.map_or(String::new(), |s| format!("{s:.2}"));
        println!("| {n:>44} | {ns:15.0} | {slope:>17} |");
        last = Some((n, ns));
    }
}

/// How a public call's cost grows: by a fixed amount for each byte, record and
/// waiting comment.
pub fn growth() {
    println!("\nA public call that changes nothing: what checking anew costs");
    let kib: Vec<usize> = [1, 2, 4, 8, 16, 32, 64].iter().map(|k| k * 1024).collect();
    rows(
        "bytes of source, mixed text; no record",
        "byte",
        &kib,
        |n| idle(texts::mixed(n).as_bytes(), &[], 0),
    );
    let counts = [64, 128, 256, 512, 1024, 2048, 4096, 8192];
    rows(
        "records side by side; 64 KiB of letters",
        "record",
        &counts,
        |n| idle(&trees::letters(SIZE), &trees::flat(SIZE, n), 0),
    );
    rows("records in chains of depth 64", "record", &counts, |n| {
        idle(&trees::letters(SIZE), &trees::chains(SIZE, n, 64), 0)
    });
    let waiting = [0, 1, 2, 4, 8, 16, 32, 64, 128, 256];
    rows(
        "comments waiting; 64 bytes, no record",
        "comment",
        &waiting,
        |n| idle(&trees::letters(64), &[], n),
    );
}

/// A run on record 0 of a fresh engine: the output's length.
fn run(source: &[u8], tree: &[u8], out: &mut [u8]) -> u64 {
    let mut state = [0; STATE];
    assert_eq!(public_run(source, tree, &mut state, out, 0), 0);
    u32::from_le_bytes(state[..4].try_into().unwrap()) as u64
}

/// How many runs or layouts are made over one decoded tree of so many records; the
/// decoding is shared out among them.
pub fn times(records: usize) -> u32 {
    (262_144 / records as u32).clamp(16, 256)
}

/// Runs beside the Rust's on the same node: the rule alone, and all that a public
/// run does.
pub fn runs() {
    println!("\nA layout run\n");
    println!("| node                                         | proved, ns |   Rust, ns | ratio | public run, ns |");
    println!("|----------------------------------------------|------------|------------|-------|----------------|");
    for (name, source, tree) in nodes::all() {
        let text = std::str::from_utf8(&source).unwrap();
        let records = rust::tree(&tree);
        let mut buffer = alloc::String::with_cap(ROOM);
        let (mut out, mut out2) = (vec![0; ROOM], vec![0; ROOM]);
        let len = rust::run(text, &records, &mut buffer).expect("no refusal");
        assert_eq!(run(&source, &tree, &mut out), len as u64);
        assert_eq!(out[..len], *buffer.text.as_bytes());
        assert_eq!(exported::runs(&source, &tree, &mut out2, 0, 1), len as u64);
        assert_eq!(out2[..len], *buffer.text.as_bytes());
        let times = times(records.records.len());
        let best = least(
            ROUNDS,
            &mut [
                &mut || exported::runs(&source, &tree, &mut out2, 0, times),
                &mut || run(&source, &tree, &mut out),
                &mut || rust::run(text, &records, &mut buffer).unwrap() as u64,
            ],
        );
        let (alone, theirs) = (best[0] / f64::from(times), best[2]);
        println!(
            "| {name:44} | {alone:10.0} | {theirs:10.0} | {:5.2} | {:14.0} |",
            alone / theirs,
            best[1]
        );
    }
}
