//! `oracle bench`: how long the Rust takes for a whole layout.
use std::hint::black_box;
use std::time::Instant;

use crate::alloc;
use crate::case::ROOM;
use crate::engine::refusal;
use crate::fmt::Formatter;
use crate::grammar::Tree;
use crate::{opening, Diagnostics};

pub fn bench(source: &[u8], tree: &[u8], rounds: usize) {
    let text = opening::check_source(source).expect("a good source");
    let ready = opening::open(source, tree).expect("a good tree");
    let records = ready.records.len();
    let mut buffer = alloc::String::with_cap(ROOM);
    let output = layout(text, &ready, &mut buffer);
    println!(
        "source {} bytes, {records} records, output {output} bytes, {rounds} rounds",
        source.len()
    );
    let mut show = |name: &str, job: &mut dyn FnMut(&mut alloc::String) -> usize| {
        let (best, mean) = time(rounds, || job(&mut buffer));
        println!(
            "  {name:36} best {:8.1} us  mean {:8.1} us  {:6.1} ns a record (best)",
            best * 1e6,
            mean * 1e6,
            best * 1e9 / records as f64
        );
    };
    show("layout, tree ready", &mut |buffer| {
        layout(text, &ready, buffer)
    });
    show("tree from bytes, layout", &mut |buffer| {
        let tree = Tree::new(opening::split(tree).list);
        layout(text, &tree, buffer)
    });
    show("opening checks, tree, layout", &mut |buffer| {
        let tree = opening::open(source, tree).unwrap();
        layout(text, &tree, buffer)
    });
}

fn layout(source: &str, tree: &Tree, buffer: &mut alloc::String) -> usize {
    buffer.text.clear();
    let mut diagnostics = Diagnostics;
    let mut fmt = Formatter::new(source, tree, buffer, &mut diagnostics);
    fmt.layout().map_err(refusal).expect("a good layout");
    fmt.len()
}

/// Best and mean time in seconds, after some rounds that aren't timed.
fn time(rounds: usize, mut job: impl FnMut() -> usize) -> (f64, f64) {
    for _ in 0..rounds / 10 + 1 {
        black_box(job());
    }
    let (mut best, mut total) = (f64::MAX, 0.0);
    for _ in 0..rounds {
        let begin = Instant::now();
        black_box(job());
        let took = begin.elapsed().as_secs_f64();
        best = best.min(took);
        total += took;
    }
    (best, total / rounds as f64)
}
