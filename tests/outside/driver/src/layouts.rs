//! Histories around whole layouts: on fresh engines, among calls and runs on the
//! same engine, with full queues, over trees of about the length at which the
//! library changes its table, and over damaged trees and random bytes.
use oracle::call::layout_step;
use oracle::compare;
use oracle::gen::{self, Builder, Opts, Rng};
use oracle::grammar::Rec;
use oracle::opening::join;

use crate::histories::{any_run, family, needed, replay, with_layouts, with_runs};
use crate::noise;
use crate::reference::Script;
use crate::session::{Differs, Session};
use crate::tally::SHORT;

const BODY: u8 = 0x80;
const EXPR: u8 = 0x96;
const PATH: u8 = 0xB0;
const FINISH: [u8; 1] = [0x0B];

fn leaf(kind: u8, start: usize, end: usize) -> Rec {
    Rec::new(kind, start as u32, end as u32, 0)
}

/// A program on a fresh engine.
pub fn whole(s: &mut Session, rng: &mut Rng, seed: u64, i: u64) -> Result<(), Differs> {
    let name = match i % 16 {
        0 => "trim",
        1..=7 => "layout",
        _ => "focus",
    };
    let case = gen::make(name, seed ^ 0x1A1D, i).expect("a family");
    family(s, rng, case, vec![layout_step()])
}

/// Calls and runs, mostly without a finish, perhaps layouts among them, and layouts
/// behind them.
fn steps(rng: &mut Rng, script: &Script) -> Vec<Vec<u8>> {
    let n = rng.below(12);
    let mut steps = gen::history(rng, script.records().len(), n, 10);
    if !rng.one_in(8) {
        steps.retain(|step| *step != FINISH);
    }
    if rng.one_in(6) {
        // so deep that a block may leave the bounds
        steps.insert(0, vec![6, 55 + rng.below(10) as u8]);
    }
    let mut steps = with_runs(rng, script, steps);
    if rng.one_in(3) {
        steps = with_layouts(rng, steps);
    }
    steps.extend([
        layout_step(),
        any_run(rng, script),
        vec![0x08],
        layout_step(),
    ]);
    steps
}

/// Calls, runs and layouts on the same engine; where the buffer was too short for
/// all of them, a longer one is lent and the engine goes on.
pub fn mixed(s: &mut Session, rng: &mut Rng, seed: u64, i: u64) -> Result<(), Differs> {
    let name = ["layout", "focus", "damaged", "focus", "runs", "exprs"][i as usize % 6];
    let case = gen::make(name, seed ^ 0x317ED, i).expect("a family");
    let script = Script::new(case.source, case.tree);
    let steps = steps(rng, &script);
    let full = needed(&script, &steps);
    let room = match rng.below(3) {
        0 => full + rng.below(50),
        _ => rng.below(full + 2),
    };
    replay(s, rng, &script, room, &steps)?;
    if room >= full {
        return Ok(());
    }
    let mut out = s.out.clone();
    out.resize(full + 2 * script.source.len() + 200, 0x33);
    s.lend_out(out);
    for step in [layout_step(), any_run(rng, &script), layout_step()] {
        s.step(&script, &step)?;
    }
    Ok(())
}

/// A body of so many comments, a path in an expression, and so many comments.
fn body_with_comments(rng: &mut Rng, front: usize, behind: usize) -> Script {
    let (mut text, mut records) = (String::new(), vec![]);
    let mut comments = |text: &mut String, records: &mut Vec<Rec>, count: usize| {
        for _ in 0..count {
            let (kind, piece) = rng.pick(&[(1, "//x "), (2, "/**/"), (2, "/*é*/"), (2, "")]);
            let start = text.len();
            *text += piece;
            records.push(leaf(kind, start, text.len()));
            if rng.one_in(3) {
                let start = text.len();
                *text += rng.pick(&["\n", " ", "\n\n\n"]);
                records.push(leaf(0, start, text.len()));
            }
        }
    };
    comments(&mut text, &mut records, front);
    let at = text.len();
    text += "a";
    records.push(Rec::new(EXPR, at as u32, at as u32 + 1, 2));
    records.push(Rec::new(PATH, at as u32, at as u32 + 1, 1));
    records.push(leaf(3, at, at + 1));
    comments(&mut text, &mut records, behind);
    records.insert(
        0,
        Rec::new(BODY, 0, text.len() as u32, records.len() as u32),
    );
    Script::new(text.into_bytes(), join(&records))
}

/// Layouts that collect up to 257 comments at once, or behind some that wait.
pub fn queued(s: &mut Session, rng: &mut Rng) -> Result<(), Differs> {
    let counts = [0, 1, 2, 127, 128, 255, 256, 257];
    let (front, behind) = (rng.pick(&counts), rng.pick(&counts));
    let script = body_with_comments(rng, front, behind);
    let mut steps = vec![];
    // an ignore collects behind its node: nearly all in front, or all behind the path
    for _ in 0..rng.below(3) {
        let name = script.records().iter().position(|r| r.kind == 3);
        let node = rng.pick(&[1, name.expect("a name") as u32]);
        steps.push([&[3][..], &node.to_le_bytes()].concat());
    }
    steps.push(layout_step());
    let n = rng.below(4);
    steps.extend(gen::history(rng, script.records().len(), n, 10));
    steps.push(layout_step());
    let room = needed(&script, &steps) + rng.below(20);
    replay(s, rng, &script, room, &steps)
}

/// A program whose tree has exactly so many bytes: white space of no length fills
/// its body up.
pub fn of_length(rng: &mut Rng, len: usize) -> Script {
    loop {
        let opts = Opts {
            size: 1_300 + rng.below(450),
            comments: rng.pick(&[0, 3, 10]),
            odd: 0,
            ..Opts::random(rng)
        };
        let (source, mut records) = Builder::new(rng.branch(), opts).program(4);
        let left = len.saturating_sub(join(&records).len());
        if left == 0 || left % 9 != 0 {
            continue;
        }
        let end = source.len();
        records.extend(vec![leaf(0, end, end); left / 9]);
        records[0].below += (left / 9) as u32;
        let script = Script::new(source.into_bytes(), join(&records));
        assert!(script.good().is_some() && script.tree.len() == len);
        return script;
    }
}

/// On both sides of the length up to which the library takes its small table.
pub fn tables(s: &mut Session, rng: &mut Rng, i: u64) -> Result<(), Differs> {
    let len = match i % 4 {
        0 => SHORT,
        1 => SHORT + 1,
        2 => SHORT - rng.below(30),
        _ => SHORT + 1 + rng.below(30),
    };
    let script = of_length(rng, len);
    let full = needed(&script, &[layout_step()]);
    let mut steps: Vec<_> = (0..4).map(|_| any_run(rng, &script)).collect();
    steps.push(layout_step());
    replay(s, rng, &script, full, &[layout_step()])?;
    replay(s, rng, &script, full.saturating_sub(1), &steps)
}

/// The same tree in a body that holds all of it, as far as its records can be told.
fn in_a_body(source: &[u8], tree: Vec<u8>) -> Vec<u8> {
    let (mut count, mut at) = (0, 0);
    while at < tree.len() {
        at += if tree[at] < 0x80 { 9 } else { 13 };
        count += 1;
    }
    [join(&[Rec::new(BODY, 0, source.len() as u32, count)]), tree].concat()
}

/// A damaged program; random sources and trees around every rule of a good tree;
/// random bytes. Half of the latter stand in a body, as else a layout would be
/// refused at once.
fn wreck(rng: &mut Rng, seed: u64, i: u64) -> Script {
    let (source, tree) = match i % 3 {
        0 => {
            let case = gen::make("damaged", seed ^ 0xB20CE, i).expect("a family");
            return Script::new(case.source, case.tree);
        }
        1 => compare::opening_input(rng, i),
        _ => noise::source_and_tree(rng),
    };
    let tree = match rng.one_in(2) {
        true => in_a_body(&source, tree),
        false => tree,
    };
    Script::new(source, tree)
}

/// A layout, runs and calls on a wreck, over a fresh engine or any bytes as one.
pub fn broken(s: &mut Session, rng: &mut Rng, seed: u64, i: u64) -> Result<(), Differs> {
    let script = wreck(rng, seed, i);
    let n = 1 + rng.below(3);
    let calls = gen::history(rng, script.records().len(), n, 30);
    let mut steps = with_runs(rng, &script, calls);
    steps.insert(rng.below(steps.len() + 1), layout_step());
    let most = 3 * script.source.len().min(5_000) + 100;
    let room = match rng.one_in(3) {
        true => rng.below(most),
        false => most,
    };
    replay(s, rng, &script, room, &steps)?;
    if rng.one_in(2) {
        return Ok(());
    }
    for step in steps {
        s.lend_state(noise::state(rng));
        s.step(&script, &step)?;
    }
    Ok(())
}
