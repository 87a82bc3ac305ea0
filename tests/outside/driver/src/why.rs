//! Why lists go over several lines, node by node: `savetnuok_why` against
//! reasons.rs, over the oracle's families, random lists, and damaged openings.
use std::collections::BTreeMap;
use std::time::Instant;

use oracle::compare::opening_input;
use oracle::gen::{self, Rng};
use oracle::grammar::Rec;
use oracle::opening::join;

use crate::area::{Area, Side};
use crate::exported::WHY;
use crate::reasons::{self, Fault, Told, COMMENT, FAULTS, SIXTH};
use crate::recorder::{self, Recorder};
use crate::reference::{By, Script, Want};

const FAMILIES: [&str; 6] = ["exprs", "runs", "damaged", "layout", "focus", "nests"];
/// One sort of entry for random lists: white space of every sort, other characters
/// of one to four bytes, two that only look like white space.
const CHARS: &str = "abcxyzéß字語𝄞😀\u{200B}\u{FEFF}\u{9}\u{A}\u{B}\u{C}\u{D}\u{20}\u{85}\u{A0}\u{1680}\u{2000}\u{2001}\u{2002}\u{2003}\u{2004}\u{2005}\u{2006}\u{2007}\u{2008}\u{2009}\u{200A}\u{2028}\u{2029}\u{202F}\u{205F}\u{3000}";

/// A child of a random list: its kind, its text, and whether a comment stands below it.
struct Part {
    kind: u8,
    text: String,
    deep: bool,
}

fn part(kind: u8, text: &str) -> Part {
    Part {
        kind,
        text: text.into(),
        deep: false,
    }
}

fn any_text(rng: &mut Rng, most: usize) -> String {
    let chars: Vec<char> = CHARS.chars().collect();
    let n = rng.below(most + 1);
    (0..n).map(|_| rng.pick(&chars)).collect()
}

fn entry(rng: &mut Rng, keys: bool) -> Part {
    let text = any_text(rng, 6);
    match rng.below(12) {
        0 => part(0x01, "// n"),
        1 => part(0x02, "/* b */"),
        2 => part(0x18, ","),
        3 => part(0x00, " "),
        4 => Part {
            deep: true,
            ..part(0x96, &text)
        },
        5 => part(0x97, &text),
        6 => part(if keys { 0x96 } else { 0x08 }, &text),
        _ => part(if keys { 0x08 } else { 0x96 }, &text),
    }
}

/// A list whose entries are of any kind, most of them with a number of characters
/// around 80. The Rust decides before it looks at any entry.
fn random_list(rng: &mut Rng) -> (Vec<u8>, Vec<u8>) {
    let (kind, open, close) = rng.pick(&[
        (0xE6, 0x10, 0x11),
        (0xC3, 0x14, 0x15),
        (0xC5, 0x12, 0x13),
        (0xC5, 0x12, 0x13),
        (0xC4, 0x10, 0x11),
    ]);
    let keys = kind == 0xC5;
    let mut parts = vec![];
    if rng.one_in(4) {
        parts.push(part(rng.pick(&[0x01, 0x02]), "//"));
    }
    if keys && !rng.one_in(12) {
        let path = rng.one_in(2);
        parts.push(part(if path { 0xB0 } else { 0x09 }, "n"));
    }
    if rng.one_in(8) {
        parts.push(part(0x01, "//"));
    }
    if !rng.one_in(30) {
        parts.push(part(open, "("));
    }
    let (first, count) = (parts.len(), rng.below(11));
    parts.extend((0..count).map(|_| entry(rng, keys)));
    parts.push(part(close, ")"));
    if !rng.one_in(4) {
        fill(rng, &mut parts, first);
    }
    built(rng, kind, &parts)
}

/// One more part somewhere, of so many letters that about 80 characters count.
fn fill(rng: &mut Rng, parts: &mut Vec<Part>, first: usize) {
    let count = |p: &Part| p.text.chars().filter(|c| !c.is_whitespace()).count();
    let counted: usize = parts.iter().map(count).sum();
    let letters = (78 + rng.below(6)).saturating_sub(counted);
    let at = first + rng.below(parts.len() - first);
    parts.insert(at, part(0x2A, &"é".repeat(letters)));
}

/// The source and the tree, with a few letters in front.
fn built(rng: &mut Rng, kind: u8, parts: &[Part]) -> (Vec<u8>, Vec<u8>) {
    let mut source = any_text(rng, 3);
    let mut records = vec![Rec::new(0x03, 0, source.len() as u32, 0)];
    let start = source.len() as u32;
    records.push(Rec::new(kind, start, start, 0));
    for p in parts {
        let from = source.len() as u32;
        source.push_str(&p.text);
        let end = source.len() as u32;
        records.push(Rec::new(p.kind, from, end, p.deep as u32));
        if p.deep {
            records.push(Rec::new(0x01, from, end, 0));
        }
    }
    records[1].end = source.len() as u32;
    records[1].below = records.len() as u32 - 2;
    (source.into_bytes(), join(&records))
}

/// A script, and the nodes of it that are asked for.
fn script(rng: &mut Rng, seed: u64, i: u64) -> (Script, Vec<u32>) {
    let (source, tree) = match i % 4 {
        0 if rng.one_in(200) => (vec![b'a'; 65_535 + rng.below(4)], vec![]),
        0 if rng.one_in(4) => opening_input(rng, i),
        0 => {
            let name = FAMILIES[(i / 4) as usize % FAMILIES.len()];
            let case = gen::make(name, seed, i / 4).expect("a family");
            (case.source, case.tree)
        }
        _ => random_list(rng),
    };
    let script = Script::new(source, tree);
    let records = script.records();
    let list = |k: &usize| [0xE6, 0xC3, 0xC5].contains(&records[*k].kind);
    let mut nodes: Vec<u32> = (0..records.len()).filter(list).map(|k| k as u32).collect();
    nodes.push(rng.below(records.len() + 2) as u32);
    if rng.one_in(8) {
        nodes.push(rng.pick(&[8_191, 8_192, u32::MAX]));
    }
    (script, nodes)
}

/// Which reasons hold of a node at once, in the order of its records.
fn together(told: &Told) -> String {
    let Some(reasons) = &told.reasons else {
        return "refused".into();
    };
    let mut words = vec![];
    if reasons.wide.is_some() {
        words.push("wide");
    }
    for reason in &reasons.crowd {
        let word = if reason >> 32 == COMMENT {
            "comment"
        } else {
            "sixth"
        };
        if words.last() != Some(&word) && words.len() < 3 {
            words.push(word);
        }
    }
    match words.is_empty() {
        true => "none".into(),
        false => words.join(" "),
    }
}

const TOGETHER: [&str; 10] = [
    "refused",
    "none",
    "wide",
    "comment",
    "sixth",
    "comment sixth",
    "sixth comment",
    "wide comment",
    "wide sixth",
    "wide comment sixth",
];
const ANSWERS: [u64; 11] = [0, 1, 2, 3, 7, 8, 9, 11, reasons::WIDE, COMMENT, SIXTH];

#[derive(Default)]
struct Counts {
    asked: u64,
    decided: u64,
    answers: BTreeMap<u64, u64>,
    together: BTreeMap<String, u64>,
    differences: Vec<String>,
}

/// Asks until the Rust decided so many lists, or something differs.
fn rounds(
    nodes: u64,
    seed: u64,
    ask: &mut dyn FnMut(&Script, u32, &mut Rng) -> Result<u64, String>,
) -> Counts {
    let mut counts = Counts::default();
    let rng = &mut Rng::new(seed ^ 0x3B9A);
    for i in 0.. {
        if counts.decided >= nodes || !counts.differences.is_empty() {
            break;
        }
        let (script, nodes) = script(rng, seed, i);
        for node in nodes {
            let want = reasons::why(&script, node, Fault::None);
            let got = ask(&script, node, rng);
            if got != Ok(want.answer) {
                let what = format!(
                    "script {i}, node {node}: {got:x?}, wanted {:x}",
                    want.answer
                );
                counts.differences.push(what);
            }
            if let Some(loose) = want.by_rust {
                assert_eq!(
                    loose,
                    want.answer != 0,
                    "the Rust and the count part at script {i}, node {node}"
                );
                counts.decided += 1;
            }
            counts.asked += 1;
            *counts.answers.entry(want.answer >> 32).or_default() += 1;
            *counts.together.entry(together(&want)).or_default() += 1;
        }
    }
    counts
}

/// The library, over guarded memory: not a byte that is lent may change.
fn library(
    source: &mut Area,
    tree: &mut Area,
    script: &Script,
    node: u32,
    rng: &mut Rng,
) -> Result<u64, String> {
    let sides = [Side::Front, Side::Back, Side::Odd];
    source.put(&script.source, rng.pick(&sides));
    tree.put(&script.tree, rng.pick(&sides));
    let (s, t) = (source.pointer(), tree.pointer());
    let answer = unsafe { WHY(s, script.source.len(), t, script.tree.len(), node) };
    let kept = source.bytes() == script.source && tree.bytes() == script.tree;
    match kept && source.strip_is_whole() && tree.strip_is_whole() {
        true => Ok(answer),
        false => Err("bytes that are lent were changed".into()),
    }
}

/// So many lists beside the Rust; then a stand-in with one fault at a time.
pub fn compare(nodes: u64, seed: u64) -> bool {
    let begun = Instant::now();
    println!("reasons, --seed {seed}");
    let (mut source, mut tree) = (Area::new(80_000), Area::new(200_000));
    let counts = rounds(nodes, seed, &mut |script, node, rng| {
        library(&mut source, &mut tree, script, node, rng)
    });
    counts
        .differences
        .iter()
        .for_each(|d| println!("DIFFERS {d}"));
    let answers: Vec<String> = counts
        .answers
        .iter()
        .map(|(n, c)| format!("{n}: {c}"))
        .collect();
    println!("  answers {}", answers.join(", "));
    let at_once: Vec<String> = counts
        .together
        .iter()
        .map(|(w, c)| format!("{w} {c}"))
        .collect();
    println!("  reasons that hold at once: {}", at_once.join(", "));
    let missed = |missing: bool, what: &str| {
        if missing {
            println!("NEVER REACHED {what}");
        }
        missing
    };
    let mut good = counts.differences.is_empty();
    for n in ANSWERS {
        good &= !missed(!counts.answers.contains_key(&n), &format!("answer {n}"));
    }
    for w in TOGETHER {
        good &= !missed(!counts.together.contains_key(w), w);
    }
    println!(
        "  {} nodes asked, {} of them lists that the Rust decided; {} differ ({} s)",
        counts.asked,
        counts.decided,
        counts.differences.len(),
        begun.elapsed().as_secs()
    );
    good & find_faults(seed)
}

fn find_faults(seed: u64) -> bool {
    let mut good = true;
    for fault in FAULTS {
        let counts = rounds(20_000, seed, &mut |script, node, _| {
            Ok(reasons::why(script, node, fault).answer)
        });
        let first = counts.differences.first();
        good &= first.is_some() == (fault != Fault::None);
        let what = first.map_or("nothing found", |d| d);
        println!(
            "  {:<28} {what} ({} nodes)",
            format!("{fault:?}"),
            counts.asked
        );
    }
    good
}

/// How often a question is written down, by its answer and the reasons that hold.
const OFTEN: u64 = 8;

/// The questions that the gate's program `exported` asks again: over small scripts, until each
/// answer and each two reasons at once stand there.
pub fn recorded() -> Recorder {
    let mut recorder = Recorder::default();
    let long = Script::new(vec![b'a'; 65_537], vec![]);
    record(
        &mut recorder,
        &long,
        &[(0, reasons::why(&long, 0, Fault::None))],
    );
    let rng = &mut Rng::new(0xB10C);
    let mut met: BTreeMap<(u64, String), u64> = BTreeMap::new();
    for i in 0..20_000 {
        let (script, nodes) = script(rng, 7, i);
        if script.tree.len() > 2_000 || script.source.len() > 1_000 {
            continue;
        }
        let mut wanted = vec![];
        for node in nodes {
            let told = reasons::why(&script, node, Fault::None);
            let times = met.entry((told.answer >> 32, together(&told))).or_default();
            *times += 1;
            if *times <= OFTEN {
                wanted.push((node, told));
            }
        }
        if !wanted.is_empty() {
            record(&mut recorder, &script, &wanted);
        }
    }
    for n in ANSWERS {
        let times = recorder.answers.get(&(recorder::WHY, n));
        assert!(times.is_some(), "savetnuok_why never answers {n}");
    }
    for w in TOGETHER {
        assert!(met.keys().any(|(_, words)| words == w), "never met: {w}");
    }
    recorder
}

fn record(recorder: &mut Recorder, script: &Script, asked: &[(u32, Told)]) {
    recorder.lend(recorder::SOURCE, &script.source);
    recorder.lend(recorder::TREE, &script.tree);
    for (node, told) in asked {
        let want = Want {
            answer: told.answer,
            by: By::Call,
            state: None,
            written: vec![],
            zero_from: None,
            hidden: vec![],
        };
        recorder.made(recorder::WHY, &node.to_le_bytes(), &want, 0, 0);
    }
}
