//! Recorded trees: the rules of a good tree, each kept and broken. Sizes, depths
//! and sources are in bounds.rs and sources.rs.
use std::collections::BTreeMap;

use super::pieces::Pieces;
use super::{bounds, put_u32, put_u64, rules, sources, Sorts};
use crate::compare;
use crate::gen::{self, Rng};
use crate::grammar::Rec;
use crate::opening::join;
use crate::sx;

/// Cases with the answer that both ways of opening give.
#[derive(Default)]
pub struct Trees {
    count: usize,
    sorts: Sorts,
    /// how many good, and how many of each refusal
    answers: BTreeMap<u64, usize>,
    cases: Vec<u8>,
}

impl Trees {
    /// A case whose answer the two references tell.
    pub fn add_any(
        &mut self,
        sort: &'static str,
        source: impl Into<Pieces>,
        tree: impl Into<Pieces>,
    ) -> u64 {
        let (source, tree) = (source.into(), tree.into());
        let answer = compare::opened(&source.bytes(), &tree.bytes())
            .unwrap_or_else(|| panic!("{sort}: the two ways of opening part"));
        self.count += 1;
        self.sorts.count(sort);
        *self.answers.entry(answer >> 32).or_default() += 1;
        source.put(&mut self.cases);
        tree.put(&mut self.cases);
        put_u64(&mut self.cases, answer);
        answer
    }

    /// A case made by hand, with the answer that document 01 asks for.
    pub fn add(
        &mut self,
        sort: &'static str,
        source: impl Into<Pieces>,
        tree: impl Into<Pieces>,
        expected: u64,
    ) {
        let answer = self.add_any(sort, source, tree);
        assert_eq!(answer, expected, "{sort}, case {}", self.count - 1);
    }
}

pub fn good(records: usize) -> u64 {
    records as u64
}

pub fn bad(record: usize) -> u64 {
    (3 << 32) + record as u64
}

pub fn deep(record: usize) -> u64 {
    (7 << 32) + record as u64
}

pub fn leaf(start: u32, end: u32) -> Rec {
    Rec::new(0x03, start, end, 0)
}

pub fn node(start: u32, end: u32, below: u32) -> Rec {
    Rec::new(0x80, start, end, below)
}

/// The file's bytes; prints how many cases of each sort they hold.
pub fn record() -> Vec<u8> {
    let mut t = Trees::default();
    good_trees(&mut t);
    kinds(&mut t);
    cut(&mut t);
    counts(&mut t);
    spans(&mut t);
    characters(&mut t);
    parents(&mut t);
    siblings(&mut t);
    first_of_two(&mut t);
    bounds::many(&mut t);
    bounds::depths(&mut t);
    nests(&mut t);
    sources::sizes(&mut t);
    sources::ill_formed(&mut t);
    random(&mut t);
    let mut bytes = vec![];
    put_u32(&mut bytes, t.count);
    bytes.extend_from_slice(&t.cases);
    println!("{} cases, {} bytes", t.count, bytes.len());
    t.sorts.show();
    println!("  good (0) and refused: {:?}", t.answers);
    // the program that reads it takes so many bytes, and what is cut off for good
    assert!(bytes.len() <= 262_144, "the file grew too large");
    bytes
}

fn good_trees(t: &mut Trees) {
    let sort = "good";
    t.add(sort, "", "", good(0));
    t.add(sort, "abc", "", good(0));
    t.add(sort, "", leaf(0, 0), good(1));
    t.add(sort, "", node(0, 0, 0), good(1));
    t.add(sort, "ab", [leaf(0, 1), leaf(1, 2)], good(2));
    t.add(sort, "ab", [leaf(0, 0), leaf(2, 2)], good(2));
    let two = [node(0, 2, 2), leaf(0, 1), leaf(1, 2)];
    t.add(sort, "ab", two, good(3));
    let levels = [
        node(0, 4, 4),
        node(0, 2, 1),
        leaf(0, 2),
        node(2, 4, 1),
        leaf(2, 4),
    ];
    t.add(sort, "abcd", levels, good(5));
    let each = [
        leaf(0, 1),
        leaf(1, 3),
        leaf(3, 6),
        leaf(6, 10),
        leaf(10, 11),
    ];
    t.add(sort, "aé€𐍈z", each, good(5));
}

/// Every kind is good, known or not; its highest bit tells the record's length.
fn kinds(t: &mut Trees) {
    let sort = "kinds";
    let all =
        |from: u8, to: u8| -> Vec<Rec> { (from..=to).map(|k| Rec::new(k, 0, 0, 0)).collect() };
    t.add(sort, "", all(0x00, 0x7F), good(128));
    t.add(sort, "", all(0x80, 0xFF), good(128));
    t.add(sort, "", all(0x00, 0xFF), good(256));
    for kind in [0x00, 0x01, 0x02, 0x7F, 0x80, 0xF0, 0xFF] {
        let record = Rec::new(kind, 1, 2, 0);
        t.add(sort, "abc", record, good(1));
        let inside = [node(0, 3, 1), record];
        t.add(sort, "abc", inside, good(2));
    }
    // nine bytes are a leaf or a cut composite, thirteen a composite or a leaf
    // and four bytes of a cut record
    let bytes = join(&[node(0, 0, 0)]);
    let with_kind = |kind: u8, len: usize| [&[kind][..], &bytes[1..len]].concat();
    t.add(sort, "", with_kind(0x7F, 9), good(1));
    t.add(sort, "", with_kind(0x80, 9), bad(0));
    t.add(sort, "", with_kind(0x80, 13), good(1));
    t.add(sort, "", with_kind(0x7F, 13), bad(1));
}

/// The last record cut at each of its bytes, leaf and composite: alone, behind
/// others, inside a composite that counts it, inside one that counts one more.
fn cut(t: &mut Trees) {
    let sort = "cut";
    for last in [leaf(0, 0), node(0, 0, 0)] {
        let whole = join(&[last]);
        for len in 1..whole.len() {
            let cut = &whole[..len];
            let behind = |records: &[Rec]| Pieces::from(records).and(cut);
            t.add(sort, "", cut, bad(0));
            t.add(sort, "", behind(&[leaf(0, 0)]), bad(1));
            t.add(sort, "", behind(&[node(0, 0, 1)]), bad(1));
            t.add(sort, "", behind(&[node(0, 0, 1), leaf(0, 0)]), bad(2));
            t.add(sort, "", behind(&[node(0, 0, 2)]), bad(0));
        }
    }
}

/// Counts that reach past any list, and past 32 bits once a record number is added.
const TOO_MANY: [u32; 5] = [0x100, 0x8000_0000, u32::MAX - 2, u32::MAX - 1, u32::MAX];

fn counts(t: &mut Trees) {
    let sort = "counts";
    let empty = leaf(0, 0);
    // the first record, with two behind it
    for below in 0..=2 {
        t.add(sort, "", [node(0, 0, below), empty, empty], good(3));
    }
    for below in [3].into_iter().chain(TOO_MANY) {
        t.add(sort, "", [node(0, 0, below), empty, empty], bad(0));
    }
    // a child, with one record left in its parent and one more in the list
    for below in 0..=1 {
        let tree = [node(0, 0, 2), node(0, 0, below), empty, empty];
        t.add(sort, "", tree, good(4));
    }
    for below in [2, 3].into_iter().chain(TOO_MANY) {
        let tree = [node(0, 0, 2), node(0, 0, below), empty, empty];
        t.add(sort, "", tree, bad(1));
    }
    // the last record, in the list and in a parent
    for before in [empty, node(0, 0, 1)] {
        t.add(sort, "", [before, node(0, 0, 0)], good(2));
        for below in [1].into_iter().chain(TOO_MANY) {
            t.add(sort, "", [before, node(0, 0, below)], bad(1));
        }
    }
    // past its parent's last, not past its grandparent's
    let tree = [node(0, 0, 4), node(0, 0, 1), node(0, 0, 1), empty, empty];
    t.add(sort, "", tree, bad(2));
    // the second child of three passes the parent's last
    let tree = [node(0, 0, 3), empty, node(0, 0, 2), empty, empty];
    t.add(sort, "", tree, bad(2));
}

/// A record in its surroundings, and its number there: alone, first, last, an only
/// child, a last child.
fn places(record: Rec, source_len: u32) -> [(Vec<Rec>, usize); 5] {
    let parent = |below| node(0, source_len, below);
    let behind = leaf(source_len, source_len);
    [
        (vec![record], 0),
        (vec![record, behind], 0),
        (vec![leaf(0, 0), record], 1),
        (vec![parent(1), record], 1),
        (vec![parent(2), leaf(0, 0), record], 2),
    ]
}

fn add_in_places(t: &mut Trees, sort: &'static str, source: &str, span: (u32, u32), keeps: bool) {
    for record in [leaf(span.0, span.1), node(span.0, span.1, 0)] {
        for (tree, number) in places(record, source.len() as u32) {
            let n = tree.len();
            let expected = if keeps { good(n) } else { bad(number) };
            t.add(sort, source, tree, expected);
        }
    }
}

fn spans(t: &mut Trees) {
    let sort = "spans";
    for span in [(0, 0), (4, 4), (0, 4)] {
        add_in_places(t, sort, "abcd", span, true);
    }
    for span in [
        (2, 1),
        (4, 0),
        (0, 5),
        (4, 5),
        (5, 5),
        (5, 4),
        (0, u32::MAX),
        (u32::MAX, 0),
        (u32::MAX, u32::MAX),
        (1, 0x8000_0001),
    ] {
        add_in_places(t, sort, "abcd", span, false);
    }
    add_in_places(t, sort, "", (0, 1), false);
    add_in_places(t, sort, "", (1, 1), false);
}

/// Start, end, or both inside a character of two, three and four bytes.
fn characters(t: &mut Trees) {
    let (source, end) = ("aé€𐍈z", 11);
    for inside in [2, 4, 5, 7, 8, 9] {
        for span in [(inside, end), (0, inside), (inside, inside)] {
            add_in_places(t, "characters", source, span, false);
        }
    }
    for edge in [0, 1, 3, 6, 10, 11] {
        add_in_places(t, "characters", source, (edge, edge), true);
    }
}

/// A child of a parent from 2 to 4: as an only child, a second, a grandchild.
fn parents(t: &mut Trees) {
    let sort = "parents";
    let source = "abcdef";
    let inside = [(2, 4), (2, 2), (3, 3), (4, 4)];
    let outside = [
        (1, 3),
        (1, 1),
        (1, 4),
        (3, 5),
        (2, 5),
        (5, 5),
        (1, 5),
        (0, 6),
    ];
    for (span, keeps) in inside
        .map(|s| (s, true))
        .into_iter()
        .chain(outside.map(|s| (s, false)))
    {
        for child in [leaf(span.0, span.1), node(span.0, span.1, 0)] {
            let trees = [
                (vec![node(2, 4, 1), child], 1),
                (vec![node(2, 4, 1), child, leaf(4, 6)], 1),
                (vec![node(2, 4, 2), leaf(2, 2), child], 2),
                (vec![node(0, 6, 2), node(2, 4, 1), child], 2),
            ];
            for (tree, number) in trees {
                let n = tree.len();
                let expected = if keeps { good(n) } else { bad(number) };
                t.add(sort, source, tree, expected);
            }
        }
    }
}

/// A sibling behind another, in the list and in a parent; the one before may hold
/// a child that ends earlier than it does.
fn siblings(t: &mut Trees) {
    let sort = "siblings";
    let source = "abcdef";
    for (before, next, keeps) in [
        ((1, 3), (3, 4), true),
        ((1, 3), (3, 3), true),
        ((1, 3), (5, 6), true),
        ((3, 3), (3, 3), true),
        ((3, 3), (3, 5), true),
        ((1, 3), (2, 4), false),
        ((1, 3), (2, 2), false),
        ((1, 3), (1, 3), false),
        ((1, 3), (0, 1), false),
        ((3, 3), (2, 3), false),
        ((0, 6), (5, 6), false),
    ] {
        let (a, b) = (leaf(before.0, before.1), leaf(next.0, next.1));
        let holds = [node(before.0, before.1, 1), leaf(before.0, before.0)];
        let trees = [
            (vec![a, b], 1),
            (vec![a, b, leaf(6, 6)], 1),
            (vec![leaf(0, 0), a, b], 2),
            (vec![node(0, 6, 2), a, b], 2),
            (vec![holds[0], holds[1], b], 2),
            (vec![node(0, 6, 3), holds[0], holds[1], b], 3),
        ];
        for (tree, number) in trees {
            let n = tree.len();
            let expected = if keeps { good(n) } else { bad(number) };
            t.add(sort, source, tree, expected);
        }
    }
    let at_one_place = vec![leaf(3, 3); 5];
    t.add(sort, source, at_one_place, good(5));
    // children of different parents are no siblings
    let cousins = [node(0, 3, 1), leaf(2, 3), node(3, 6, 1), leaf(3, 3)];
    t.add(sort, source, cousins, good(4));
}

/// Of two bad records the first is told, whatever the rule.
fn first_of_two(t: &mut Trees) {
    let sort = "first of two";
    let ways = [leaf(2, 0), leaf(0, 9), leaf(1, 1), node(0, 0, 9)];
    for first in ways {
        for second in ways {
            t.add(sort, "é", [leaf(0, 0), first, second], bad(1));
            let inside = [node(0, 2, 2), first, second, leaf(2, 2)];
            t.add(sort, "é", inside, bad(1));
        }
        let cut = Pieces::from(first).and(&[0x03, 0x00][..]);
        t.add(sort, "é", cut, bad(0));
    }
}

/// The nests of runs.bin, a level too deep: the record at depth 65 is told. Opening
/// asks for no kind, so of the forms one in four is recorded.
fn nests(t: &mut Trees) {
    for (i, (tree, record)) in rules::too_deep().iter().enumerate() {
        let (source, records) = sx::build(tree);
        let answer = compare::opened(source.as_bytes(), &join(&records));
        assert_eq!(answer, Some(deep(*record)), "{tree}");
        if i % 4 == 0 {
            t.add("nests", source.as_str(), records, deep(*record));
        }
    }
}

/// Small trees by chance: 250 good ones, and 350 that were damaged.
fn random(t: &mut Trees) {
    let mut rng = Rng::new(1);
    let mut wanted = 250;
    while wanted > 0 {
        let source = gen::random_source(&mut rng, 20);
        let n = rng.pick(&[3, 8, 20]);
        let records = gen::random_tree(&mut rng, &source, n, wanted % 25 == 0);
        t.add(
            "random, good",
            source.as_str(),
            records.clone(),
            good(records.len()),
        );
        wanted -= 1;
    }
    for i in 0..350 {
        let mut source = gen::random_source(&mut rng, 20).into_bytes();
        let text = String::from_utf8(source.clone()).unwrap();
        let n = rng.pick(&[3, 8, 20]);
        let mut records = gen::random_tree(&mut rng, &text, n, i % 25 == 0);
        let tree = gen::damaged_bytes(&mut rng, &mut source, &mut records);
        t.add_any("random, damaged", source, tree);
    }
}
