//! Nodes that have a rule, as large and as deep as a tree can be.
use oracle::gen::nests;
use oracle::grammar::Rec;
use oracle::opening::join;

use crate::reference::Script;

fn leaf(kind: u8, start: usize, end: usize) -> Rec {
    Rec::new(kind, start as u32, end as u32, 0)
}

/// Kinds that can stand in each other: the outer and the inner one, the leaves of
/// the inner one before the next level and behind it, and the innermost leaf.
type Nested = (u8, u8, &'static [u8], u8, u8);

const NESTED: [Nested; 5] = [
    // pat: pat_array, pat_tuple, pat_object with a key
    (0xB2, 0xB3, &[0x14], 0x15, 0x1F),
    (0xB2, 0xB4, &[0x10], 0x11, 0x1F),
    (0xB2, 0xB5, &[0x09, 0x12, 0x08, 0x1A], 0x13, 0x00),
    // path: path_generics; item_use_path: item_use_group
    (0xB0, 0xB1, &[0x21], 0x22, 0x00),
    (0xA0, 0xA1, &[0x12], 0x13, 0x00),
];

pub fn all() -> Vec<Script> {
    let mut all = vec![];
    for n in [8_190, 8_191] {
        let mut names = vec![Rec::new(0xB0, 0, n as u32, n as u32)];
        names.extend((0..n).map(|i| leaf(3, i, i + 1)));
        all.push(Script::new(vec![b'x'; n], join(&names)));
    }
    for sort in NESTED {
        all.extend([30, 31, 32].map(|levels| deep(sort, levels)));
    }
    for (source, records) in nests::built(64) {
        all.push(Script::new(source.into_bytes(), join(&records)));
    }
    all
}

/// Such nests in a body, or in an expression in a body, so that a layout goes as
/// deep as a tree can be.
pub fn in_bodies() -> Vec<Script> {
    let plain = nests::built(63)
        .into_iter()
        .map(|nest| within(nest, &[0x80]));
    let exprs = nests::built(62)
        .into_iter()
        .map(|nest| within(nest, &[0x80, 0x96]));
    plain.chain(exprs).collect()
}

/// The whole tree in composites of these kinds, the first one outermost.
fn within((source, mut records): (String, Vec<Rec>), kinds: &[u8]) -> Script {
    for kind in kinds.iter().rev() {
        let around = Rec::new(*kind, 0, source.len() as u32, records.len() as u32);
        records.insert(0, around);
    }
    Script::new(source.into_bytes(), join(&records))
}

/// So many levels of such a pair, each leaf one byte.
fn deep((outer, inner, before, behind, innermost): Nested, levels: usize) -> Script {
    let len = levels * (before.len() + 1) + 1;
    let mut records = vec![];
    let mut at = 0;
    for i in 0..levels {
        // the leaves of this level, and all of the levels inside
        let left = levels - i - 1;
        let below = left * (before.len() + 3) + 1 + before.len() + 1;
        let (start, end) = (at as u32, (len - i) as u32);
        records.push(Rec::new(outer, start, end, below as u32 + 1));
        records.push(Rec::new(inner, start, end, below as u32));
        records.extend((0..before.len()).map(|k| leaf(before[k], at + k, at + k + 1)));
        at += before.len();
    }
    records.push(leaf(innermost, at, at + 1));
    records.extend((0..levels).map(|i| leaf(behind, at + 1 + i, at + 2 + i)));
    Script::new(vec![b'x'; len], join(&records))
}
