//! Trees over a source of plain letters.
use oracle::grammar::Rec;
use oracle::opening::join;

const SPACE: u8 = 0x00;
const LINE_COMMENT: u8 = 0x01;
const TOKEN: u8 = 0x03;
const NODE: u8 = 0x80;

pub fn letters(size: usize) -> Vec<u8> {
    vec![b'a'; size]
}

/// So many tokens side by side.
pub fn flat(size: usize, records: usize) -> Vec<u8> {
    let place = |i: usize| (i * size / records) as u32;
    let token = |i: usize| Rec::new(TOKEN, place(i), place(i + 1), 0);
    join(&(0..records).map(token).collect::<Vec<_>>())
}

/// Chains of composites side by side, each with a token at the depth given.
pub fn chains(size: usize, records: usize, depth: usize) -> Vec<u8> {
    let chains = records / depth;
    let place = |i: usize| (i * size / chains) as u32;
    let mut list = vec![];
    for i in 0..chains {
        for below in (1..depth as u32).rev() {
            list.push(Rec::new(NODE, place(i), place(i + 1), below));
        }
        list.push(Rec::new(TOKEN, place(i), place(i + 1), 0));
    }
    join(&list)
}

/// So many words of four letters, a space behind each: source and tree.
pub fn words(count: usize) -> (Vec<u8>, Vec<u8>) {
    let mut list = vec![];
    for i in 0..count as u32 {
        list.push(Rec::new(TOKEN, i * 5, i * 5 + 4, 0));
        list.push(Rec::new(SPACE, i * 5 + 4, i * 5 + 5, 0));
    }
    (b"word ".repeat(count), join(&list))
}

/// So many words, a line comment with this end behind each: source and tree.
pub fn remarks(count: usize, end: &str) -> (Vec<u8>, Vec<u8>) {
    let comment = format!("// as the template has it{end}");
    let (mut source, mut list) = (vec![], vec![]);
    for (kind, text) in [(TOKEN, "word"), (LINE_COMMENT, &comment), (SPACE, "\n")].repeat(count) {
        let start = source.len() as u32;
        source.extend(text.as_bytes());
        list.push(Rec::new(kind, start, source.len() as u32, 0));
    }
    (source, join(&list))
}

/// Nodes of 62 levels, two kinds in turn, each of which has a rule; a list's marks
/// around each level.
pub fn deep_nodes() -> Vec<(&'static str, Vec<u8>)> {
    let sorts = [
        (
            "arrays in patterns, depth 63",
            [0xB2, 0xB3, 0x14, 0x15, 0x1F],
        ),
        (
            "tuples in patterns, depth 63",
            [0xB2, 0xB4, 0x10, 0x11, 0x1F],
        ),
        (
            "paths in generics, depth 63",
            [0xB0, 0xB1, 0x21, 0x22, SPACE],
        ),
        ("groups in uses, depth 63", [0xA0, 0xA1, 0x12, 0x13, SPACE]),
    ];
    sorts.map(|(name, kinds)| (name, deep(kinds, 31))).to_vec()
}

fn deep([outer, inner, open, close, innermost]: [u8; 5], levels: u32) -> Vec<u8> {
    let leaf = |kind, at| Rec::new(kind, at, at + 1, 0);
    let mut list = vec![];
    for i in 0..levels {
        let (below, end) = (4 * (levels - i), 2 * levels + 1 - i);
        list.push(Rec::new(outer, i, end, below));
        list.push(Rec::new(inner, i, end, below - 1));
        list.push(leaf(open, i));
    }
    list.push(leaf(innermost, levels));
    list.extend((0..levels).map(|i| leaf(close, levels + 1 + i)));
    join(&list)
}
