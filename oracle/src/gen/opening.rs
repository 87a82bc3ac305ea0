//! Random sources and trees for the opening checks, good and damaged. They know
//! no kinds: any number will do.
use super::Rng;
use crate::grammar::Rec;
use crate::opening::join;

const CHARACTERS: &[char] = &[
    'x',
    'x',
    'y',
    ' ',
    '\n',
    'é',
    '\u{85}',
    '€',
    '\u{3000}',
    '\u{D7FF}',
    '\u{E000}',
    '\u{FFFF}',
    '𐍈',
    '\u{10FFFF}',
];

/// Bytes around the bounds of Unicode's table 3-7.
const EDGES: &[u8] = &[
    0x00, 0x7F, 0x80, 0x8F, 0x90, 0x9F, 0xA0, 0xBF, 0xC0, 0xC1, 0xC2, 0xDF, 0xE0, 0xE1, 0xEC, 0xED,
    0xEE, 0xEF, 0xF0, 0xF1, 0xF3, 0xF4, 0xF5, 0xFF,
];

/// Well-formed, of at most so many characters.
pub fn random_source(rng: &mut Rng, most: usize) -> String {
    let n = rng.below(most + 1);
    (0..n).map(|_| rng.pick(CHARACTERS)).collect()
}

/// A good tree, unless it comes out too deep.
pub fn random_tree(rng: &mut Rng, source: &str, records: usize, deep: bool) -> Vec<Rec> {
    let mut maker = Maker {
        edges: (0..=source.len())
            .filter(|i| source.is_char_boundary(*i))
            .collect(),
        budget: records,
        records: vec![],
    };
    let whole = (0, maker.edges.len() - 1);
    maker.level(rng, whole, 1, deep);
    maker.records
}

struct Maker {
    /// byte places where a character starts, and the end
    edges: Vec<usize>,
    budget: usize,
    records: Vec<Rec>,
}

impl Maker {
    /// Siblings inside a part of the source, given by numbers of edges.
    fn level(&mut self, rng: &mut Rng, (from, to): (usize, usize), depth: usize, deep: bool) {
        let siblings = if deep { 1 } else { rng.below(4) };
        let mut from = from;
        for _ in 0..siblings {
            if self.budget == 0 {
                return;
            }
            self.budget -= 1;
            let start = from + rng.below((to - from) / 3 + 1);
            let end = if deep {
                to
            } else {
                start + rng.below(to - start + 1)
            };
            self.record(rng, (start, end), depth, deep);
            from = end;
        }
    }

    fn record(&mut self, rng: &mut Rng, (start, end): (usize, usize), depth: usize, deep: bool) {
        let composite = deep || rng.one_in(2);
        let kind = rng.below(128) as u8 + if composite { 0x80 } else { 0 };
        let number = self.records.len();
        let (first, last) = (self.edges[start] as u32, self.edges[end] as u32);
        self.records.push(Rec::new(kind, first, last, 0));
        if composite && depth < 68 {
            let deep = deep && !rng.one_in(60);
            self.level(rng, (start, end), depth + 1, deep);
            self.records[number].below = (self.records.len() - number - 1) as u32;
        }
    }
}

/// A field or more of a tree gone wrong, or its bytes, or the source's.
pub fn damaged_bytes(rng: &mut Rng, source: &mut Vec<u8>, records: &mut [Rec]) -> Vec<u8> {
    for _ in 0..rng.pick(&[0, 1, 1, 2]) {
        if !records.is_empty() {
            let at = rng.below(records.len());
            damage_record(rng, &mut records[at], source.len());
        }
    }
    let mut bytes = join(records);
    match rng.below(6) {
        0 => bytes.truncate(bytes.len().saturating_sub(rng.below(14))),
        1 => bytes.push(rng.below(256) as u8),
        2 if !bytes.is_empty() => {
            let at = rng.below(bytes.len());
            bytes[at] = rng.below(256) as u8;
        }
        _ => {}
    }
    if rng.one_in(8) && !source.is_empty() {
        let at = rng.below(source.len());
        match rng.below(3) {
            0 => source[at] = rng.pick(EDGES),
            1 => source.insert(at, rng.pick(EDGES)),
            _ => source.truncate(at),
        }
    }
    bytes
}

fn damage_record(rng: &mut Rng, r: &mut Rec, source_len: usize) {
    match rng.below(6) {
        0 => r.start = rng.below(source_len + 3) as u32,
        1 => r.end = rng.below(source_len + 3) as u32,
        2 => r.start = r.start.wrapping_add(rng.pick(&[1, u32::MAX])),
        3 => r.end = r.end.wrapping_add(rng.pick(&[1, u32::MAX])),
        4 => r.below = rng.pick(&[0, 1, 2, 3, 100, 0x8000_0000, u32::MAX - 1, u32::MAX]),
        _ => r.kind ^= 0x80,
    }
}
