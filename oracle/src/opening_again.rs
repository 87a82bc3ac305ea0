//! The opening checks a second time, sharing nothing with opening.rs but the type
//! of a refusal: UTF-8 by Unicode's table 3-7, character starts noted while
//! decoding, records read from the bytes where they stand, levels by recursion.
use crate::refusal::Refusal;

/// The number of records of a good tree, or the refusal.
pub fn open(source: &[u8], tree: &[u8]) -> Result<usize, Refusal> {
    if source.len() > 65_536 {
        return Err(Refusal::new(1, 65_536));
    }
    let edges = character_edges(source)?;
    let places = places(tree);
    let check = Check {
        edges,
        tree,
        places: &places,
    };
    check.level(0..places.len(), 0, source.len(), 1)?;
    Ok(places.len())
}

/// Table 3-7: the length of a sequence by its first byte, and the range of its
/// second; all further bytes are 80-BF.
fn sequence(first: u8) -> Option<(usize, u8, u8)> {
    Some(match first {
        0x00..=0x7F => (1, 0, 0),
        0xC2..=0xDF => (2, 0x80, 0xBF),
        0xE0 => (3, 0xA0, 0xBF),
        0xE1..=0xEC => (3, 0x80, 0xBF),
        0xED => (3, 0x80, 0x9F),
        0xEE..=0xEF => (3, 0x80, 0xBF),
        0xF0 => (4, 0x90, 0xBF),
        0xF1..=0xF3 => (4, 0x80, 0xBF),
        0xF4 => (4, 0x80, 0x8F),
        _ => return None,
    })
}

/// For each byte place, and for the end, whether a character starts (or the
/// source ends) there.
fn character_edges(source: &[u8]) -> Result<Vec<bool>, Refusal> {
    let mut edges = vec![false; source.len() + 1];
    let mut at = 0;
    while at < source.len() {
        edges[at] = true;
        let bad = Refusal::new(2, at as u32);
        let (len, low, high) = sequence(source[at]).ok_or(bad)?;
        let rest = source.get(at + 1..at + len).ok_or(bad)?;
        let second = rest.first().is_none_or(|b| (low..=high).contains(b));
        let others = rest.iter().skip(1).all(|b| (0x80..=0xBF).contains(b));
        if !second || !others {
            return Err(bad);
        }
        at += len;
    }
    edges[at] = true;
    Ok(edges)
}

/// Where each record starts, a cut one too.
fn places(tree: &[u8]) -> Vec<usize> {
    let mut places = vec![];
    let mut at = 0;
    while at < tree.len() {
        places.push(at);
        at += if tree[at] >= 0x80 { 13 } else { 9 };
    }
    places
}

struct Check<'a> {
    edges: Vec<bool>,
    tree: &'a [u8],
    places: &'a [usize],
}

impl Check<'_> {
    /// Four bytes, low byte first, behind the record's kind; None if they are cut.
    fn word(&self, record: usize, number: usize) -> Option<usize> {
        let at = self.places[record] + 1 + 4 * number;
        let bytes = self.tree.get(at..at + 4)?;
        Some(bytes.iter().rev().fold(0, |n, b| n * 256 + *b as usize))
    }

    /// Start, end and count of a record, if it isn't cut.
    fn numbers(&self, record: usize) -> Option<(usize, usize, usize)> {
        let leaf = self.tree[self.places[record]] < 0x80;
        let below = if leaf { 0 } else { self.word(record, 2)? };
        Some((self.word(record, 0)?, self.word(record, 1)?, below))
    }

    /// The siblings in a range of records, inside the source from `low` to `high`.
    fn level(
        &self,
        range: std::ops::Range<usize>,
        low: usize,
        high: usize,
        depth: usize,
    ) -> Result<(), Refusal> {
        let (mut record, mut low) = (range.start, low);
        while record < range.end {
            let bad = Refusal::new(3, record as u32);
            if record == 8_192 {
                return Err(bad);
            }
            let (start, end, below) = self.numbers(record).ok_or(bad)?;
            let in_place = low <= start && start <= end && end <= high;
            if !in_place || !self.edges[start] || !self.edges[end] {
                return Err(bad);
            }
            if below > range.end - record - 1 {
                return Err(bad);
            }
            if depth == 65 {
                return Err(Refusal::new(7, record as u32));
            }
            let behind = record + 1 + below;
            self.level(record + 1..behind, start, end, depth + 1)?;
            (record, low) = (behind, end);
        }
        Ok(())
    }
}
