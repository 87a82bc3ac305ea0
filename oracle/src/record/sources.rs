//! Recorded sources: sizes around 65,536 bytes, and ill-formed UTF-8.
use super::pieces::Pieces;
use super::trees::{bad, good, leaf, Trees};

fn ill(place: usize) -> u64 {
    (2 << 32) + place as u64
}

const LONG: u64 = (1 << 32) + 65_536;

/// So many times a text, written once.
fn times(n: usize, text: &str) -> Pieces {
    Pieces::times(n, text)
}

pub fn sizes(t: &mut Trees) {
    let sort = "source sizes";
    let wrong = leaf(1, 0);
    for n in [0, 1, 65_535, 65_536] {
        let end = n as u32;
        t.add(sort, times(n, "x"), "", good(0));
        t.add(sort, times(n, "x"), [leaf(0, end), leaf(end, end)], good(2));
        t.add(sort, times(n, "x"), leaf(0, end + 1), bad(0));
    }
    for n in [65_537, 70_000, 131_072] {
        t.add(sort, times(n, "x"), "", LONG);
        t.add(sort, times(n, "x"), wrong, LONG);
    }
    // 1 before 2, 2 before 3
    t.add(sort, Pieces::times(65_537, &[0xFF][..]), "", LONG);
    t.add(sort, times(65_536, "x").and(&[0x80][..]), "", LONG);
    t.add(sort, Pieces::times(65_536, &[0xFF][..]), wrong, ill(0));
    // full of longer characters; a span may end at each of them
    for (text, n) in [("é", 32_768), ("€", 21_845), ("𐍈", 16_384)] {
        let len = text.len() as u32;
        let last = n as u32 * len;
        t.add(sort, times(n, text), leaf(last - len, last), good(1));
        t.add(sort, times(n, text), leaf(last - 1, last), bad(0));
    }
    // the last character ends one past the bound
    t.add(sort, times(65_535, "x").and("é"), "", LONG);
    t.add(sort, times(65_534, "x").and("é"), "", good(0));
}

pub fn ill_formed(t: &mut Trees) {
    let sort = "source ill-formed";
    // cut or wrong at the end of a full source
    for end in [
        &[0xFF][..],
        &[0x80],
        &[0xC3],
        &[0xE2],
        &[0xE2, 0x82],
        &[0xF0],
        &[0xF0, 0x9F],
        &[0xF0, 0x9F, 0x98],
    ] {
        let before = 65_536 - end.len();
        t.add(sort, times(before, "x").and(end), leaf(0, 0), ill(before));
        t.add(sort, end, "", ill(0));
        t.add(sort, Pieces::from(end).and("x"), "", ill(0));
        t.add(sort, Pieces::from("aé€𐍈").and(end), "", ill(10));
        // 2 before 3
        t.add(sort, Pieces::from("é").and(end), leaf(1, 0), ill(2));
    }
    table_3_7(t);
}

/// Around the bounds of each row of Unicode's table 3-7: the second byte for each
/// first, then the third and the fourth.
fn table_3_7(t: &mut Trees) {
    let firsts = [
        0x7F, 0x80, 0xBF, 0xC0, 0xC1, 0xC2, 0xDF, 0xE0, 0xE1, 0xEC, 0xED, 0xEE, 0xEF, 0xF0, 0xF1,
        0xF3, 0xF4, 0xF5, 0xFF,
    ];
    let seconds = [0x00, 0x7F, 0x80, 0x8F, 0x90, 0x9F, 0xA0, 0xBF, 0xC0, 0xFF];
    for first in firsts {
        for second in seconds {
            let more = match first {
                0xE0..=0xEF => 1,
                0xF0..=0xFF => 2,
                _ => 0,
            };
            let sequence = [&[first, second][..], &[0x80, 0x80][..more]].concat();
            around(t, &sequence);
        }
    }
    for byte in [0x00, 0x7F, 0x80, 0xBF, 0xC0, 0xFF] {
        around(t, &[0xE1, 0x80, byte]);
        around(t, &[0xF1, 0x80, byte, 0x80]);
        around(t, &[0xF1, 0x80, 0x80, byte]);
    }
}

/// A sequence between two letters, with a span over all of it.
fn around(t: &mut Trees, sequence: &[u8]) {
    let end = sequence.len() as u32 + 2;
    let source = Pieces::from("a").and(sequence).and("z");
    let source = Pieces::from(source.bytes());
    t.add_any("source table 3-7", source, [leaf(0, 1), leaf(1, end)]);
}
