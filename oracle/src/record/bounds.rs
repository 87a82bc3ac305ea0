//! Recorded trees at the bounds: 8,192 records, depth 64.
use super::pieces::Pieces;
use super::trees::{bad, deep, good, leaf, node, Trees};
use crate::grammar::Rec;
use crate::opening::join;

/// So many empty leaves, written once.
fn leaves(n: usize) -> Pieces {
    Pieces::times(n, leaf(0, 0))
}

/// Composites inside each other, all of the same span: the last is at depth n.
fn chain(n: usize, start: u32, end: u32) -> Vec<Rec> {
    (0..n)
        .map(|i| node(start, end, (n - 1 - i) as u32))
        .collect()
}

pub fn many(t: &mut Trees) {
    flat(t);
    held_by_the_first(t);
    many_and_a_bad_one(t);
    many_and_a_deep_one(t);
    many_and_a_cut_one(t);
}

fn flat(t: &mut Trees) {
    let sort = "many";
    for n in [8_191, 8_192] {
        t.add(sort, "", leaves(n), good(n));
        t.add(sort, "", Pieces::times(n, node(0, 0, 0)), good(n));
    }
    for n in [8_193, 9_000] {
        t.add(sort, "", leaves(n), bad(8_192));
        t.add(sort, "", Pieces::times(n, node(0, 0, 0)), bad(8_192));
    }
}

/// A first record that counts the others: the count is held against all records
/// of the list, those past 8,192 too.
fn held_by_the_first(t: &mut Trees) {
    let sort = "many";
    let held = |below: u32, behind: usize| Pieces::from(node(0, 0, below)).and(leaves(behind));
    t.add(sort, "", held(8_190, 8_190), good(8_191));
    t.add(sort, "", held(8_191, 8_191), good(8_192));
    t.add(sort, "", held(8_190, 8_191), good(8_192));
    t.add(sort, "", held(8_192, 8_191), bad(0));
    t.add(sort, "", held(8_192, 8_192), bad(8_192));
    t.add(sort, "", held(8_191, 8_192), bad(8_192));
    t.add(sort, "", held(8_193, 8_192), bad(0));
    t.add(sort, "", held(8_999, 8_999), bad(8_192));
    t.add(sort, "", held(9_000, 8_999), bad(0));
}

fn many_and_a_bad_one(t: &mut Trees) {
    let sort = "many, one bad";
    // start > end; a count past the list
    for wrong in [leaf(1, 0), node(0, 0, 9_000)] {
        for at in [0, 1, 8_190, 8_191] {
            for behind in [0, 1, 2, 800] {
                let tree = leaves(at).and(wrong).and(leaves(behind));
                t.add(sort, "a", tree, bad(at));
            }
        }
        for at in [8_192, 8_193] {
            let tree = leaves(at).and(wrong).and(leaves(2));
            t.add(sort, "a", tree, bad(8_192));
        }
    }
}

/// The depth-65 record is the last of the chain.
fn many_and_a_deep_one(t: &mut Trees) {
    let sort = "many, one deep";
    let deep_at = |number: usize| leaves(number - 64).and(chain(65, 0, 0));
    for behind in [0, 1, 8_126, 8_127, 8_128, 8_935] {
        t.add(sort, "", deep_at(64).and(leaves(behind)), deep(64));
    }
    for behind in [0, 1, 800] {
        t.add(sort, "", deep_at(8_191).and(leaves(behind)), deep(8_191));
        t.add(sort, "", deep_at(8_192).and(leaves(behind)), bad(8_192));
    }
}

fn many_and_a_cut_one(t: &mut Trees) {
    let sort = "many, one cut";
    let cut: &[u8] = &[0x03, 0, 0];
    for at in [8_190, 8_191, 8_192] {
        t.add(sort, "", leaves(at).and(cut), bad(at));
    }
    t.add(sort, "", leaves(8_193).and(cut), bad(8_192));
    t.add(sort, "", leaves(8_999).and(cut), bad(8_192));
    // a first record that counts the cut one
    let held = |below: u32, between: usize| {
        let first = Pieces::from(node(0, 0, below));
        first.and(leaves(between)).and(cut)
    };
    t.add(sort, "", held(8_191, 8_190), bad(8_191));
    t.add(sort, "", held(8_192, 8_190), bad(0));
    t.add(sort, "", held(8_192, 8_191), bad(8_192));
    t.add(sort, "", held(8_193, 8_191), bad(0));
    // a bad and a deep record in front of it
    let wrong = Pieces::from(leaf(1, 0)).and(leaves(8_191)).and(cut);
    t.add(sort, "", wrong, bad(0));
    let deeper = Pieces::from(chain(65, 0, 0)).and(leaves(8_128)).and(cut);
    t.add(sort, "", deeper, deep(64));
}

pub fn depths(t: &mut Trees) {
    let sort = "depth";
    for n in 63..=66 {
        let expected = if n <= 64 { good(n) } else { deep(64) };
        t.add(sort, "", chain(n, 0, 0), expected);
        t.add(sort, "abcd", chain(n, 1, 3), expected);
        // the last one a leaf
        let mut with_leaf = chain(n, 0, 0);
        with_leaf[n - 1] = leaf(0, 0);
        t.add(sort, "", with_leaf, expected);
    }
    several_chains(t);
    deep_and_bad(t);
}

fn several_chains(t: &mut Trees) {
    let sort = "depth";
    let both = |first: usize, second: usize| [chain(first, 0, 0), chain(second, 0, 0)].concat();
    // each starts at depth 1 again
    t.add(sort, "", both(64, 64), good(128));
    t.add(sort, "", both(64, 65), deep(128));
    t.add(sort, "", both(1, 65), deep(65));
    // two at depth 65, in two chains and in one: the first is told
    t.add(sort, "", both(65, 65), deep(64));
    let mut two = chain(66, 0, 0);
    two[64] = leaf(0, 0);
    two[65] = leaf(0, 0);
    t.add(sort, "", two, deep(64));
}

/// 3 before 7 in one record.
fn deep_and_bad(t: &mut Trees) {
    let sort = "depth and bad";
    let source = "aé€𐍈z";
    let parents = |last: Rec| {
        let mut tree = chain(65, 1, 10);
        tree[64] = last;
        tree
    };
    t.add(sort, source, parents(leaf(3, 6)), deep(64));
    for wrong in [
        leaf(6, 3),
        leaf(6, 12),
        leaf(2, 6),
        leaf(1, 8),
        leaf(0, 3),
        leaf(10, 11),
        node(3, 6, 1),
        node(3, 6, u32::MAX),
    ] {
        t.add(sort, source, parents(wrong), bad(64));
    }
    // of two records the first, whatever it is
    let wrong = vec![leaf(6, 3)];
    let behind = [parents(leaf(3, 6)), wrong.clone()].concat();
    t.add(sort, source, behind, deep(64));
    let in_front = [wrong, parents(leaf(3, 6))].concat();
    t.add(sort, source, in_front, bad(0));
    let mut above = parents(leaf(3, 6));
    above[63] = node(6, 3, 1);
    t.add(sort, source, above, bad(63));
    let whole = join(&parents(leaf(3, 6)));
    for cut in 1..9 {
        let tree = whole[..whole.len() - cut].to_vec();
        t.add(sort, source, tree, bad(64));
    }
}
