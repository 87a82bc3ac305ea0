//! Small trees of each rule, and every edit of them: comments and newlines in each
//! gap, each record missing, doubled or of another kind, one left over.
use super::small::{BLOCKS, EXPRS, LINED, LOOSENED, SPACED};
use super::words::Words;
use super::{encode, history, nodes, one_run};
use crate::call::{run_step, Call};
use crate::record::history::History;

fn every() -> impl Iterator<Item = &'static str> {
    let all = SPACED.iter().chain(LINED).chain(LOOSENED);
    all.chain(EXPRS).chain(BLOCKS).copied()
}

/// Which hint lets a comment out is told by one of each kind: a line comment keeps
/// back what stands behind it from all hints but Line, and from `nl` if it stands
/// on a line of its own.
const BLOCK_FIRST: &str = r#""/*c*/" "\n" "//l" "\n""#;
const LINE_FIRST: &str = r#""//l" "\n\n" "/*c*/""#;
const BLOCK_ONLY: &str = r#""/*c*/" "\n" "/*d*/""#;
const BELOW: &str = r#""\n" "/*c*/" "\n""#;
const NEWLINES: &str = r#""\n\n\n""#;

/// Not every sort in every gap, so that the file stays small: the first sort tells
/// all hints apart, but makes each list loose.
pub fn gaps(all: &mut Vec<History>) {
    for tree in SPACED.iter().chain(EXPRS).chain(BLOCKS) {
        let words = Words::of(tree);
        for gap in words.gaps() {
            in_gap(all, &words, gap, BLOCK_FIRST);
            if gap % 16 == 2 {
                in_gap(all, &words, gap, LINE_FIRST);
            }
        }
    }
    for tree in LOOSENED {
        let words = Words::of(tree);
        for gap in words.gaps() {
            in_gap(all, &words, gap, BLOCK_ONLY);
            in_gap(all, &words, gap, LINE_FIRST);
        }
    }
    for tree in LINED {
        let words = Words::of(tree);
        for gap in words.gaps() {
            in_gap(all, &words, gap, BLOCK_FIRST);
            in_gap(all, &words, gap, LINE_FIRST);
            if gap % 2 == 0 {
                in_gap(all, &words, gap, BELOW);
            }
        }
    }
}

fn in_gap(all: &mut Vec<History>, words: &Words, gap: usize, more: &str) {
    let tree = words.with_in(gap, more);
    let mut steps = vec![run_step(nodes(&tree)[0])];
    if gap == 0 {
        steps.splice(0..0, encode(&[Call::FlushPrefixComments]));
    }
    all.push(history("gaps", &tree, steps));
}

/// Every gap at once, at some indentation.
pub fn all_gaps(all: &mut Vec<History>) {
    let sorts = [BLOCK_FIRST, NEWLINES, LINE_FIRST, BELOW];
    for (i, tree) in every().enumerate().step_by(3) {
        let tree = Words::of(tree).with_in_all(&sorts, i);
        let mut steps = encode(&[Call::Indent(1), Call::FlushPrefixComments]);
        steps.push(run_step(nodes(&tree)[0]));
        all.push(history("all gaps", &tree, steps));
    }
}

/// Of the expressions' records each is missing, and every second one of another kind
/// or doubled.
pub fn damages(all: &mut Vec<History>) {
    for (i, tree) in every().enumerate() {
        let words = Words::of(tree);
        let each = i < SPACED.len() + LINED.len();
        for record in words.records() {
            all.push(one_run("missing", &words.without(record)));
            if each || record % 2 == 0 {
                all.push(one_run("another kind", &words.of_another_kind(record)));
            }
            if words.is_leaf(record) && (each || record % 2 == 1) {
                all.push(one_run("doubled", &words.doubled(record)));
            }
        }
    }
}

/// A record too many at the end of each node, behind comments and newlines too.
pub fn left_over(all: &mut Vec<History>) {
    let sorts = [r#""z""#, r#"(F0)"#, r#""//l" "\n" "," "z""#];
    for tree in every() {
        let words = Words::of(tree);
        for (i, end) in words.ends().into_iter().rev().enumerate().take(4) {
            let more = sorts[i % sorts.len()];
            all.push(one_run("left over", &words.with_in(end, more)));
        }
    }
}
