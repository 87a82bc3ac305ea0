//! The family `rules`: runs on every node of a random tree of paths, patterns, bodies,
//! structs, enums and uses, good or damaged, with calls between.
use super::builder::Force;
use super::damage::Patient;
use super::family::FOCUS;
use super::{expr, history, Builder, Opts, Rng};
use crate::ast::Kind;
use crate::call::{run_step, Call};
use crate::case::{self, Case};
use crate::fmt::format::has_rule;
use crate::grammar::Rec;
use crate::kinds::k::*;
use crate::opening::join;

/// The kinds that it runs on. Their rules call no rule of another kind.
const KINDS: [Kind; 15] = [
    Kind::Path,
    Kind::PathGenerics,
    Kind::Pat,
    Kind::PatArray,
    Kind::PatTuple,
    Kind::PatObject,
    Kind::FnArgs,
    Kind::TupleBody,
    Kind::StructBody,
    Kind::Variant,
    Kind::ItemStruct,
    Kind::ItemEnum,
    Kind::ItemUse,
    Kind::ItemUsePath,
    Kind::ItemUseGroup,
];

pub(super) fn rules(rng: &mut Rng) -> Case {
    let tree = nodes(rng);
    damaged_runs(rng, tree, 6, |rng, records| steps(rng, records))
}

/// The family `exprs`: the same on small random expressions, statements and items.
pub(super) fn exprs(rng: &mut Rng) -> Case {
    let tree = expressions(rng);
    damaged_runs(rng, tree, 2, |rng, records| {
        let mut steps = before(rng, records.len());
        let n = 1 + rng.below(10);
        steps.extend(some_runs(rng, records, n));
        steps
    })
}

/// A tree damaged in up to three places, and steps over it; one in so many cases has
/// too little room.
fn damaged_runs(
    rng: &mut Rng,
    (source, records): (String, Vec<Rec>),
    cramped: usize,
    steps: impl Fn(&mut Rng, &[Rec]) -> Vec<Vec<u8>>,
) -> Case {
    let mut patient = Patient {
        source: source.into_bytes(),
        records,
        bytes: None,
    };
    let mut damage = "";
    for _ in 0..rng.pick(&[0, 0, 1, 1, 2, 3]) {
        damage = patient.damage_in_good_tree(rng);
    }
    let Patient {
        source, records, ..
    } = patient;
    let steps = steps(rng, &records).concat();
    let mut case = Case {
        damage,
        ..Case::new(source, join(&records), steps)
    };
    if rng.one_in(cramped) {
        let needed = case::run(&case).output.len();
        case.cap = rng.below(needed + 1);
    }
    case
}

/// One to three nodes of these kinds side by side.
fn nodes(rng: &mut Rng) -> (String, Vec<Rec>) {
    let opts = Opts {
        size: rng.pick(&[4, 10, 25, 60]),
        ..Opts::random(rng)
    };
    let mut b = Builder::new(rng.branch(), opts);
    b.gap();
    for _ in 0..1 + b.rng.below(3) {
        let inside = b.rng.one_in(3);
        if inside {
            b.node(ITEM);
            b.attributes(3);
        }
        let depth = b.rng.below(4);
        b.node_with_rule(depth);
        if inside {
            b.close();
        }
        b.gap();
    }
    b.done()
}

/// One or two nodes side by side, lists and chains often near a width of 80.
fn expressions(rng: &mut Rng) -> (String, Vec<Rec>) {
    let sort = rng.below(FOCUS);
    let opts = Opts {
        size: rng.pick(&[4, 10, 25, 60]),
        fill: rng.one_in(3),
        force: if sort < expr::SORTS {
            Force::Expr(sort)
        } else {
            Force::Nothing
        },
        ..Opts::random(rng)
    };
    let mut b = Builder::new(rng.branch(), opts);
    b.gap();
    for _ in 0..1 + b.rng.below(2) {
        let depth = 1 + b.rng.below(4);
        match b.rng.below(10) {
            0..=2 => b.inner(depth),
            3 => b.expr(depth),
            4 => b.block(depth),
            5 => b.condition(depth),
            6 => b.jump(depth),
            7 => b.range(depth),
            8 => b.statement(depth),
            _ => b.item(depth),
        }
        b.gap();
    }
    let (source, mut records) = b.done();
    // a statement that needs a semicolon, or none, whatever it is
    for r in records
        .iter_mut()
        .filter(|r| (ITEM..=EXPR_SEMI).contains(&r.kind))
    {
        r.kind ^= rng.one_in(4) as u8;
    }
    (source, records)
}

/// So many runs on nodes that have a rule, the first of them first, and calls between.
pub(super) fn some_runs(rng: &mut Rng, records: &[Rec], n: usize) -> Vec<Vec<u8>> {
    let with_rule: Vec<usize> = (0..records.len())
        .filter(|i| has_rule(records[*i].rust_kind()))
        .collect();
    let mut steps = vec![];
    for (i, first) in with_rule.iter().take(n).enumerate() {
        let node = if i < 2 { *first } else { rng.pick(&with_rule) };
        steps.push(run_step(node as u32));
        if rng.one_in(4) {
            steps.push(between(rng).encode());
        }
    }
    steps
}

impl Builder {
    fn node_with_rule(&mut self, depth: usize) {
        match self.rng.below(13) {
            0 => self.path(depth),
            1 => self.path_generics(depth),
            2 => self.pat(depth),
            3 => self.pat_array(depth),
            4 => self.pat_tuple(depth),
            5 => self.pat_object(depth),
            6 => self.fn_args(depth),
            7 => drop(self.body()),
            8 => self.variant(),
            9 => {
                self.node(ITEM_USE_PATH);
                self.use_path(depth);
                self.close();
            }
            10 => self.use_group(depth),
            _ => self.small_item(depth),
        }
    }

    fn small_item(&mut self, depth: usize) {
        let kind = self.rng.pick(&[ITEM_STRUCT, ITEM_ENUM, ITEM_USE]);
        self.node(kind);
        if self.rng.one_in(2) {
            self.modifiers(false);
        }
        self.item_content(kind, depth);
        self.close();
    }
}

/// A run on each node of these kinds, seldom one on another that has none, and
/// calls between.
fn steps(rng: &mut Rng, records: &[Rec]) -> Vec<Vec<u8>> {
    let first = |i: &usize| KINDS.contains(&records[*i].rust_kind());
    let without = |i: &usize| !has_rule(records[*i].rust_kind());
    let mut runs: Vec<usize> = (0..records.len()).filter(first).collect();
    let others: Vec<usize> = (0..records.len()).filter(without).collect();
    if rng.one_in(3) {
        runs.reverse();
    }
    if rng.one_in(6) {
        runs.extend(others.get(rng.below(others.len() + 1)));
        runs.push(records.len() + rng.below(2));
    }
    let mut steps = before(rng, records.len());
    for node in runs {
        steps.push(run_step(node as u32));
        if rng.one_in(3) {
            steps.push(between(rng).encode());
        }
    }
    if rng.one_in(4) {
        let again = steps[rng.below(steps.len().max(1))..].to_vec();
        steps.push(Call::Finish.encode());
        steps.extend(again.into_iter().take(2));
    }
    steps
}

fn before(rng: &mut Rng, records: usize) -> Vec<Vec<u8>> {
    let mut steps = vec![];
    if rng.one_in(3) {
        steps = history(rng, records, 3, 0);
        // a finished engine would refuse all runs
        steps.retain(|s| *s != Call::Finish.encode());
    }
    if rng.one_in(8) {
        steps.push(Call::Indent(60 + rng.below(5) as i8).encode());
    }
    if rng.one_in(12) && records > 0 {
        // a queue that fills up
        let from = rng.below(records) as u32;
        steps.extend(vec![Call::Ignore(from).encode(); 100]);
    }
    steps
}

fn between(rng: &mut Rng) -> Call {
    match rng.below(8) {
        0 | 1 => Call::Nl(1 + rng.below(3) as u8),
        2 | 3 => Call::Ws,
        4 => Call::Lit(rng.below(8) as u8),
        5 => Call::Indent(rng.pick(&[1, -1])),
        _ => Call::Comments(rng.below(4) as u8),
    }
}
