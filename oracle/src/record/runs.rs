//! Recorded histories of layout runs on nodes of every rule, with calls between them.
use std::collections::BTreeMap;

use super::history::{Made, Recorded};
use super::rules;
use crate::call::Step;
use crate::fmt::format::has_rule;
use crate::kinds::KIND_NAME;

/// The file's bytes; prints how many histories of each sort they hold, and how the
/// runs on each kind end.
pub fn record() -> Vec<u8> {
    let mut recorded = Recorded::default();
    let mut answers = Answers::default();
    for history in rules::all() {
        recorded.add(&history, &mut |made| answers.note(made));
    }
    let bytes = recorded.file();
    println!(
        "{} histories, {} steps, {} of them runs, {} bytes",
        recorded.histories,
        recorded.steps,
        answers.runs(),
        bytes.len()
    );
    println!("  histories of a sort, and those with a refused step:");
    recorded.sorts.show_beside(&recorded.refused);
    answers.show();
    let largest = &recorded.largest;
    println!(
        "  at most: source {}, tree {}, buffer {}, step {}",
        largest.source, largest.tree, largest.cap, largest.step
    );
    assert!(bytes.len() < 2_200_000, "the file grew too large");
    // what the program that replays it has room for
    assert!(
        largest.tree <= 4_096 && largest.cap <= 8_192,
        "a history grew too large"
    );
    bytes
}

/// Makes all runs, for counting the lines that they reach.
#[cfg(feature = "trace")]
pub fn make() {
    let mut recorded = Recorded::default();
    for history in rules::all() {
        recorded.add(&history, &mut |_| ());
    }
}

/// How many runs on each kind were answered so; 0 is a run that was done.
#[derive(Default)]
struct Answers {
    by_kind: BTreeMap<&'static str, BTreeMap<u64, usize>>,
}

const NUMBERS: [u64; 8] = [0, 4, 5, 6, 8, 9, 10, 11];
/// How many kinds have a rule.
const RULES: usize = 60;
/// Those whose rule indents, by itself or in the block that it must have.
const INDENTING: [&str; 18] = [
    "struct_body",
    "variant",
    "item_struct",
    "item_enum",
    "block",
    "item_fn",
    "item_impl",
    "item_mod",
    "expr_array",
    "expr_call",
    "expr_object",
    "expr_chain",
    "expr_if",
    "expr_while",
    "expr_loop",
    "expr_for",
    "expr_select",
    "expr_match",
];
const WITHOUT: &str = "a kind without a rule";
const MISSING: &str = "no such node";

impl Answers {
    fn note(&mut self, made: &Made) {
        let Step::Run(node) = made.step else {
            return;
        };
        let name = match made.tree.records.get(node as usize) {
            None => MISSING,
            Some(r) if has_rule(r.rust_kind()) => KIND_NAME[r.kind as usize],
            Some(_) => WITHOUT,
        };
        let answers = self.by_kind.entry(name).or_default();
        *answers.entry(made.answer >> 32).or_default() += 1;
    }

    fn of(&self, name: &str, number: u64) -> usize {
        let answers = self.by_kind.get(name);
        let n = answers.and_then(|a| a.get(&number));
        n.copied().unwrap_or(0)
    }

    fn runs(&self) -> usize {
        self.by_kind.values().flat_map(|a| a.values()).sum()
    }

    fn show(&self) {
        let numbers = NUMBERS.map(|n| format!("{n:5}"));
        println!("  runs that were done (0) and refused:");
        println!("  {:22} {}", "", numbers.concat());
        for name in self.by_kind.keys() {
            let counts = NUMBERS.map(|n| format!("{:5}", self.of(name, n)));
            println!("  {name:22} {}", counts.concat());
        }
        self.check();
    }

    /// Every rule is done, and refused: for want of room, by the queue, by itself,
    /// by a finished engine; at the last indentation where it indents.
    fn check(&self) {
        let mut rules: Vec<&str> = self.by_kind.keys().copied().collect();
        rules.retain(|n| *n != WITHOUT && *n != MISSING);
        assert_eq!(rules.len(), RULES);
        for name in rules {
            for number in [0, 4, 5, 8, 10] {
                let n = self.of(name, number);
                assert!(n > 0, "{name} is never answered {number}");
            }
        }
        for name in INDENTING {
            assert!(self.of(name, 6) > 0, "{name} is never answered 6");
        }
    }
}
