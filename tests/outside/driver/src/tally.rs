//! What was run, what it reached, and what differed.
use std::collections::BTreeMap;

use oracle::call::Call;

use crate::lent::{self, STATE};
use crate::reference::{By, Want};
use crate::rules;

const LITERALS: [&str; 8] = [
    "lit {}", "lit ||", "lit ()", "lit {", "lit }", "lit ,", "lit ;", "lit :",
];
const HINTS: [&str; 4] = [
    "comments Line",
    "comments Prefix",
    "comments Suffix",
    "comments Infix",
];
const FLUSHES: [&str; 2] = ["flush_whitespace 0", "flush_whitespace 1"];

/// Done calls, each at least once with something let out or written.
const CALLS: [&str; 8] = [
    "write_owned",
    "write_raw",
    "ignore",
    "indent",
    "nl",
    "ws",
    "flush_prefix_comments",
    "finish",
];
const OPENINGS: [&str; 6] = [
    "open done",
    "open 1",
    "open 2",
    "open 3",
    "open 5",
    "open 7",
];
const REFUSALS: [&str; 13] = [
    "call 1", "call 2", "call 3", "call 7", "lent 4", "lent 5", "lent 6", "call 4", "call 5",
    "call 6", "call 10", "call 11", "call 12",
];
/// Of runs, whatever their node.
const RUNS: [&str; 15] = [
    "run done",
    "run 1",
    "run 2",
    "run 3",
    "run 7",
    "run lent 4",
    "run lent 5",
    "run lent 6",
    "run 4",
    "run 5",
    "run 6",
    "run 8",
    "run 9",
    "run 10",
    "run 11",
];
/// Of layouts; done ones on both sides of the length up to which the library takes
/// its small table.
const LAYOUTS: [&str; 16] = [
    "layout done",
    "layout 1",
    "layout 2",
    "layout 3",
    "layout 7",
    "layout lent 4",
    "layout lent 5",
    "layout lent 6",
    "layout 4",
    "layout 5",
    "layout 6",
    "layout 8",
    "layout 9",
    "layout 10",
    "short tree laid out",
    "long tree laid out",
];
/// The longest tree, in bytes, for which the library takes its small table.
pub const SHORT: usize = 18_423;
/// Answers of the table of runs.
const ANSWERS: [u64; 8] = [0, 4, 5, 6, 8, 9, 10, 11];
const WITHOUT: &str = "a kind without a rule";
const MISSING: &str = "no such node";
const QUEUES: [&str; 5] = ["0 wait", "1 waits", "255 wait", "256 wait", "257th refused"];

/// Everything that a run must reach.
fn required() -> impl Iterator<Item = &'static str> {
    let calls = CALLS
        .into_iter()
        .chain(LITERALS)
        .chain(HINTS)
        .chain(FLUSHES);
    calls
        .chain(OPENINGS)
        .chain(REFUSALS)
        .chain(QUEUES)
        .chain(RUNS)
        .chain(LAYOUTS)
}

#[derive(Default)]
pub struct Tally {
    pub opens: u64,
    pub calls: u64,
    /// of these calls, runs and layouts
    pub runs: u64,
    pub layouts: u64,
    /// of all of them, compared with rune's own output.rs too
    pub with_rust: u64,
    pub layouts_with_rust: u64,
    groups: BTreeMap<&'static str, (u64, u64)>,
    reached: BTreeMap<&'static str, u64>,
    /// runs over a good script, by the node's kind and the answer's number
    kinds: BTreeMap<(&'static str, u64), u64>,
    pub differences: Vec<String>,
}

impl Tally {
    fn reach(&mut self, what: &'static str) {
        *self.reached.entry(what).or_default() += 1;
    }

    pub fn history(&mut self, group: &'static str, calls: u64) {
        let (histories, made) = self.groups.entry(group).or_default();
        *histories += 1;
        *made += calls;
    }

    pub fn opened(&mut self, want: &Want) {
        self.opens += 1;
        self.reach(match want.answer >> 32 {
            0 => OPENINGS[0],
            1 => OPENINGS[1],
            2 => OPENINGS[2],
            3 => OPENINGS[3],
            5 => OPENINGS[4],
            _ => OPENINGS[5],
        });
    }

    /// A call on a state that had so many waiting.
    pub fn called(&mut self, record: &[u8], waited: usize, want: &Want) {
        self.calls += 1;
        if want.answer != 0 {
            self.reach(refusal(want));
            if want.by == By::Call && want.answer >> 32 == 5 && waited == 256 {
                self.reach(QUEUES[4]);
            }
            return;
        }
        let state = want.state.as_ref().expect("a success leaves a state");
        debug_assert_eq!(state.len(), STATE);
        match lent::word(state, lent::COUNT) {
            0 => self.reach(QUEUES[0]),
            1 => self.reach(QUEUES[1]),
            255 => self.reach(QUEUES[2]),
            256 => self.reach(QUEUES[3]),
            _ => {}
        }
        let call = Call::decode(record).expect("a good record");
        // a hint that lets nothing out shows little
        let idle = want.written.is_empty() && matches!(call, Call::Comments(_) | Call::Finish);
        if !idle {
            self.reach(done(call));
        }
    }

    /// A run on a node of this kind, if there is one.
    pub fn ran(&mut self, kind: Option<u8>, want: &Want) {
        self.calls += 1;
        self.runs += 1;
        self.reach(answered("run", &RUNS, want));
        if want.by == By::Call {
            let name = kind.map_or(MISSING, |k| rules::name(k).unwrap_or(WITHOUT));
            *self.kinds.entry((name, want.answer >> 32)).or_default() += 1;
        }
    }

    /// A layout of a tree of so many bytes.
    pub fn laid(&mut self, tree_len: usize, want: &Want) {
        self.calls += 1;
        self.layouts += 1;
        self.reach(answered("layout", &LAYOUTS, want));
        if want.answer == 0 {
            self.reach(LAYOUTS[if tree_len <= SHORT { 14 } else { 15 }]);
        }
    }

    pub fn add(&mut self, other: Tally) {
        self.opens += other.opens;
        self.calls += other.calls;
        self.runs += other.runs;
        self.layouts += other.layouts;
        for (kind, n) in other.kinds {
            *self.kinds.entry(kind).or_default() += n;
        }
        self.with_rust += other.with_rust;
        self.layouts_with_rust += other.layouts_with_rust;
        for (group, (histories, made)) in other.groups {
            let sum = self.groups.entry(group).or_default();
            *sum = (sum.0 + histories, sum.1 + made);
        }
        for (what, n) in other.reached {
            *self.reached.entry(what).or_default() += n;
        }
        self.differences.extend(other.differences);
    }

    /// What a run of the driver had to reach and did not; every rule is to be done,
    /// and refused by the room and by itself.
    pub fn never_reached(&self) -> Vec<String> {
        let missed = required().filter(|w| !self.reached.contains_key(w));
        let rules = rules::KINDS
            .iter()
            .flat_map(|k| [0, 4, 8].map(|n| (k.1, n)));
        let rules = rules.filter(|rule| !self.kinds.contains_key(rule));
        missed
            .map(String::from)
            .chain(rules.map(|(name, n)| format!("a run on {name} with answer {n}")))
            .collect()
    }

    fn show_runs(&self) {
        let numbers = ANSWERS.map(|n| format!("{n:8}"));
        println!("  runs over good scripts and states, done (0) and refused:");
        println!("  {:22}{}", "", numbers.concat());
        let names = rules::KINDS.iter().map(|k| k.1);
        for name in names.chain([WITHOUT, MISSING]) {
            let counts = ANSWERS.map(|n| {
                let count = self.kinds.get(&(name, n)).unwrap_or(&0);
                format!("{count:8}")
            });
            println!("  {name:22}{}", counts.concat());
        }
    }

    pub fn show(&self) {
        println!("  group            histories      steps");
        for (group, (histories, made)) in &self.groups {
            println!("  {group:14} {histories:11} {made:10}");
        }
        println!("  reached:");
        let all: Vec<&str> = required().collect();
        for line in all.chunks(6) {
            let part = |what: &&str| format!("{what} {}", self.reached.get(what).unwrap_or(&0));
            println!(
                "    {}",
                line.iter().map(part).collect::<Vec<_>>().join(" · ")
            );
        }
        self.show_runs();
    }
}

fn refusal(want: &Want) -> &'static str {
    let sort = if want.by == By::Lent { "lent" } else { "call" };
    let number = (want.answer >> 32).to_string();
    let is_it = |name: &&str| name.split_once(' ') == Some((sort, &number[..]));
    REFUSALS
        .into_iter()
        .find(is_it)
        .expect("a refusal of the list")
}

/// The name in the list of what this function answered.
fn answered(function: &str, list: &'static [&str], want: &Want) -> &'static str {
    let number = want.answer >> 32;
    let lent = if want.by == By::Lent { "lent " } else { "" };
    let name = match number {
        0 => format!("{function} done"),
        _ => format!("{function} {lent}{number}"),
    };
    let named = list.iter().find(|n| **n == name);
    named.expect("an answer of the list")
}

fn done(call: Call) -> &'static str {
    match call {
        Call::WriteOwned(_) => CALLS[0],
        Call::WriteRaw(_) => CALLS[1],
        Call::Ignore(_) => CALLS[2],
        Call::Indent(_) => CALLS[3],
        Call::Nl(_) => CALLS[4],
        Call::Ws => CALLS[5],
        Call::FlushPrefixComments => CALLS[6],
        Call::Finish => CALLS[7],
        Call::Lit(n) => LITERALS[n as usize],
        Call::Comments(n) => HINTS[n as usize],
        Call::FlushWhitespace(n) => FLUSHES[n as usize],
    }
}
