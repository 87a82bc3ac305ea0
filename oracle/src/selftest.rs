//! `oracle selftest`: document 01's small sessions, its two lists, the students'
//! errors, and a case for each reading; each with its result.
use crate::alloc;
use crate::ast::{Kind, Span};
use crate::call::Call;
use crate::case::{self, Case};
use crate::docengine::DocEngine;
use crate::engine::Engine;
use crate::fmt::format::has_rule;
use crate::fmt::Formatter;
use crate::grammar::Tree;
use crate::kinds::{KIND_NAME, KIND_OF};
use crate::opening::join;
use crate::readings::{self, Answer};
use crate::{sx, Diagnostics};

/// Runs everything; says whether all went as it should.
pub fn run() -> bool {
    let mut report = Report { good: 0, bad: 0 };
    widths(&mut report);
    for session in SESSIONS {
        run_session(&mut report, session);
    }
    lists(&mut report);
    for reading in readings::all() {
        run_reading(&mut report, &reading);
    }
    kinds_without_rule(&mut report);
    println!("{} good, {} bad", report.good, report.bad);
    report.bad == 0
}

struct Report {
    good: usize,
    bad: usize,
}

impl Report {
    fn line(&mut self, name: &str, good: bool, result: &str) {
        let word = if good { "good" } else { "BAD " };
        println!("{word}  {name:48} {result}");
        match good {
            true => self.good += 1,
            false => self.bad += 1,
        }
    }
}

/// P1 to P3: the 81st character outside White_Space.
fn widths(report: &mut Report) {
    for (name, text, want) in [
        ("P1", "a".repeat(80), false),
        ("P2", "a".repeat(81), true),
        ("P3", "a".repeat(80) + "\u{3000}", false),
    ] {
        let tree = Tree::new(vec![]);
        let (mut buffer, mut diagnostics) = (alloc::String::with_cap(0), Diagnostics);
        let fmt = Formatter::new(&text, &tree, &mut buffer, &mut diagnostics);
        let says = fmt.is_at_least(Span::new(0, text.len() as u32), 80);
        let result = if says { "yes" } else { "no" };
        report.line(name, says == want, result);
    }
}

struct Session {
    name: &'static str,
    tree: &'static str,
    calls: &'static [Call],
    output: &'static str,
    waiting: usize,
    /// number and place, of the last call
    refused: Option<(u8, u32)>,
}

const fn session(
    name: &'static str,
    tree: &'static str,
    calls: &'static [Call],
    output: &'static str,
    waiting: usize,
) -> Session {
    Session {
        name,
        tree,
        calls,
        output,
        waiting,
        refused: None,
    }
}

/// Writes record 0, and collects what stands behind it.
const FIRST: Call = Call::WriteOwned(0);

const SESSIONS: &[Session] = &[
    session(
        "P4",
        r#"ident"a" line_comment"// n""#,
        &[FIRST, Call::Nl(1)],
        "a // n",
        0,
    ),
    session(
        "P5",
        r#"ident"a" ws"\n" line_comment"// n""#,
        &[FIRST, Call::Nl(1)],
        "a",
        1,
    ),
    session(
        "P6",
        r#"ident"a" line_comment"// n" block_comment"/* b */""#,
        &[FIRST, Call::Ws],
        "a",
        2,
    ),
    session(
        "P7",
        r#"paren_open"(" block_comment"/* b */""#,
        &[FIRST, Call::Comments(1)],
        "(/* b */ ",
        0,
    ),
    Session {
        refused: Some((6, 0)),
        ..session("P8", "", &[Call::Indent(-1)], "", 0)
    },
    session("P9", r#"ident"a""#, &[Call::Ws, FIRST], " a", 0),
    session(
        "P10",
        r#"ident"a" ws"\n\n\n\n\n" ident"z""#,
        &[FIRST, Call::Nl(1), Call::WriteOwned(2)],
        "a\n\nz",
        0,
    ),
    session(
        "a block comment doesn't pass a line comment",
        r#"ident"a" line_comment"// n" block_comment"/* b */""#,
        &[
            FIRST,
            Call::Comments(1),
            Call::Comments(2),
            Call::Comments(3),
        ],
        "a",
        2,
    ),
    session(
        "nl's offer doesn't overwrite the script's count",
        r#"ident"a" ws"\n" ident"z""#,
        &[FIRST, Call::Nl(2), Call::WriteOwned(2)],
        "a\nz",
        0,
    ),
    session(
        "a lit that wrote no newline keeps the count",
        r#"ident"a" ws"\n\n" ident"z""#,
        &[FIRST, Call::Lit(5), Call::Nl(1), Call::WriteOwned(2)],
        "a,\n\nz",
        0,
    ),
    session(
        "an empty comment leaves the output empty (16)",
        r#"ident"" block_comment"" block_comment"/**/" ident"a""#,
        &[FIRST, Call::Comments(2)],
        "/**/",
        0,
    ),
    session(
        "behind an empty comment a space (16)",
        r#"ident"" block_comment"" ident"a""#,
        &[FIRST, Call::Comments(1)],
        " ",
        0,
    ),
];

/// The Rust's output and refusal, with the second engine at its side.
fn run_session(report: &mut Report, s: &Session) {
    let (source, records) = sx::build(s.tree);
    let tree = Tree::new(records);
    let (mut buffer, mut diagnostics) = (alloc::String::with_cap(100), Diagnostics);
    let mut engine = Engine::new(&source, &tree, &mut buffer, &mut diagnostics);
    let mut words = DocEngine::new(&source, &tree.records, 100);
    let mut refused = None;
    let mut same = true;
    for call in s.calls {
        let answer = engine.call(&call.encode());
        same &= words.call(&call.encode()) == answer;
        same &= words.state == engine.state() && words.output == engine.fmt.output();
        refused = answer.err();
    }
    let waiting = engine.state().queue.len();
    let output = engine.fmt.output();
    let as_wanted =
        output == s.output && waiting == s.waiting && refused.map(|r| (r.no, r.place)) == s.refused;
    let result = match refused {
        Some(r) => r.to_string(),
        None => format!("{output:?}, {waiting} waiting"),
    };
    report.line(s.name, same && as_wanted, &result);
}

/// Document 01's two samples of `exprs`, the whole node run.
fn lists(report: &mut Report) {
    let compact = r#"(expr_call paren_open"(" (expr (path ident"a")) comma"," (expr (path ident"b"))
        ws" " block_comment"/* k */" paren_close")")"#;
    let loose = r#"(expr_call paren_open"(" (expr (path ident"a")) ws" " line_comment"// n" ws"\n"
        paren_close")")"#;
    for (name, tree, want) in [
        ("exprs, compact", compact, "(a, b /* k */)"),
        ("exprs, a line comment", loose, "(\n    a, // n\n)"),
    ] {
        let (source, records) = sx::build(tree);
        let steps = crate::call::run_step(0);
        let case = Case::new(source.into_bytes(), join(&records), steps);
        let outcome = case::run(&case);
        case::counts_as_its_calls(name, &case, &outcome);
        let good = outcome.refusals.is_empty() && outcome.output == want;
        report.line(name, good, &format!("{:?}", outcome.output));
    }
}

fn run_reading(report: &mut Report, reading: &readings::Reading) {
    let case = reading.case();
    let outcome = case::run(&case);
    case::counts_as_its_calls(reading.name, &case, &outcome);
    let (good, result) = match outcome.refusals.last() {
        Some(r) => (
            reading.answer == Answer::Refused(r.no, r.place),
            r.to_string(),
        ),
        None => (
            matches!(reading.answer, Answer::Gives(t) if t == outcome.output),
            format!("{:?}", outcome.output),
        ),
    };
    let name = format!("{:5} {}", reading.rests_on, reading.name);
    report.line(&name, good, &result);
}

/// Reading 12's kinds that only stand inside another kind's rule.
const INSIDE_ANOTHER: &str = "match_arm select_arm expr_else expr_else_if closure_args field \
    expr_try expr_await expr_field expr_index modifiers mod_super mod_self mod_crate mod_in attr \
    inner_attr anon_key operator empty_body error";

/// A run of a lone record of each kind: 9 exactly for the kinds without a rule.
fn kinds_without_rule(report: &mut Report) {
    let inside: Vec<&str> = INSIDE_ANOTHER.split_whitespace().collect();
    let (mut with, mut wrong) = (0, vec![]);
    for kind in 0..=255u8 {
        let name = KIND_NAME[kind as usize];
        let known = KIND_OF[kind as usize] != Kind::Unknown;
        let expected = kind >= 0x80 && known && !inside.contains(&name);
        let record = crate::grammar::Rec::new(kind, 0, 0, 0);
        let steps = crate::call::run_step(0);
        let outcome = case::run(&Case::new(vec![], join(&[record]), steps));
        let nine = outcome.refusals.first().is_some_and(|r| r.no == 9);
        if nine == expected || has_rule(KIND_OF[kind as usize]) != expected {
            wrong.push(name);
        }
        with += expected as usize;
    }
    let result = format!("{with} kinds have a rule, wrong: {wrong:?}");
    report.line("12    kinds without a rule", wrong.is_empty(), &result);
}
