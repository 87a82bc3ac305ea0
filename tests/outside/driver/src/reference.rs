//! What the exported functions must answer and leave: opening in two ways, the
//! checks on what is lent, then the engine of document 01's words; a run or layout
//! is the calls that rune's format.rs makes. A function of what is lent, and of
//! nothing else.
use oracle::call::Step;
use oracle::docengine::DocEngine;
use oracle::grammar::{Rec, Tree};
use oracle::refusal::Refusal;
use oracle::{opening, opening_again};

use crate::lent::{self, STATE};
use crate::rules;

const BLOCK_BODY: u8 = 0x80;

/// A source and a tree, and what opening says of them.
pub struct Script {
    pub source: Vec<u8>,
    pub tree: Vec<u8>,
    opened: Result<Tree, Refusal>,
}

impl Script {
    pub fn new(source: Vec<u8>, tree: Vec<u8>) -> Self {
        let opened = opening::open(&source, &tree);
        let count = opened.as_ref().map(|t| t.records.len()).map_err(|r| *r);
        assert_eq!(
            count,
            opening_again::open(&source, &tree),
            "the two ways of opening part"
        );
        Self {
            source,
            tree,
            opened,
        }
    }

    /// The text and the tree, where both are good.
    pub fn good(&self) -> Option<(&str, &Tree)> {
        let tree = self.opened.as_ref().ok()?;
        Some((
            std::str::from_utf8(&self.source).expect("a good source"),
            tree,
        ))
    }

    /// What opening refuses it by.
    pub fn refusal(&self) -> Option<Refusal> {
        self.opened.as_ref().err().copied()
    }

    pub fn records(&self) -> &[Rec] {
        self.opened.as_ref().map_or(&[], |t| &t.records)
    }
}

/// Which checks answered.
#[derive(Debug, Clone, Copy, PartialEq, Eq)]
pub enum By {
    Opening,
    Lent,
    Call,
}

pub struct Want {
    pub answer: u64,
    pub by: By,
    /// None: as it was
    pub state: Option<Vec<u8>>,
    /// behind the former output
    pub written: Vec<u8>,
    /// from where on the buffer is zero: of a refused run or layout
    pub zero_from: Option<usize>,
    /// what a refused run or layout had written, which nobody may see
    pub hidden: Vec<u8>,
}

impl Want {
    fn refused(r: Refusal, by: By) -> Self {
        Self {
            answer: r.packed(),
            by,
            state: None,
            written: vec![],
            zero_from: None,
            hidden: vec![],
        }
    }

    fn done(state: Vec<u8>, written: Vec<u8>) -> Self {
        Self {
            answer: 0,
            by: By::Call,
            state: Some(state),
            written,
            zero_from: None,
            hidden: vec![],
        }
    }
}

pub fn open(script: &Script, state_len: usize) -> Want {
    match &script.opened {
        Err(r) => Want::refused(*r, By::Opening),
        Ok(_) if state_len != STATE => Want::refused(Refusal::new(5, 8_192), By::Lent),
        Ok(_) => Want::done(vec![0; STATE], vec![]),
    }
}

pub fn call(script: &Script, state: &[u8], out_len: usize, record: &[u8]) -> Want {
    call_by(str::trim_end, script, state, out_len, record)
}

/// By another rule of trimming: one of the faults.
pub fn call_by(
    trim: fn(&str) -> &str,
    script: &Script,
    state: &[u8],
    out_len: usize,
    record: &[u8],
) -> Want {
    let Some((text, tree)) = script.good() else {
        return Want::refused(*script.opened.as_ref().err().unwrap(), By::Opening);
    };
    let state = match lent::checked(text, state, out_len) {
        Ok(state) => state,
        Err(r) => return Want::refused(r, By::Lent),
    };
    let mut engine = DocEngine::new(text, &tree.records, out_len);
    engine.trim = trim;
    engine.state = state;
    match engine.call(record) {
        Err(r) => Want::refused(r, By::Call),
        Ok(()) => Want::done(lent::encode(&engine.state), engine.output.into_bytes()),
    }
}

/// A step of the oracle's files: a run or layout where the bytes are one, else a call.
pub fn step(script: &Script, state: &[u8], out_len: usize, step: &[u8]) -> Want {
    match rules::step_of(step) {
        Step::Run(node) => run(script, state, out_len, node),
        Step::Layout => layout(script, state, out_len),
        Step::Call(_) => call(script, state, out_len, step),
    }
}

pub fn run(script: &Script, state: &[u8], out_len: usize, node: u32) -> Want {
    run_by(&|calls| calls, script, state, out_len, node)
}

pub fn layout(script: &Script, state: &[u8], out_len: usize) -> Want {
    layout_by(&|calls| calls, script, state, out_len)
}

/// How a fault changes the calls of a run or layout.
pub type Altered<'a> = &'a dyn Fn(Vec<Vec<u8>>) -> Vec<Vec<u8>>;

/// With the calls changed: one of the faults.
pub fn run_by(altered: Altered, script: &Script, state: &[u8], out_len: usize, node: u32) -> Want {
    laid_or_hidden(altered, script, state, out_len, Step::Run(node))
}

/// The same of a layout.
pub fn layout_by(altered: Altered, script: &Script, state: &[u8], out_len: usize) -> Want {
    laid_or_hidden(altered, script, state, out_len, Step::Layout)
}

/// Refused, it leaves zeroes from the former length on.
fn laid_or_hidden(
    altered: Altered,
    script: &Script,
    state: &[u8],
    out_len: usize,
    step: Step,
) -> Want {
    let mut want = laid(altered, script, state, out_len, step);
    if want.answer != 0 && lent::shaped(state, out_len) {
        want.zero_from = Some(lent::word(state, lent::LENGTH) as usize);
    }
    want
}

/// What refuses a run or layout before its first call: 11 and 9 of a run; of a
/// layout 8, where record 0 is no block body that holds all other records.
fn unfit(tree: &Tree, step: Step) -> Option<Refusal> {
    if let Step::Run(node) = step {
        return match tree.records.get(node as usize) {
            None => Some(Refusal::new(11, node)),
            Some(r) if rules::name(r.kind).is_none() => Some(Refusal::new(9, node)),
            _ => None,
        };
    }
    let whole = |r: &Rec| r.kind == BLOCK_BODY && r.below as usize + 1 == tree.records.len();
    match tree.records.first().is_some_and(whole) {
        true => None,
        false => Some(Refusal::new(8, 0)),
    }
}

/// Opening, what is lent, 10, what the tree lacks, then the calls of the rules.
fn laid(altered: Altered, script: &Script, state: &[u8], out_len: usize, step: Step) -> Want {
    let Some((text, tree)) = script.good() else {
        return Want::refused(*script.opened.as_ref().err().unwrap(), By::Opening);
    };
    let state = match lent::checked(text, state, out_len) {
        Ok(state) => state,
        Err(r) => return Want::refused(r, By::Lent),
    };
    if state.finished {
        return Want::refused(Refusal::new(10, state.len as u32), By::Call);
    }
    if let Some(r) = unfit(tree, step) {
        return Want::refused(r, By::Call);
    }
    let plan = rules::plan(text, tree, &state, step);
    let mut engine = DocEngine::new(text, &tree.records, out_len);
    engine.state = state;
    for call in altered(plan.calls) {
        if let Err(r) = engine.call(&call) {
            return Want {
                hidden: engine.output.into_bytes(),
                ..Want::refused(r, By::Call)
            };
        }
    }
    match plan.refusal {
        Some(r) => Want {
            hidden: engine.output.into_bytes(),
            ..Want::refused(r, By::Call)
        },
        None => Want::done(lent::encode(&engine.state), engine.output.into_bytes()),
    }
}
