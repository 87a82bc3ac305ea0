//! Document 01's engine around the Rust's Formatter: the checks in front of a call
//! or run, and the state put back after a refusal.
use crate::alloc;
use crate::call::{Call, Step};
use crate::compile::{Error, ErrorKind, Result};
use crate::fmt::{Formatter, LITERALS};
use crate::grammar::Tree;
use crate::refusal::Refusal;
use crate::state::State;
use crate::Diagnostics;

pub struct Engine<'a> {
    pub fmt: Formatter<'a>,
    tree: &'a Tree,
    finished: bool,
    /// Whether the bytes behind the output are zero: a refused run or layout makes
    /// them so, and nothing else touches them.
    pub zeroed: bool,
    /// The longest output that a refused step had written.
    pub most: usize,
}

impl<'a> Engine<'a> {
    pub fn new(
        source: &'a str,
        tree: &'a Tree,
        buffer: &'a mut alloc::String,
        diagnostics: &'a mut Diagnostics,
    ) -> Self {
        Self {
            fmt: Formatter::new(source, tree, buffer, diagnostics),
            tree,
            finished: false,
            zeroed: false,
            most: 0,
        }
    }

    pub fn state(&self) -> State {
        let finished = self.finished;
        State {
            finished,
            ..self.fmt.state()
        }
    }

    pub fn step(&mut self, step: Step<'_>) -> Result<(), Refusal> {
        let answer = match step {
            Step::Call(record) => return self.call(record),
            Step::Run(node) => self.run(node),
            Step::Layout => self.layout(),
        };
        self.zeroed |= answer.is_err();
        answer
    }

    /// Checks 12, 10, 11, then the call's steps.
    pub fn call(&mut self, record: &[u8]) -> Result<(), Refusal> {
        let call = Call::decode(record).ok_or(Refusal::new(12, 0))?;
        self.is_open()?;
        if let Some(node) = call.node() {
            self.has(node)?;
        }
        let tree = self.tree;
        self.attempt(|f| match call {
            Call::WriteOwned(n) => f.write_owned(tree.node(n)),
            Call::WriteRaw(n) => f.write_raw(tree.node(n)),
            Call::Ignore(n) => f.ignore(tree.node(n)),
            Call::Lit(n) => f.lit(LITERALS[n as usize]),
            Call::Comments(n) => f.comments_by_number(n),
            Call::Indent(d) => f.indent(d as isize),
            Call::Nl(n) => f.nl(n as usize),
            Call::Ws => f.ws(),
            Call::FlushWhitespace(p) => f.flush_whitespace(p),
            Call::FlushPrefixComments => f.flush_prefix_comments(),
            Call::Finish => f.finish(),
        })?;
        self.finished = call == Call::Finish;
        Ok(())
    }

    /// Checks 10, 11, 9, then the rule's calls.
    fn run(&mut self, node: u32) -> Result<(), Refusal> {
        self.is_open()?;
        self.has(node)?;
        self.attempt(|f| f.run(node))
    }

    fn layout(&mut self) -> Result<(), Refusal> {
        self.is_open()?;
        self.attempt(|f| f.layout())?;
        self.finished = true;
        Ok(())
    }

    fn is_open(&self) -> Result<(), Refusal> {
        if self.finished {
            return Err(Refusal::new(10, self.fmt.len() as u32));
        }
        Ok(())
    }

    fn has(&self, node: u32) -> Result<(), Refusal> {
        if node as usize >= self.tree.records.len() {
            return Err(Refusal::new(11, node));
        }
        Ok(())
    }

    fn attempt(&mut self, f: impl FnOnce(&mut Formatter<'a>) -> Result<()>) -> Result<(), Refusal> {
        let before = self.fmt.state();
        f(&mut self.fmt).map_err(|e| {
            self.most = self.most.max(self.fmt.len());
            self.fmt.restore(&before);
            refusal(e)
        })
    }
}

pub fn refusal(e: Error) -> Refusal {
    match e.kind {
        ErrorKind::Refused(r) => r,
        kind => unreachable!("{kind:?}"),
    }
}
