//! The cursor that a rule walks over its node's records.
use core::cell::Cell;
use core::panic::Location;

use super::{MaybeNode, Node, One, Rec, Remaining, Tree};
use crate::ast::{Kind, Span};
use crate::compile::{Error, Result};
use crate::cover::hit;
use crate::fmt::Formatter;
use crate::lines::{FORMAT_RS, INNER_EXPR, PAT};

pub struct Stream<'a> {
    tree: &'a Tree,
    /// The node whose records are walked.
    node: u32,
    /// The first record left.
    next: u32,
    end: u32,
    /// The record taken last.
    taken: Option<u32>,
    /// The next `pump` gives the node itself, a leaf.
    lone: Cell<bool>,
}

impl<'a> Stream<'a> {
    pub(super) fn new(tree: &'a Tree, node: &Node<'a>) -> Self {
        Stream {
            tree,
            node: node.number(),
            next: node.number() + 1,
            end: node.behind(),
            taken: None,
            lone: Cell::new(false),
        }
    }

    #[inline]
    fn own(&self) -> &'a Rec {
        &self.tree.records[self.node as usize]
    }

    /// The next record that is no white space and no comment: the cursor passes
    /// over those when it peeks, takes or asks for the end.
    #[inline]
    fn at(&self) -> Option<u32> {
        let left = self.next..self.end;
        left.into_iter()
            .find(|i| !self.tree.records[*i as usize].is_trivia())
    }

    #[inline]
    fn take(&mut self, number: u32) -> Node<'a> {
        let node = self.tree.node(number);
        self.next = node.behind();
        self.taken = Some(number);
        node
    }

    #[inline]
    fn take_if(&mut self, wanted: impl FnOnce(Kind) -> bool) -> Option<Node<'a>> {
        let at = self.at()?;
        let kind = self.tree.records[at as usize].rust_kind();
        wanted(kind).then(|| self.take(at))
    }

    /// A rule may leave white space and comments, nothing else (reading 10).
    pub(super) fn nothing_left(&self) -> Result<()> {
        match self.at() {
            Some(at) => Err(Error::refuse(8, at)),
            None => Ok(()),
        }
    }

    /// Refusal 8 at the record met, or at the rule's node where there is none.
    fn not_met(&self) -> Error {
        Error::refuse(8, self.at().unwrap_or(self.node))
    }

    /// The kind of the stream's own node.
    ///
    /// Document 01 has a leaf written where `inner_expr` is called, and a leaf
    /// `..` or `PatIgnore` where `pat` takes its child. Both functions ask for
    /// the kind and have arms that write what `pump` gives; so for a leaf the
    /// answer leads into such an arm, and `pump` gives the leaf itself. Only the
    /// line that asks tells these two from the other functions that ask.
    #[inline]
    #[track_caller]
    pub fn kind(&self) -> Kind {
        hit();
        let kind = self.own().rust_kind();
        if !self.own().is_leaf() {
            return kind;
        }
        let asked_from = Location::caller();
        assert_eq!(asked_from.file(), FORMAT_RS);
        if INNER_EXPR.contains(&asked_from.line()) {
            self.lone.set(true);
            return Kind::TemplateString;
        }
        if PAT.contains(&asked_from.line()) && matches!(kind, Kind::DotDot | Kind::PatIgnore) {
            self.lone.set(true);
        }
        kind
    }

    #[inline]
    pub fn span(&self) -> Span {
        self.own().span()
    }

    #[inline]
    #[track_caller]
    pub fn peek(&mut self) -> Kind {
        hit();
        match self.at() {
            Some(at) => self.tree.records[at as usize].rust_kind(),
            None => Kind::Eof,
        }
    }

    #[inline]
    #[track_caller]
    pub fn is_eof(&mut self) -> bool {
        hit();
        self.at().is_none()
    }

    #[inline]
    #[track_caller]
    pub fn pump(&mut self) -> Result<Node<'a>> {
        hit();
        if self.lone.take() {
            return Ok(self.tree.node(self.node));
        }
        match self.at() {
            Some(at) => Ok(self.take(at)),
            None => Err(self.not_met()),
        }
    }

    #[inline]
    #[track_caller]
    pub fn eat(&mut self, expected: Kind) -> MaybeNode<'a> {
        self.eat_matching(|k| k == expected)
    }

    #[inline]
    #[track_caller]
    pub fn eat_matching(&mut self, wanted: impl FnOnce(Kind) -> bool) -> MaybeNode<'a> {
        hit();
        match self.take_if(wanted) {
            Some(node) => MaybeNode::Some(node),
            None => MaybeNode::None,
        }
    }

    #[inline]
    #[track_caller]
    pub fn expect(&mut self, expected: Kind) -> Result<Node<'a>> {
        hit();
        match self.take_if(|k| k == expected) {
            Some(node) => Ok(node),
            None => Err(self.not_met()),
        }
    }

    #[inline]
    #[track_caller]
    pub fn one(&mut self, expected: Kind) -> One<'a> {
        One(self.expect(expected))
    }

    /// None or one; a second is refused before anything is written (reading 11).
    #[inline]
    #[track_caller]
    pub fn remaining(&mut self, _: &mut Formatter<'a>, expected: Kind) -> Result<Remaining<'a>> {
        hit();
        let Some(first) = self.take_if(|k| k == expected) else {
            return Ok(Remaining::Missing(expected));
        };
        match self.take_if(|k| k == expected) {
            Some(second) => Err(Error::refuse(8, second.number())),
            None => Ok(Remaining::Present(first)),
        }
    }

    /// Every record left, white space and comments too.
    #[inline]
    #[track_caller]
    pub fn children(&self) -> Children<'a> {
        hit();
        Children {
            tree: self.tree,
            next: self.next,
            end: self.end,
        }
    }

    /// The caller has no arm for a record. `modifiers` asks when it has taken the
    /// record; the others ask the record's own stream before they take anything.
    #[track_caller]
    pub fn expected(&self, what: impl Expectation) -> Error {
        hit();
        let at = self.taken.unwrap_or(self.node);
        let leaf = self.tree.records[at as usize].is_leaf();
        Error::refuse(what.refusal(leaf), at)
    }

    // The rest serves only what document 01 leaves out, the macro calls and the
    // skip attribute, which no tree over kinds.txt reaches; format.rs names it.

    pub fn next_with_ws(&mut self) -> Option<Node<'a>> {
        unreachable!("macro calls have no rule")
    }

    pub fn write_remaining(&mut self, _: &mut Formatter<'a>) -> Result<()> {
        unreachable!("runefmt::skip is never seen")
    }

    pub fn fmt_remaining_trimmed(&mut self, _: &mut Formatter<'a>) -> Result<()> {
        unreachable!("error recovery is off")
    }
}

/// Taking one after the other, as the Rust's loops over `p.by_ref()` do.
impl<'a> Iterator for Stream<'a> {
    type Item = Node<'a>;

    #[inline]
    fn next(&mut self) -> Option<Node<'a>> {
        self.take_if(|_| true)
    }
}

pub struct Children<'a> {
    tree: &'a Tree,
    next: u32,
    end: u32,
}

impl<'a> Iterator for Children<'a> {
    type Item = Node<'a>;

    #[inline]
    fn next(&mut self) -> Option<Node<'a>> {
        if self.next >= self.end {
            return None;
        }
        let node = self.tree.node(self.next);
        self.next = node.behind();
        Some(node)
    }
}

/// What a rule says that it wanted, as the refusal that follows (reading 8).
pub trait Expectation {
    fn refusal(self, leaf: bool) -> u8;
}

impl Expectation for &str {
    fn refusal(self, _: bool) -> u8 {
        match self {
            "inner expression" => 9,
            _ => 8,
        }
    }
}

impl Expectation for Kind {
    fn refusal(self, leaf: bool) -> u8 {
        match self {
            Kind::Item if !leaf => 9,
            _ => 8,
        }
    }
}
