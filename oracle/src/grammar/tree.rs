//! Records, the tree, and a node of it.
use core::cell::Cell;

use super::Stream;
use crate::ast::{Kind, Span};
use crate::compile::{Error, Result};
use crate::cover::hit;
use crate::fmt::Formatter;
use crate::kinds::KIND_OF;

/// A record of the flat tree; `below` is 0 for a leaf.
#[derive(Debug, Clone, Copy, PartialEq, Eq)]
pub struct Rec {
    pub kind: u8,
    pub start: u32,
    pub end: u32,
    pub below: u32,
}

impl Rec {
    pub fn new(kind: u8, start: u32, end: u32, below: u32) -> Self {
        Self {
            kind,
            start,
            end,
            below,
        }
    }

    #[inline]
    pub fn is_leaf(&self) -> bool {
        self.kind < 0x80
    }

    /// White space or a comment.
    #[inline]
    pub fn is_trivia(&self) -> bool {
        self.kind <= 2
    }

    #[inline]
    pub fn rust_kind(&self) -> Kind {
        KIND_OF[self.kind as usize]
    }

    #[inline]
    pub fn span(&self) -> Span {
        Span::new(self.start, self.end)
    }
}

/// A tree that passed the opening checks.
pub struct Tree {
    pub records: Vec<Rec>,
    /// The record that a walk gave last: the place of refusal 5, which output.rs
    /// meets while it walks.
    pub last_walked: Cell<u32>,
}

impl Tree {
    pub fn new(records: Vec<Rec>) -> Self {
        let last_walked = Cell::new(0);
        Self {
            records,
            last_walked,
        }
    }

    pub fn node(&self, number: u32) -> Node<'_> {
        Node { tree: self, number }
    }

    pub fn walk(&self) -> Walk<'_> {
        Walk { tree: self, at: 0 }
    }

    /// A whole layout's root is record 0.
    #[track_caller]
    pub fn parse_all<'a, O>(&'a self, f: impl FnOnce(&mut Stream<'a>) -> Result<O>) -> Result<O> {
        hit();
        self.node(0).parse(f)
    }
}

/// All records from one on, to the end of the list.
pub struct Walk<'a> {
    tree: &'a Tree,
    at: u32,
}

impl<'a> Iterator for Walk<'a> {
    type Item = Node<'a>;

    #[inline]
    fn next(&mut self) -> Option<Node<'a>> {
        if self.at as usize >= self.tree.records.len() {
            return None;
        }
        let node = self.tree.node(self.at);
        self.tree.last_walked.set(self.at);
        self.at += 1;
        Some(node)
    }
}

#[derive(Clone)]
pub struct Node<'a> {
    tree: &'a Tree,
    number: u32,
}

impl<'a> Node<'a> {
    #[inline]
    pub fn record(&self) -> &'a Rec {
        &self.tree.records[self.number as usize]
    }

    #[inline]
    pub fn number(&self) -> u32 {
        self.number
    }

    /// The first record behind this one and everything below it.
    #[inline]
    pub fn behind(&self) -> u32 {
        self.number + 1 + self.record().below
    }

    #[inline]
    #[track_caller]
    pub fn kind(&self) -> Kind {
        hit();
        self.record().rust_kind()
    }

    #[inline]
    pub fn span(&self) -> Span {
        self.record().span()
    }

    #[inline]
    pub fn has_children(&self) -> bool {
        self.record().below > 0
    }

    /// Asked by the macro-call rules only, which no tree reaches.
    pub fn is_whitespace(&self) -> bool {
        unreachable!("macro calls have no rule")
    }

    #[inline]
    pub fn walk_from(&self) -> Walk<'a> {
        Walk {
            tree: self.tree,
            at: self.behind(),
        }
    }

    /// Runs a rule over this node's records, and asks right behind it whether the
    /// rule left one over (reading 10).
    #[track_caller]
    pub fn parse<O>(self, f: impl FnOnce(&mut Stream<'a>) -> Result<O>) -> Result<O> {
        hit();
        let mut p = Stream::new(self.tree, &self);
        let o = f(&mut p)?;
        p.nothing_left()?;
        Ok(o)
    }

    #[inline]
    #[track_caller]
    pub fn fmt(self, fmt: &mut Formatter<'a>) -> Result<()> {
        hit();
        fmt.write_owned(self)
    }

    #[track_caller]
    pub fn ignore(self, fmt: &mut Formatter<'a>) -> Result<()> {
        hit();
        fmt.ignore(self)
    }

    /// A struct's or a variant's body of another kind (reading 8).
    #[track_caller]
    pub fn unsupported(&self, _: &str) -> Error {
        hit();
        Error::refuse(8, self.number)
    }
}
