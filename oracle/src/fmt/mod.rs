//! Stand-in for `crate::fmt`: the constants, the two Rust files, and a Formatter
//! between them that notes each call, so that a layout can be replayed as call
//! records, and turns the Rust's errors into document 01's refusals.

// A Kind that format.rs names and that ast.rs lacks would be a binding, which
// matches anything: these lints tell.
#[deny(non_snake_case, unreachable_patterns, unused_variables)]
pub mod format;
pub mod output;

use crate::alloc;
use crate::ast::{Kind, Span};
use crate::compile::{Error, ErrorKind, FmtOptions, Result, OPTIONS};
use crate::cover::hit;
use crate::grammar::{Node, Remaining, Stream, Tree};
use crate::state::State;
use crate::{Diagnostics, SourceId};
use output::{Comments, Source};

const INDENT: &str = "    ";
const NL: &str = "\n";
const NL_CHAR: char = '\n';
const WS: &str = " ";

pub const LITERALS: [&str; 8] = ["{}", "||", "()", "{", "}", ",", ";", ":"];
const MAX_INDENT: usize = 64;

/// What format.rs knows as `Formatter`.
pub struct Formatter<'a> {
    inner: output::Formatter<'a>,
    source: &'a Source,
    options: &'a FmtOptions,
    tree: &'a Tree,
    /// The calls made, as call records, if they are wanted.
    pub trace: Option<Vec<u8>>,
}

impl<'a> Formatter<'a> {
    pub fn new(
        source: &'a str,
        tree: &'a Tree,
        out: &'a mut alloc::String,
        diagnostics: &'a mut Diagnostics,
    ) -> Self {
        let span = Span::new(0, 0);
        let inner = output::Formatter::new(span, source, SourceId, out, &OPTIONS, diagnostics);
        Self {
            source: inner.source,
            options: inner.options,
            inner,
            tree,
            trace: None,
        }
    }

    #[inline]
    fn note(&mut self, kind: u8, body: &[u8]) {
        if let Some(trace) = &mut self.trace {
            trace.push(kind);
            trace.extend_from_slice(body);
        }
    }

    #[inline]
    fn call(&mut self, f: impl FnOnce(&mut output::Formatter<'a>) -> Result<()>) -> Result<()> {
        let len = self.inner.len();
        f(&mut self.inner).map_err(|e| self.refusal(e, len))
    }

    /// `len`: the output length before the call that met the error.
    #[cold]
    fn refusal(&self, e: Error, len: usize) -> Error {
        match e.kind {
            ErrorKind::Refused(_) => e,
            ErrorKind::Alloc(alloc::Error::BufferFull) => Error::refuse(4, len as u32),
            ErrorKind::Alloc(alloc::Error::QueueFull) => {
                Error::refuse(5, self.tree.last_walked.get())
            }
            ErrorKind::BadIndent { indent, .. } => Error::refuse(6, indent as u32),
            ErrorKind::BadSpan { .. } => unreachable!("the tree was checked"),
        }
    }

    #[inline]
    #[track_caller]
    pub fn write_owned(&mut self, node: Node<'a>) -> Result<()> {
        hit();
        self.note(0x01, &node.number().to_le_bytes());
        self.call(|f| f.write_owned(node))
    }

    pub fn write_raw(&mut self, node: Node<'a>) -> Result<()> {
        self.note(0x02, &node.number().to_le_bytes());
        self.call(|f| f.write_raw(node))
    }

    #[inline]
    #[track_caller]
    pub fn ignore(&mut self, node: Node<'a>) -> Result<()> {
        hit();
        self.note(0x03, &node.number().to_le_bytes());
        self.call(|f| f.ignore(node))
    }

    #[inline]
    #[track_caller]
    pub fn lit(&mut self, s: &str) -> Result<()> {
        hit();
        if self.trace.is_some() {
            let number = LITERALS.iter().position(|l| *l == s);
            let number = number.expect("a literal of document 01's list");
            self.note(0x04, &[number as u8]);
        }
        self.call(|f| f.lit(s))
    }

    #[inline]
    #[track_caller]
    fn comments(&mut self, hint: Comments) -> Result<()> {
        hit();
        let number = match hint {
            Comments::Line => 0,
            Comments::Prefix => 1,
            Comments::Suffix => 2,
            Comments::Infix => 3,
        };
        self.note(0x05, &[number]);
        self.call(|f| f.comments(hint))
    }

    pub fn comments_by_number(&mut self, hint: u8) -> Result<()> {
        self.comments(match hint {
            0 => Comments::Line,
            1 => Comments::Prefix,
            2 => Comments::Suffix,
            _ => Comments::Infix,
        })
    }

    /// The Rust knows no upper bound.
    #[inline]
    #[track_caller]
    pub fn indent(&mut self, d: isize) -> Result<()> {
        hit();
        self.note(0x06, &[d as i8 as u8]);
        let before = self.inner.present_indent();
        self.call(|f| f.indent(d))?;
        if self.inner.present_indent() > MAX_INDENT {
            return Err(Error::refuse(6, before as u32));
        }
        Ok(())
    }

    #[inline]
    #[track_caller]
    pub fn nl(&mut self, n: usize) -> Result<()> {
        hit();
        self.note(0x07, &[n as u8]);
        self.call(|f| f.nl(n))
    }

    #[inline]
    #[track_caller]
    pub fn ws(&mut self) -> Result<()> {
        hit();
        self.note(0x08, &[]);
        self.call(|f| f.ws())
    }

    pub fn flush_whitespace(&mut self, preserve: bool) -> Result<()> {
        self.note(0x09, &[preserve as u8]);
        self.call(|f| f.flush_whitespace(preserve))
    }

    pub fn flush_prefix_comments(&mut self) -> Result<()> {
        self.note(0x0A, &[]);
        let tree = self.tree;
        self.call(|f| f.flush_prefix_comments(tree))
    }

    /// The Line hint of `finish`; "finished" is the engine's, not the Rust's.
    pub fn finish(&mut self) -> Result<()> {
        self.note(0x0B, &[]);
        self.call(|f| f.comments(Comments::Line))
    }

    /// A layout run, behind the checks of 10 and 11.
    pub fn run(&mut self, node: u32) -> Result<()> {
        let node = self.tree.node(node);
        if !format::has_rule(node.record().rust_kind()) {
            return Err(Error::refuse(9, node.number()));
        }
        format::run(self, node)
    }

    /// A whole layout, behind the check of 10. `root` is `block_content` of record
    /// 0 and `nl(1)`.
    pub fn layout(&mut self) -> Result<()> {
        let tree = self.tree;
        let holds_all = tree.records.first().is_some_and(|r| {
            r.rust_kind() == Kind::BlockBody && r.below as usize == tree.records.len() - 1
        });
        if !holds_all {
            return Err(Error::refuse(8, 0));
        }
        self.flush_prefix_comments()?;
        format::root(self, tree)?;
        self.finish()
    }

    pub fn is_at_least(&self, span: Span, n: usize) -> bool {
        self.source.is_at_least(span, n).expect("a checked span")
    }

    pub fn state(&self) -> State {
        self.inner.state()
    }

    pub fn restore(&mut self, state: &State) {
        self.inner.restore(state)
    }

    pub fn len(&self) -> usize {
        self.inner.len()
    }

    pub fn output(&self) -> &str {
        self.inner.output()
    }
}
