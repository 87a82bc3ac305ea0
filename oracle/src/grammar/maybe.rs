//! What `eat`, `one` and `remaining` give.
use super::{Node, Stream};
use crate::ast::Kind;
use crate::compile::Result;
use crate::cover::hit;
use crate::fmt::Formatter;

pub enum MaybeNode<'a> {
    Some(Node<'a>),
    None,
}

impl<'a> MaybeNode<'a> {
    #[inline]
    #[track_caller]
    pub fn fmt(self, fmt: &mut Formatter<'a>) -> Result<()> {
        hit();
        match self {
            Self::Some(node) => node.fmt(fmt),
            Self::None => Ok(()),
        }
    }

    #[inline]
    #[track_caller]
    pub fn parse<O>(self, f: impl FnOnce(&mut Stream<'a>) -> Result<O>) -> Result<Option<O>> {
        self.and_then(|node| node.parse(f))
    }

    #[inline]
    #[track_caller]
    pub fn and_then<O>(self, f: impl FnOnce(Node<'a>) -> Result<O>) -> Result<Option<O>> {
        hit();
        match self {
            Self::Some(node) => Ok(Some(f(node)?)),
            Self::None => Ok(None),
        }
    }
}

/// A node that must be there; refusal 8 is given when it is used.
pub struct One<'a>(pub(super) Result<Node<'a>>);

impl<'a> One<'a> {
    #[inline]
    #[track_caller]
    pub fn fmt(self, fmt: &mut Formatter<'a>) -> Result<()> {
        hit();
        fmt.write_owned(self.0?)
    }

    #[inline]
    #[track_caller]
    pub fn ignore(self, fmt: &mut Formatter<'a>) -> Result<()> {
        hit();
        fmt.ignore(self.0?)
    }
}

/// A token that may be missing.
#[derive(Default)]
pub enum Remaining<'a> {
    #[default]
    Fresh,
    Missing(Kind),
    Present(Node<'a>),
}

impl<'a> Remaining<'a> {
    /// Writes the token, or the literal if it is missing. Says no for a fresh one.
    #[inline]
    #[track_caller]
    pub fn fmt(self, fmt: &mut Formatter<'a>) -> Result<bool> {
        hit();
        match self {
            Self::Fresh => return Ok(false),
            Self::Missing(kind) => fmt.lit(literal(kind))?,
            Self::Present(node) => fmt.write_owned(node)?,
        }
        Ok(true)
    }

    /// Writes nothing; collects behind the token. Says no for a fresh one.
    #[inline]
    #[track_caller]
    pub fn ignore(self, fmt: &mut Formatter<'a>) -> Result<bool> {
        hit();
        match self {
            Self::Fresh => return Ok(false),
            Self::Missing(_) => {}
            Self::Present(node) => fmt.ignore(node)?,
        }
        Ok(true)
    }

    #[inline]
    #[track_caller]
    pub fn is_present(&self) -> bool {
        hit();
        matches!(self, Self::Present(_))
    }

    #[inline]
    #[track_caller]
    pub fn write_if(self, fmt: &mut Formatter<'a>, needed: bool) -> Result<()> {
        hit();
        if needed || self.is_present() {
            self.fmt(fmt)?;
        }
        Ok(())
    }

    #[inline]
    #[track_caller]
    pub fn write_only_if(self, fmt: &mut Formatter<'a>, yes: bool) -> Result<bool> {
        hit();
        if yes {
            self.fmt(fmt)
        } else {
            self.ignore(fmt)
        }
    }
}

/// The literal of a missing token: format.rs lets these four be missing.
fn literal(kind: Kind) -> &'static str {
    match kind {
        K![,] => ",",
        K![;] => ";",
        K![:] => ":",
        K!['}'] => "}",
        _ => unreachable!("format.rs asks for no other"),
    }
}
