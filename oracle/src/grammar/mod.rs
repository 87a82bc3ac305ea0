//! Stand-in for `crate::grammar`: rune's tree and its readers, over the flat tree
//! of document 01. The README lists the reading behind each function.
mod maybe;
mod stream;
mod tree;

pub use maybe::{MaybeNode, One, Remaining};
pub use stream::Stream;
pub use tree::{Node, Rec, Tree};

use crate::alloc;
use crate::compile::{Error, Result};
use crate::kinds::CLASS_OF;

include!(concat!(env!("OUT_DIR"), "/object_key.rs"));

#[derive(Debug, Clone, Copy, PartialEq, Eq)]
pub enum NodeClass {
    Item,
    Const,
    Local,
    Expr,
}

/// Whether a statement needs a semicolon, and its class: the tree's maker wrote
/// both into the kind.
pub fn classify(node: &Node<'_>) -> (bool, NodeClass) {
    CLASS_OF[node.record().kind as usize]
}

/// What output.rs implements for rune's `remaining`; the oracle calls neither.
#[allow(dead_code)]
pub trait Ignore<'a> {
    fn error(&mut self, error: Error) -> alloc::Result<()>;
    fn ignore(&mut self, node: Node<'a>) -> Result<()>;
}
