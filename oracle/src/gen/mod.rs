//! Generators. The same family, seed and number give the same case.
mod builder;
mod control;
mod damage;
mod expr;
mod family;
mod history;
mod item;
pub mod nests;
mod opening;
mod pattern;
mod rng;
mod rules;

pub use builder::{Builder, Opts};
pub use family::{make, FAMILIES, FOCUS};
pub use history::{history, small_tree};
pub use opening::{damaged_bytes, random_source, random_tree};
pub use rng::Rng;
