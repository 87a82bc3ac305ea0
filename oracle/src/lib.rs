//! The differential oracle: rune 0.14.2's output.rs and format.rs, unchanged, over
//! stand-ins for the modules around them. The README says what each rests on.
//! A library, so that other programs of the repository can ask it; `main.rs` is
//! the command.

// Stand-ins, under the names that the Rust asks for.
#[macro_use]
mod kmacro;
pub mod alloc;
mod ast;
mod compile;
mod fmt;
pub mod grammar;

// Document 01 around the Rust.
pub mod call;
pub mod engine;
pub mod opening;
pub mod refusal;
pub mod state;

// Written a second time.
pub mod docengine;
pub mod opening_again;

pub mod case;
pub mod cli;
pub mod compare;
mod cover;
mod edge;
pub mod gen;
mod readings;
pub mod record;
mod selftest;
mod speed;
mod sx;

mod kinds {
    include!(concat!(env!("OUT_DIR"), "/kinds.rs"));
}
mod lines {
    include!(concat!(env!("OUT_DIR"), "/lines.rs"));
}

#[derive(Clone, Copy)]
pub struct SourceId;

/// Diagnostics are no part of the port.
pub struct Diagnostics;

impl Diagnostics {
    pub fn error(&mut self, _: SourceId, _: compile::Error) -> alloc::Result<()> {
        Ok(())
    }
}
