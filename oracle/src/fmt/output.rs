//! rune's output.rs, unchanged, and what the oracle needs to see and to put back
//! its private state.
include!(concat!(env!("OUT_DIR"), "/output.rs"));

use crate::state::{State, Waiting};

impl Formatter<'_> {
    /// The state as document 01 has it; `finished` isn't the Rust's.
    pub fn state(&self) -> State {
        let waiting = |c: &Comment| Waiting {
            start: c.span.start,
            end: c.span.end,
            before: c.before,
            line: c.line,
        };
        State {
            len: self.len(),
            queue: self.comments.0.iter().map(waiting).collect(),
            lines: self.lines,
            use_lines: self.use_lines,
            ws: self.ws,
            indent: self.indent,
            finished: false,
        }
    }

    /// Document 01's "unchanged after a refusal", which the Rust doesn't promise.
    pub fn restore(&mut self, state: &State) {
        let comment = |c: &Waiting| Comment {
            span: Span::new(c.start, c.end),
            before: c.before,
            line: c.line,
        };
        self.comments.0 = state.queue.iter().map(comment).collect();
        self.lines = state.lines;
        self.use_lines = state.use_lines;
        self.ws = state.ws;
        self.indent = state.indent;
        self.o.0.text.truncate(state.len);
    }

    #[inline]
    pub fn len(&self) -> usize {
        self.o.0.text.len()
    }

    #[inline]
    pub fn present_indent(&self) -> usize {
        self.indent
    }

    pub fn output(&self) -> &str {
        &self.o.0.text
    }
}
