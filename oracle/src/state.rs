//! The engine's state as document 01 lists it, whichever engine it was read from.
use std::fmt;

/// A comment that waits.
#[derive(Debug, Clone, Copy, PartialEq, Eq)]
pub struct Waiting {
    pub start: u32,
    pub end: u32,
    pub before: usize,
    pub line: bool,
}

#[derive(Debug, Clone, PartialEq, Eq, Default)]
pub struct State {
    pub len: usize,
    pub queue: Vec<Waiting>,
    pub lines: usize,
    pub use_lines: bool,
    pub ws: bool,
    pub indent: usize,
    pub finished: bool,
}

impl State {
    /// The words of the recorded files: eight, then four for each waiting comment.
    /// The eighth tells of the bytes behind the output: 1 once they are zero.
    pub fn words(&self, zeroed: bool) -> Vec<u32> {
        let mut words = vec![
            self.len as u32,
            self.lines as u32,
            self.use_lines as u32,
            self.ws as u32,
            self.indent as u32,
            self.finished as u32,
            self.queue.len() as u32,
            zeroed as u32,
        ];
        for c in &self.queue {
            words.extend([c.start, c.end, c.before as u32, c.line as u32]);
        }
        words
    }
}

impl fmt::Display for State {
    fn fmt(&self, f: &mut fmt::Formatter<'_>) -> fmt::Result {
        write!(f, "len {} lines {}", self.len, self.lines)?;
        write!(f, " use_lines {}", self.use_lines as u8)?;
        write!(f, " ws {} indent {}", self.ws as u8, self.indent)?;
        write!(f, " fin {} q {}", self.finished as u8, self.queue.len())?;
        for c in &self.queue {
            let kind = if c.line { 'L' } else { 'B' };
            write!(f, " {}:{}:{}:{kind}", c.start, c.end, c.before)?;
        }
        Ok(())
    }
}
