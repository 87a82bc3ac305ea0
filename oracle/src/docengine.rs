//! The engine a second time, from document 01's words: its records, its literals,
//! its steps, and one test of the room for all that a call writes. It shares the
//! tree's records and the types of a state and a refusal with the rest, no rule.
use crate::grammar::Rec;
use crate::refusal::Refusal;
use crate::state::{State, Waiting};

/// What a call wrote.
#[derive(Debug, Clone, PartialEq, Eq)]
pub enum Piece {
    Gap(String),
    /// the text of a node or a literal
    Text(String),
    Comment {
        text: String,
        line: bool,
    },
}

impl Piece {
    pub fn text(&self) -> &str {
        match self {
            Piece::Gap(t) | Piece::Text(t) | Piece::Comment { text: t, .. } => t,
        }
    }
}

#[derive(Clone)]
pub struct DocEngine<'a> {
    source: &'a str,
    records: &'a [Rec],
    cap: usize,
    /// what is left of a line comment: all White_Space goes from its end, as request
    /// (i) of document 02 reads document 01's trimming
    pub trim: fn(&str) -> &str,
    pub state: State,
    pub output: String,
    /// the output in pieces
    pub pieces: Vec<Piece>,
}

impl<'a> DocEngine<'a> {
    pub fn new(source: &'a str, records: &'a [Rec], cap: usize) -> Self {
        Self {
            source,
            records,
            cap,
            trim: str::trim_end,
            state: State::default(),
            output: String::new(),
            pieces: vec![],
        }
    }

    /// A refused call leaves all as it was: the steps work on a copy.
    pub fn call(&mut self, record: &[u8]) -> Result<(), Refusal> {
        let mut work = Work {
            on: self,
            state: self.state.clone(),
            written: vec![],
        };
        work.call(record)?;
        let Work { state, written, .. } = work;
        self.state = state;
        for piece in written {
            self.output.push_str(piece.text());
            self.pieces.push(piece);
        }
        Ok(())
    }
}

/// A call at work: the state so far, and what it writes.
struct Work<'w, 'a> {
    on: &'w DocEngine<'a>,
    state: State,
    written: Vec<Piece>,
}

impl Work<'_, '_> {
    /// 12, 10, 11, then the steps.
    fn call(&mut self, record: &[u8]) -> Result<(), Refusal> {
        let named = match record {
            [1..=3, a, b, c, d] => Some(u32::from_le_bytes([*a, *b, *c, *d])),
            [4, 0..=7] | [5, 0..=3] | [6, _] | [7, _] | [8] | [9, 0..=1] | [10] | [11] => None,
            _ => return Err(Refusal::new(12, 0)),
        };
        if self.state.finished {
            return Err(Refusal::new(10, self.state.len as u32));
        }
        if let Some(node) = named {
            if self.on.records.len() <= node as usize {
                return Err(Refusal::new(11, node));
            }
            return self.node_call(record[0], node as usize);
        }
        match record {
            [4, n] => self.lit(*n),
            [5, hint] => self.hint(*hint),
            [6, d] => self.indent(*d as i8)?,
            [7, n] => self.nl(*n as usize),
            [8] => self.ws(),
            [9, preserve] => self.flush(*preserve == 1),
            [10] => self.flush_prefix_comments()?,
            _ => self.finish(),
        }
        self.room()
    }

    /// 4, tested once for all that was written. The state's length stays the
    /// length before the call until then: it is the refusal's place.
    fn room(&mut self) -> Result<(), Refusal> {
        let added: usize = self.written.iter().map(|p| p.text().len()).sum();
        if self.state.len + added > self.on.cap {
            return Err(Refusal::new(4, self.state.len as u32));
        }
        self.state.len += added;
        Ok(())
    }

    fn node_call(&mut self, kind: u8, node: usize) -> Result<(), Refusal> {
        let r = self.on.records[node];
        if kind == 1 {
            self.flush(false);
        }
        if kind != 3 {
            let text = self.on.source[r.span().range()].to_string();
            self.written.push(Piece::Text(text));
        }
        self.room()?;
        self.collect(node + 1 + r.below as usize)
    }

    fn lit(&mut self, n: u8) {
        let text = ["{}", "||", "()", "{", "}", ",", ";", ":"][n as usize];
        self.flush(true);
        self.written.push(Piece::Text(text.to_string()));
    }

    fn hint(&mut self, hint: u8) {
        match hint {
            0 => self.line_release(false),
            1 => self.space_release(false, true),
            2 => self.space_release(true, false),
            _ => self.space_release(false, false),
        }
    }

    fn indent(&mut self, d: i8) -> Result<(), Refusal> {
        let to = self.state.indent as i32 + d as i32;
        if !(0..=64).contains(&to) {
            return Err(Refusal::new(6, self.state.indent as u32));
        }
        self.state.indent = to as usize;
        Ok(())
    }

    fn nl(&mut self, n: usize) {
        if n == 0 {
            return;
        }
        self.line_release(true);
        if self.state.lines == 0 {
            self.state.lines = n;
        }
        self.state.use_lines = true;
    }

    fn ws(&mut self) {
        self.space_release(true, false);
        self.state.ws = true;
    }

    fn flush_prefix_comments(&mut self) -> Result<(), Refusal> {
        self.collect(0)?;
        self.line_release(false);
        self.state.use_lines = self.state.lines > 0;
        Ok(())
    }

    fn finish(&mut self) {
        self.line_release(false);
        self.state.finished = true;
    }

    fn collect(&mut self, from: usize) -> Result<(), Refusal> {
        for (number, r) in self.on.records.iter().enumerate().skip(from) {
            if r.below > 0 {
                continue;
            }
            match r.kind {
                0 => {
                    let bytes = self.on.source[r.span().range()].bytes();
                    if self.state.lines == 0 {
                        self.state.lines = bytes.filter(|b| *b == 0x0A).count();
                    }
                }
                1 | 2 => {
                    if self.state.queue.len() == 256 {
                        return Err(Refusal::new(5, number as u32));
                    }
                    self.state.queue.push(Waiting {
                        start: r.start,
                        end: r.end,
                        before: self.state.lines,
                        line: r.kind == 1,
                    });
                    self.state.lines = 0;
                }
                _ => break,
            }
        }
        Ok(())
    }

    fn flush(&mut self, preserve: bool) {
        if self.state.use_lines && self.state.lines > 0 {
            self.newlines(self.state.lines);
            self.state.ws = false;
            self.state.use_lines = false;
            self.state.lines = 0;
        }
        if self.state.ws {
            self.gap(" ");
            self.state.ws = false;
        }
        if !preserve {
            self.state.lines = 0;
            self.state.use_lines = false;
        }
    }

    fn gap(&mut self, text: &str) {
        self.written.push(Piece::Gap(text.to_string()));
    }

    /// Up to two newlines, and the units of indentation.
    fn newlines(&mut self, n: usize) {
        let text = "\n".repeat(n.min(2)) + &"    ".repeat(self.state.indent);
        self.gap(&text);
    }

    fn output_is_empty(&self) -> bool {
        self.state.len == 0 && self.written.iter().all(|p| p.text().is_empty())
    }

    fn let_out(&mut self, text: &str, line: bool) {
        let text = text.to_string();
        self.written.push(Piece::Comment { text, line });
    }

    fn text_of(&self, c: &Waiting) -> &str {
        &self.on.source[c.start as usize..c.end as usize]
    }

    fn trimmed(&self, c: &Waiting) -> String {
        let text = self.text_of(c);
        let text = if c.line { (self.on.trim)(text) } else { text };
        text.to_string()
    }

    fn line_release(&mut self, same_line_only: bool) {
        let stops = |c: &Waiting| same_line_only && c.before != 0;
        let n = self.state.queue.iter().take_while(|c| !stops(c)).count();
        let head: Vec<Waiting> = self.state.queue.drain(..n).collect();
        for c in head {
            if !self.output_is_empty() {
                match c.before {
                    0 => self.gap(" "),
                    before => self.newlines(before),
                }
            }
            let text = self.trimmed(&c);
            self.let_out(&text, c.line);
        }
    }

    fn space_release(&mut self, in_front: bool, behind: bool) {
        let n = self.state.queue.iter().take_while(|c| !c.line).count();
        let head: Vec<Waiting> = self.state.queue.drain(..n).collect();
        for (i, c) in head.iter().enumerate() {
            if (in_front || i > 0) && !self.output_is_empty() {
                self.gap(" ");
            }
            let text = self.text_of(c).to_string();
            self.let_out(&text, false);
        }
        if behind && !head.is_empty() {
            self.gap(" ");
        }
    }
}
