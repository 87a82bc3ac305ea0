//! Source and tree side by side: leaves, composites, and the white space and
//! comments between them.
use super::Rng;
use crate::grammar::Rec;
use crate::kinds::k::*;

/// What the first expression, item or pattern is made to be.
#[derive(Clone, Copy, PartialEq, Eq)]
pub enum Force {
    Nothing,
    Expr(usize),
    Item(usize),
    Pattern(usize),
}

#[derive(Clone, Copy)]
pub struct Opts {
    /// records to aim at
    pub size: usize,
    /// percent of gaps that hold a comment
    pub comments: usize,
    /// percent of gaps that hold white space
    pub spaces: usize,
    /// in 200: missing or extra separators, empty tokens and comments, odd
    /// white space
    pub odd: usize,
    pub non_ascii: bool,
    /// line comments may end in White_Space beyond space, tab, carriage return
    pub trim_all: bool,
    /// names and indentation get up to this many bytes more
    pub pad: usize,
    /// every list and chain is filled up to a width near 80
    pub fill: bool,
    pub force: Force,
}

impl Opts {
    pub fn random(rng: &mut Rng) -> Self {
        Opts {
            size: rng.pick(&[5, 20, 60, 60, 150, 400]),
            comments: rng.pick(&[0, 3, 10, 25, 45]),
            spaces: rng.pick(&[10, 40, 60, 80]),
            odd: rng.pick(&[0, 0, 4, 15]),
            non_ascii: rng.one_in(2),
            trim_all: false,
            pad: 0,
            fill: false,
            force: Force::Nothing,
        }
    }
}

const NAMES: &[&str] = &[
    "a",
    "b",
    "foo",
    "bar",
    "x1",
    "value",
    "some_long_name",
    "io",
    "std",
    "T",
    "self_",
    "n",
];
const WIDE_NAMES: &[&str] = &["é", "漢字", "ß", "名前", "𝒳y", "ñandú", "Ω"];
const TEXTS: &[&str] = &[
    "note",
    "todo: fix",
    "x",
    "",
    "a, b",
    "}",
    "see above",
    "--",
    "1/2",
];
const WIDE_TEXTS: &[&str] = &["注釈", "é", "a\u{3000}b", "\u{00A0}x", "Ж", "🦀"];
const SPACES: &[&str] = &[
    " ",
    " ",
    " ",
    "  ",
    "\n",
    "\n",
    "\n    ",
    "\n\n",
    "\n\n\n",
    "\t",
    "\r\n",
    "\n \n \n \n",
];
const WIDE_SPACES: &[&str] = &[
    "\u{3000}",
    "\u{00A0}",
    "\u{2028}",
    "\u{0085}",
    "\u{2003}\n",
    "\u{000B}",
];
/// White_Space beyond space, tab and carriage return, U+200B, which is none, and
/// letters whose last byte is a blank by itself.
const LAST: &[&str] = &[
    "\u{3000}", "\u{00A0}", " ", "\u{000C}", "\u{0085}", "\u{2028}", "\n", "\u{200B}", "ą", "à",
];

pub(super) fn is_word(c: char) -> bool {
    c.is_alphanumeric() || c == '_'
}

pub struct Builder {
    pub source: String,
    pub records: Vec<Rec>,
    open: Vec<usize>,
    pub rng: Rng,
    pub opts: Opts,
}

impl Builder {
    pub fn new(rng: Rng, opts: Opts) -> Self {
        Builder {
            source: String::new(),
            records: vec![],
            open: vec![],
            rng,
            opts,
        }
    }

    /// Source and records, once every composite is closed.
    pub fn done(self) -> (String, Vec<Rec>) {
        assert!(self.open.is_empty());
        (self.source, self.records)
    }

    /// Time to come to an end: enough records, deep enough, or little source left.
    pub(super) fn small(&self) -> bool {
        self.records.len() >= self.opts.size || self.open.len() > 44 || self.source_is_long()
    }

    pub(super) fn source_is_long(&self) -> bool {
        self.source.len() > 64_500
    }

    pub(super) fn odd(&mut self) -> bool {
        self.rng.below(200) < self.opts.odd
    }

    pub fn leaf(&mut self, kind: u8, text: &str) {
        assert!(kind < 0x80);
        let start = self.source.len() as u32;
        self.source.push_str(text);
        let end = self.source.len() as u32;
        self.records.push(Rec::new(kind, start, end, 0));
    }

    pub fn start(&mut self, kind: u8) {
        assert!(kind >= 0x80, "{kind:02x}");
        let start = self.source.len() as u32;
        self.open.push(self.records.len());
        self.records.push(Rec::new(kind, start, start, 0));
    }

    pub fn finish(&mut self) {
        let first = self.open.pop().unwrap();
        self.records[first].end = self.source.len() as u32;
        self.records[first].below = (self.records.len() - 1 - first) as u32;
    }

    /// Finishes a composite, sometimes with a gap inside its end.
    pub fn close(&mut self) {
        if self.rng.one_in(12) {
            self.gap();
        }
        self.finish();
    }

    /// White space and comments, as the options have it.
    pub fn gap(&mut self) {
        if self.rng.percent(self.opts.spaces) {
            self.space();
        }
        while self.rng.percent(self.opts.comments) && self.source.len() < 62_000 {
            if self.rng.one_in(2) {
                self.line_comment();
            } else {
                self.block_comment();
            }
            if self.rng.percent(self.opts.spaces) {
                self.space();
            }
        }
    }

    fn space(&mut self) {
        let wide = self.opts.non_ascii && self.rng.one_in(12);
        let text = self.rng.pick(if wide { WIDE_SPACES } else { SPACES });
        if self.opts.pad > 0 && text.starts_with('\n') {
            let blanks = " ".repeat(self.rng.below(self.opts.pad));
            self.leaf(WS, &format!("\n{blanks}"));
        } else {
            self.leaf(WS, text);
        }
        if self.odd() {
            let text = self.rng.pick(&["", "\n", "\n\n\n", "zz", " "]);
            self.leaf(WS, text);
        }
    }

    fn comment_text(&mut self) -> String {
        let mut text = String::new();
        for _ in 0..self.rng.below(3) {
            let wide = self.opts.non_ascii && self.rng.one_in(3);
            text += self.rng.pick(if wide { WIDE_TEXTS } else { TEXTS });
            text.push(' ');
        }
        if self.rng.one_in(30) {
            text += &"w".repeat(self.rng.below(90));
        }
        text
    }

    /// A line comment, and nearly always the newline that ends it.
    fn line_comment(&mut self) {
        let text = self.comment_text();
        let blank = if self.rng.one_in(4) { "" } else { " " };
        let mut text = format!("//{blank}{text}").trim_end().to_string();
        for _ in 0..self.rng.below(3) {
            text += self.rng.pick(&["", " ", "\t", "\r", "  "]);
        }
        if self.opts.trim_all && self.rng.one_in(2) {
            for _ in 0..1 + self.rng.below(3) {
                text += self.rng.pick(LAST);
            }
        }
        if self.odd() {
            text.clear();
        }
        self.leaf(LINE_COMMENT, &text);
        if !self.odd() {
            let text = self.rng.pick(&["\n", "\n", "\n    ", "\n\n", "\n\n\n "]);
            self.leaf(WS, text);
        }
    }

    fn block_comment(&mut self) {
        let text = self.comment_text();
        let text = match self.rng.below(4) {
            _ if self.odd() => self.rng.pick(&["", "", " ", "/**/ "]).to_string(),
            0 => "/**/".to_string(),
            1 => format!("/* {text}\n   {text}*/"),
            _ => format!("/* {text}*/"),
        };
        self.leaf(BLOCK_COMMENT, &text);
    }

    /// A space where the next text would run into a word.
    fn part_words(&mut self, next_is_word: bool) {
        if next_is_word && self.source.chars().last().is_some_and(is_word) {
            self.leaf(WS, " ");
        }
    }

    /// A token, often with a gap in front.
    pub fn token(&mut self, kind: u8, text: &str) {
        if self.rng.one_in(2) {
            self.gap();
        }
        self.part_words(text.chars().next().is_some_and(is_word));
        self.leaf(kind, text);
    }

    /// Starts a composite, sometimes with a gap in front, which is its sibling.
    pub fn node(&mut self, kind: u8) {
        if self.rng.one_in(3) {
            self.gap();
        }
        self.part_words(true);
        self.start(kind);
    }

    /// A node that is only written whole: kinds.txt may have it as a leaf.
    pub(super) fn whole(&mut self, kind: u8, parts: &[(u8, &str)]) {
        if kind < 0x80 {
            let text: String = parts.iter().map(|p| p.1).collect();
            self.token(kind, &text);
            return;
        }
        self.node(kind);
        for (kind, text) in parts {
            self.token(*kind, text);
        }
        self.close();
    }

    pub(super) fn name(&mut self) -> String {
        let mut name = self.rng.pick(NAMES).to_string();
        if self.opts.non_ascii && self.rng.one_in(4) {
            name += self.rng.pick(WIDE_NAMES);
        }
        if self.opts.pad > 0 {
            name += &"e".repeat(self.rng.below(self.opts.pad));
        }
        if self.rng.one_in(25) {
            name += &"q".repeat(self.rng.below(70));
        }
        name
    }

    pub(super) fn ident(&mut self) {
        let name = if self.odd() {
            String::new()
        } else {
            self.name()
        };
        self.token(IDENT, &name);
    }

    /// Characters outside White_Space from a record's start to the end so far.
    pub(super) fn width_from(&self, record: usize) -> usize {
        let start = self.records[record].start as usize;
        let text = self.source[start..].chars();
        text.filter(|c| !c.is_whitespace()).count()
    }

    /// A name of n characters.
    pub(super) fn long_name(&mut self, n: usize) -> String {
        let wide = |i: usize| self.opts.non_ascii && i % 7 == 3;
        (0..n).map(|i| if wide(i) { '字' } else { 'k' }).collect()
    }

    /// A width near the limit of 80.
    pub(super) fn near_80(&mut self) -> usize {
        78 + self.rng.below(6)
    }

    /// n elements with commas between, perhaps one behind.
    pub(super) fn commas(&mut self, n: usize, mut element: impl FnMut(&mut Self)) {
        if n == 0 {
            self.gap();
        }
        for i in 0..n {
            element(self);
            let comma = if i + 1 == n {
                self.rng.one_in(3)
            } else {
                !self.odd()
            };
            if comma {
                self.token(COMMA, ",");
            }
        }
    }
}
