//! Trees by hand: `(kind child ...)` for a composite, `kind"text"` for a leaf, the
//! kinds by their names in kinds.txt or as two hex digits. A leaf `"text"` has the
//! kind that a lexer would give the text. The source is the text of the leaves. In
//! a text: \n \t \r \" \\ \u{..}
//!
//! kinds.txt may have a node that is only written whole as a leaf or a composite:
//! the number decides, so a leaf loses its children and keeps their text.
use crate::grammar::Rec;
use crate::kinds::k::IDENT;
use crate::kinds::KIND_NAME;

pub fn build(text: &str) -> (String, Vec<Rec>) {
    let mut reader = Reader {
        text: text.chars().collect(),
        at: 0,
        source: String::new(),
        records: vec![],
    };
    let mut open: Vec<usize> = vec![];
    while let Some(&c) = reader.text.get(reader.at) {
        match c {
            '(' => {
                reader.at += 1;
                let kind = reader.kind();
                open.push(reader.records.len());
                let start = reader.source.len() as u32;
                reader.records.push(Rec::new(kind, start, start, 0));
            }
            ')' => {
                reader.at += 1;
                let first = open.pop().expect("one ) too many");
                if reader.records[first].is_leaf() {
                    reader.records.truncate(first + 1);
                }
                let last = reader.records.len() - 1;
                reader.records[first].end = reader.source.len() as u32;
                reader.records[first].below = (last - first) as u32;
            }
            c if c.is_whitespace() => reader.at += 1,
            _ => reader.leaf(),
        }
    }
    assert!(open.is_empty(), "a ) is missing");
    (reader.source, reader.records)
}

/// A word B in a tree's words is an empty block.
pub fn with_blocks(tree: &str) -> String {
    tree.replace(" B", r#" (block "{" (block_body) "}")"#)
}

struct Reader {
    text: Vec<char>,
    at: usize,
    source: String,
    records: Vec<Rec>,
}

impl Reader {
    fn kind(&mut self) -> u8 {
        let word = |c: &&char| c.is_alphanumeric() || **c == '_';
        let name: String = self.text[self.at..].iter().take_while(word).collect();
        self.at += name.chars().count();
        named(&name).unwrap_or_else(|| {
            u8::from_str_radix(&name, 16).unwrap_or_else(|_| panic!("no kind {name}"))
        })
    }

    fn leaf(&mut self) {
        let kind = (self.text[self.at] != '"').then(|| self.kind());
        assert_eq!(self.text[self.at], '"', "at {}", self.at);
        self.at += 1;
        let start = self.source.len() as u32;
        while self.text[self.at] != '"' {
            let c = self.character();
            self.source.push(c);
        }
        self.at += 1;
        let end = self.source.len() as u32;
        let kind = kind.unwrap_or_else(|| lexed(&self.source[start as usize..]));
        self.records.push(Rec::new(kind, start, end, 0));
    }

    fn character(&mut self) -> char {
        let c = self.next();
        if c != '\\' {
            return c;
        }
        match self.next() {
            'n' => '\n',
            't' => '\t',
            'r' => '\r',
            'u' => {
                assert_eq!(self.next(), '{');
                let digits = self.text[self.at..].iter().take_while(|c| **c != '}');
                let digits: String = digits.collect();
                self.at += digits.len() + 1;
                char::from_u32(u32::from_str_radix(&digits, 16).unwrap()).unwrap()
            }
            other => other,
        }
    }

    fn next(&mut self) -> char {
        self.at += 1;
        self.text[self.at - 1]
    }
}

fn named(name: &str) -> Option<u8> {
    let number = KIND_NAME.iter().position(|n| *n == name)?;
    Some(number as u8)
}

const MARKS: &[(&str, &str)] = &[
    ("(", "paren_open"),
    (")", "paren_close"),
    ("{", "brace_open"),
    ("}", "brace_close"),
    ("[", "bracket_open"),
    ("]", "bracket_close"),
    (",", "comma"),
    (";", "semi"),
    (":", "colon"),
    ("::", "coloncolon"),
    ("=", "eq"),
    ("-", "minus"),
    ("..", "dotdot"),
    ("<", "lt"),
    (">", "gt"),
    ("*", "star"),
    ("#", "pound"),
    ("_", "pat_ignore"),
    (".", "dot"),
    ("?", "question"),
    ("!", "bang"),
    ("=>", "rocket"),
    ("..=", "dotdoteq"),
    ("|", "pipe"),
    ("||", "pipepipe"),
];

/// The kind of a token, a comment or white space by its text.
fn lexed(text: &str) -> u8 {
    let mark = MARKS.iter().find(|m| m.0 == text).map(|m| m.1);
    let name = match mark {
        Some(name) => name,
        None if text.trim().is_empty() => "ws",
        None if text.starts_with("//") => "line_comment",
        None if text.starts_with("/*") => "block_comment",
        None if text.starts_with('\'') => "label",
        None if text.starts_with(|c: char| c.is_ascii_digit()) => "number",
        None => return named(&format!("kw_{text}")).unwrap_or(IDENT),
    };
    named(name).expect("a kind of kinds.txt")
}
