//! Nodes that have a rule, each a few hundred to 8,000 records large: source and tree,
//! whose first record is the node.
use oracle::grammar::Rec;
use oracle::opening::join;

const WS: u8 = 0x00;
const LINE_COMMENT: u8 = 0x01;
const IDENT: u8 = 0x03;
const COMMA: u8 = 0x18;
const COLONCOLON: u8 = 0x1B;
const EQ: u8 = 0x1C;
const BLOCK_BODY: u8 = 0x80;
const BLOCK: u8 = 0x81;
const LOCAL_SEMI: u8 = 0x95;
const EXPR: u8 = 0x96;
const FIELD: u8 = 0xA6;
const PATH: u8 = 0xB0;
const PAT: u8 = 0xB2;
const EXPR_CALL: u8 = 0xE6;

/// How many names, fields or patterns stand in a node.
const ENTRIES: usize = 300;

#[derive(Default)]
struct Builder {
    text: String,
    records: Vec<Rec>,
    open: Vec<usize>,
}

impl Builder {
    fn leaf(&mut self, kind: u8, piece: &str) -> &mut Self {
        let start = self.text.len() as u32;
        self.text += piece;
        self.records
            .push(Rec::new(kind, start, self.text.len() as u32, 0));
        self
    }

    fn open(&mut self, kind: u8) -> &mut Self {
        self.open.push(self.records.len());
        let start = self.text.len() as u32;
        self.records.push(Rec::new(kind, start, start, 0));
        self
    }

    fn close(&mut self) -> &mut Self {
        let first = self.open.pop().expect("a node that is open");
        self.records[first].end = self.text.len() as u32;
        self.records[first].below = (self.records.len() - first - 1) as u32;
        self
    }

    /// Entries, a comma and a space behind each.
    fn list(&mut self, entry: impl Fn(&mut Self, usize)) -> &mut Self {
        self.list_of(ENTRIES, entry)
    }

    fn list_of(&mut self, n: usize, entry: impl Fn(&mut Self, usize)) -> &mut Self {
        for i in 0..n {
            entry(self, i);
            self.leaf(COMMA, ",").leaf(WS, " ");
        }
        self
    }

    fn path_of(&mut self, name: &str) -> &mut Self {
        self.open(PATH).leaf(IDENT, name).close()
    }

    /// An expression of one name.
    fn expr(&mut self, name: &str) -> &mut Self {
        self.open(EXPR).path_of(name).close()
    }

    /// `let name = value;` and a newline: 14 records.
    fn local(&mut self, i: usize) -> &mut Self {
        self.open(LOCAL_SEMI).leaf(0x30, "let").leaf(WS, " ");
        self.open(PAT).path_of(&name(i)).close().leaf(WS, " ");
        self.leaf(EQ, "=").leaf(WS, " ").expr("value").close();
        self.leaf(0x19, ";").leaf(WS, "\n")
    }

    fn done(&mut self) -> (Vec<u8>, Vec<u8>) {
        (self.text.clone().into_bytes(), join(&self.records))
    }
}

fn name(i: usize) -> String {
    format!("name_{i}")
}

fn path() -> Builder {
    let mut b = Builder::default();
    b.open(PATH);
    for i in 0..ENTRIES {
        b.leaf(IDENT, &name(i)).leaf(COLONCOLON, "::");
    }
    b.leaf(IDENT, "last").close();
    b
}

fn pattern() -> Builder {
    let mut b = Builder::default();
    b.open(PAT).open(0xB4).leaf(0x10, "(");
    b.list(|b, i| {
        b.open(PAT).open(PATH).leaf(IDENT, &name(i)).close().close();
    });
    b.leaf(0x11, ")").close().close();
    b
}

/// A struct; with a comment behind each field where they are asked for.
fn fields(comments: bool) -> Builder {
    let mut b = Builder::default();
    b.open(0x98).leaf(0x40, "struct").leaf(WS, " ");
    b.leaf(IDENT, "Pool")
        .leaf(WS, " ")
        .open(0xA3)
        .leaf(0x12, "{");
    b.list(|b, i| {
        if comments {
            b.leaf(LINE_COMMENT, "// of the pool").leaf(WS, "\n");
        }
        b.open(FIELD).leaf(IDENT, &name(i)).close();
    });
    b.leaf(0x13, "}").close().close();
    b
}

fn uses() -> Builder {
    let mut b = Builder::default();
    b.open(0x9B).leaf(0x43, "use").leaf(WS, " ");
    b.leaf(IDENT, "std").leaf(COLONCOLON, "::");
    b.open(0xA1).leaf(0x12, "{");
    b.list(|b, i| {
        b.open(0xA0).leaf(IDENT, &name(i)).close();
    });
    b.leaf(0x13, "}").close().close();
    b
}

/// A block of 8,000 records: so many statements as fit.
fn block() -> Builder {
    let mut b = Builder::default();
    b.open(BLOCK).leaf(0x12, "{").open(BLOCK_BODY);
    let mut i = 0;
    while b.records.len() + 15 <= 8_000 {
        b.local(i);
        i += 1;
    }
    b.close().leaf(0x13, "}").close();
    b
}

/// A list of 1,000, loose for its width.
fn list() -> Builder {
    let mut b = Builder::default();
    b.open(0xC3).leaf(0x14, "[");
    b.list_of(1_000, |b, i| {
        b.expr(&name(i));
    });
    b.leaf(0x15, "]").close();
    b
}

/// A chain of 100 links, `.name(value)` fifty times.
fn chain() -> Builder {
    let mut b = Builder::default();
    b.open(0xE2).path_of("pool");
    for i in 0..50 {
        b.open(0xE5).leaf(0x26, ".").path_of(&name(i)).close();
        b.open(EXPR_CALL).leaf(0x10, "(").expr("value");
        b.leaf(0x11, ")").close();
    }
    b.close();
    b
}

/// Name, source and tree of each.
pub fn all() -> Vec<(&'static str, Vec<u8>, Vec<u8>)> {
    let nodes = [
        ("a path of 301 names", path()),
        ("a pattern, a tuple of 300", pattern()),
        ("a struct of 300 fields", fields(false)),
        ("the same, a comment before each", fields(true)),
        ("a use of 300 names", uses()),
        ("a block of 8,000 records", block()),
        ("a list of 1,000 entries", list()),
        ("a chain of 100 links", chain()),
    ];
    let built = |(name, mut b): (&'static str, Builder)| {
        let (source, tree) = b.done();
        (name, source, tree)
    };
    nodes.into_iter().map(built).collect()
}
