//! The Rust's own `Formatter`, driven by call records: decoding, 10 and 11, and
//! the call. Nothing is put back behind a refusal, and nothing is noted.
use oracle::alloc;
use oracle::call::{Call, Step};
use oracle::engine::{refusal, Engine};
use oracle::grammar::Tree;
use oracle::opening::split;
use oracle::refusal::Refusal;
use oracle::Diagnostics;

const LITERALS: [&str; 8] = ["{}", "||", "()", "{", "}", ",", ";", ":"];

pub fn tree(bytes: &[u8]) -> Tree {
    Tree::new(split(bytes).list)
}

/// How many bytes the record that begins with this byte has.
pub fn record_len(kind: u8) -> usize {
    match kind {
        0x01..=0x03 => 5,
        0x04..=0x07 | 0x09 => 2,
        _ => 1,
    }
}

/// All records from a fresh engine on: the output's length.
pub fn calls(
    source: &str,
    tree: &Tree,
    buffer: &mut alloc::String,
    records: &[u8],
) -> Result<usize, Refusal> {
    buffer.text.clear();
    let mut diagnostics = Diagnostics;
    let mut engine = Engine::new(source, tree, buffer, &mut diagnostics);
    let mut finished = false;
    let mut at = 0;
    while at < records.len() {
        let end = (at + record_len(records[at])).min(records.len());
        let call = Call::decode(&records[at..end]).ok_or(Refusal::new(12, at as u32))?;
        if finished {
            return Err(Refusal::new(10, engine.fmt.len() as u32));
        }
        make(&mut engine, tree, call)?;
        finished = call == Call::Finish;
        at = end;
    }
    Ok(engine.fmt.len())
}

/// A run on record 0 from a fresh engine on: the output's length.
pub fn run(source: &str, tree: &Tree, buffer: &mut alloc::String) -> Result<usize, Refusal> {
    step(source, tree, buffer, Step::Run(0))
}

/// A whole layout from a fresh engine on: the output's length.
pub fn layout(source: &str, tree: &Tree, buffer: &mut alloc::String) -> Result<usize, Refusal> {
    step(source, tree, buffer, Step::Layout)
}

fn step(
    source: &str,
    tree: &Tree,
    buffer: &mut alloc::String,
    step: Step<'_>,
) -> Result<usize, Refusal> {
    buffer.text.clear();
    let mut diagnostics = Diagnostics;
    let mut engine = Engine::new(source, tree, buffer, &mut diagnostics);
    engine.step(step)?;
    Ok(engine.fmt.len())
}

fn make<'a>(engine: &mut Engine<'a>, tree: &'a Tree, call: Call) -> Result<(), Refusal> {
    if let Some(node) = call.node() {
        if node as usize >= tree.records.len() {
            return Err(Refusal::new(11, node));
        }
    }
    let f = &mut engine.fmt;
    match call {
        Call::WriteOwned(n) => f.write_owned(tree.node(n)),
        Call::WriteRaw(n) => f.write_raw(tree.node(n)),
        Call::Ignore(n) => f.ignore(tree.node(n)),
        Call::Lit(n) => f.lit(LITERALS[n as usize]),
        Call::Comments(n) => f.comments_by_number(n),
        Call::Indent(d) => f.indent(d as isize),
        Call::Nl(n) => f.nl(n as usize),
        Call::Ws => f.ws(),
        Call::FlushWhitespace(p) => f.flush_whitespace(p),
        Call::FlushPrefixComments => f.flush_prefix_comments(),
        Call::Finish => f.finish(),
    }
    .map_err(refusal)
}
