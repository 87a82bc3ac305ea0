//! The opening checks of document 01: refusals 1, 2, 3 and 7, in one flat pass
//! with a stack of open parents. opening_again.rs has them a second time.
use crate::grammar::{Rec, Tree};
use crate::refusal::Refusal;

pub const MAX_SOURCE: usize = 65_536;
pub const MAX_RECORDS: usize = 8_192;
pub const MAX_DEPTH: usize = 64;

/// The records of a list, as far as its bytes go.
pub struct Records {
    /// A cut last record is here too, with zeroes for what isn't there.
    pub list: Vec<Rec>,
    pub cut: bool,
}

pub fn split(tree: &[u8]) -> Records {
    let mut list = Vec::with_capacity(tree.len() / 9 + 1);
    let mut rest = tree;
    while let Some(&kind) = rest.first() {
        let len = if kind < 0x80 { 9 } else { 13 };
        if rest.len() < len {
            list.push(Rec::new(kind, 0, 0, 0));
            return Records { list, cut: true };
        }
        let word = |at: usize| u32::from_le_bytes(rest[at..at + 4].try_into().unwrap());
        let below = if kind < 0x80 { 0 } else { word(9) };
        list.push(Rec::new(kind, word(1), word(5), below));
        rest = &rest[len..];
    }
    Records { list, cut: false }
}

pub fn join(records: &[Rec]) -> Vec<u8> {
    let mut bytes = Vec::with_capacity(records.len() * 11);
    for r in records {
        bytes.push(r.kind);
        bytes.extend_from_slice(&r.start.to_le_bytes());
        bytes.extend_from_slice(&r.end.to_le_bytes());
        if !r.is_leaf() {
            bytes.extend_from_slice(&r.below.to_le_bytes());
        }
    }
    bytes
}

pub fn check_source(source: &[u8]) -> Result<&str, Refusal> {
    if source.len() > MAX_SOURCE {
        return Err(Refusal::new(1, MAX_SOURCE as u32));
    }
    std::str::from_utf8(source).map_err(|e| Refusal::new(2, e.valid_up_to() as u32))
}

/// A composite whose records are being passed, or the list itself.
struct Parent {
    /// The first record behind the last one below it. 64 bits: a count may be
    /// any 32-bit number.
    end: u64,
    span_end: u32,
    /// Where the next child may start: the end of the child before, or the
    /// parent's own start.
    from: u32,
}

fn keeps_rules(r: &Rec, number: u64, source: &str, parent: &Parent) -> bool {
    r.start <= r.end
        && r.end as usize <= source.len()
        && source.is_char_boundary(r.start as usize)
        && source.is_char_boundary(r.end as usize)
        && r.start >= parent.from
        && r.end <= parent.span_end
        && number + 1 + r.below as u64 <= parent.end
}

pub fn check_tree(source: &str, records: &Records) -> Result<(), Refusal> {
    let total = records.list.len();
    let mut open = vec![Parent {
        end: total as u64,
        span_end: source.len() as u32,
        from: 0,
    }];
    for (i, r) in records.list.iter().enumerate() {
        let number = i as u64;
        while open.len() > 1 && open.last().unwrap().end == number {
            open.pop();
        }
        let depth = open.len();
        let parent = open.last_mut().unwrap();
        let cut = records.cut && i + 1 == total;
        if i >= MAX_RECORDS || cut || !keeps_rules(r, number, source, parent) {
            return Err(Refusal::new(3, i as u32));
        }
        if depth > MAX_DEPTH {
            return Err(Refusal::new(7, i as u32));
        }
        parent.from = r.end;
        if r.below > 0 {
            open.push(Parent {
                end: number + 1 + r.below as u64,
                span_end: r.end,
                from: r.start,
            });
        }
    }
    Ok(())
}

pub fn open(source: &[u8], tree: &[u8]) -> Result<Tree, Refusal> {
    let source = check_source(source)?;
    let records = split(tree);
    check_tree(source, &records)?;
    Ok(Tree::new(records.list))
}
