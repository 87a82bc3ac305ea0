//! Document 01's call records, and the steps of a case file.

#[derive(Debug, Clone, Copy, PartialEq, Eq)]
pub enum Call {
    WriteOwned(u32),
    WriteRaw(u32),
    Ignore(u32),
    /// 0-7, in document 01's order
    Lit(u8),
    /// 0-3: Line, Prefix, Suffix, Infix
    Comments(u8),
    Indent(i8),
    Nl(u8),
    Ws,
    FlushWhitespace(bool),
    FlushPrefixComments,
    Finish,
}

/// Bytes behind the kind of a call record; None for an unknown kind.
fn body_len(kind: u8) -> Option<usize> {
    match kind {
        0x01..=0x03 => Some(4),
        0x04..=0x07 | 0x09 => Some(1),
        0x08 | 0x0A | 0x0B => Some(0),
        _ => None,
    }
}

impl Call {
    /// The call of a record that fills the bytes exactly. None: refusal 12.
    pub fn decode(record: &[u8]) -> Option<Call> {
        let (&kind, body) = record.split_first()?;
        if body_len(kind)? != body.len() {
            return None;
        }
        let node = || u32::from_le_bytes(body.try_into().unwrap());
        Some(match kind {
            0x01 => Call::WriteOwned(node()),
            0x02 => Call::WriteRaw(node()),
            0x03 => Call::Ignore(node()),
            0x04 if body[0] < 8 => Call::Lit(body[0]),
            0x05 if body[0] < 4 => Call::Comments(body[0]),
            0x06 => Call::Indent(body[0] as i8),
            0x07 => Call::Nl(body[0]),
            0x08 => Call::Ws,
            0x09 if body[0] < 2 => Call::FlushWhitespace(body[0] == 1),
            0x0A => Call::FlushPrefixComments,
            0x0B => Call::Finish,
            _ => return None,
        })
    }

    pub fn encode(self) -> Vec<u8> {
        let node = |kind: u8, n: u32| [&[kind][..], &n.to_le_bytes()].concat();
        match self {
            Call::WriteOwned(n) => node(0x01, n),
            Call::WriteRaw(n) => node(0x02, n),
            Call::Ignore(n) => node(0x03, n),
            Call::Lit(n) => vec![0x04, n],
            Call::Comments(n) => vec![0x05, n],
            Call::Indent(d) => vec![0x06, d as u8],
            Call::Nl(n) => vec![0x07, n],
            Call::Ws => vec![0x08],
            Call::FlushWhitespace(p) => vec![0x09, p as u8],
            Call::FlushPrefixComments => vec![0x0A],
            Call::Finish => vec![0x0B],
        }
    }

    /// The node that the call names.
    pub fn node(self) -> Option<u32> {
        match self {
            Call::WriteOwned(n) | Call::WriteRaw(n) | Call::Ignore(n) => Some(n),
            _ => None,
        }
    }
}

/// A case file's kinds beside document 01's: a layout run, a whole layout. They
/// are no call records: to the engine they are unknown.
const RUN: u8 = 0xE0;
const LAYOUT: u8 = 0xE1;

#[derive(Debug, Clone, Copy)]
pub enum Step<'a> {
    /// One call record, whatever its bytes.
    Call(&'a [u8]),
    Run(u32),
    Layout,
}

pub fn run_step(node: u32) -> Vec<u8> {
    [&[RUN][..], &node.to_le_bytes()].concat()
}

pub fn layout_step() -> Vec<u8> {
    vec![LAYOUT]
}

/// One step by itself: a run if its bytes are one, else a call record.
pub fn step(record: &[u8]) -> Step<'_> {
    match record {
        [RUN, a, b, c, d] => Step::Run(u32::from_le_bytes([*a, *b, *c, *d])),
        _ => Step::Call(record),
    }
}

/// The steps of a case file with their byte places. A record of an unknown kind
/// takes all the rest, as its length isn't known; a cut one is the last.
pub fn script(bytes: &[u8]) -> Vec<(usize, Step<'_>)> {
    let mut steps = vec![];
    let mut at = 0;
    while at < bytes.len() {
        let rest = &bytes[at..];
        let (step, len) = match rest {
            [RUN, a, b, c, d, ..] => (Step::Run(u32::from_le_bytes([*a, *b, *c, *d])), 5),
            [LAYOUT, ..] => (Step::Layout, 1),
            _ => {
                let whole = body_len(rest[0]).map_or(rest.len(), |n| n + 1);
                let len = whole.min(rest.len());
                (Step::Call(&rest[..len]), len)
            }
        };
        steps.push((at, step));
        at += len;
    }
    steps
}
