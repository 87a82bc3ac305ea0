//! Calls refused in the middle of a history: nodes not in the tree, records that
//! are none, a finished engine.
use super::history;
use crate::call::Call::{
    self, Comments, Finish, FlushPrefixComments, FlushWhitespace, Ignore, Indent, Lit, Nl,
    WriteOwned, WriteRaw, Ws,
};
use crate::record::history::History;

pub fn nodes(all: &mut Vec<History>) {
    let tree = r#"03"a" 02"/*b*/" 00"\n" 03"z""#;
    let missing = [4, 5, 255, 256, 8_192, 0x8000_0000, u32::MAX];
    for call in [WriteOwned as fn(u32) -> Call, WriteRaw, Ignore] {
        let mut calls = vec![Ws, call(0)];
        calls.extend(missing.map(call));
        calls.extend([call(3), Finish, call(4)]);
        all.push(history("refused nodes", tree, &calls));
        all.push(history("refused nodes", "", &[call(0), Lit(0), call(0)]));
    }
}

/// Call records that are unknown, cut, with bytes behind, or with a value that
/// isn't listed. A case file's E0 and E1 are among the unknown.
#[rustfmt::skip]
const BAD_RECORDS: &[&[u8]] = &[
    &[], &[0x00], &[0x0C], &[0x0D], &[0x0E, 0], &[0x7F], &[0x81, 0, 0, 0, 0],
    &[0xE0, 0, 0, 0, 0], &[0xE1], &[0xFF],
    &[0x01], &[0x01, 0], &[0x01, 0, 0, 0], &[0x01, 0, 0, 0, 0, 0],
    &[0x02], &[0x02, 0, 0, 0], &[0x02, 0, 0, 0, 0, 0],
    &[0x03], &[0x03, 0, 0, 0], &[0x03, 0, 0, 0, 0, 0],
    &[0x04], &[0x04, 8], &[0x04, 255], &[0x04, 0, 0],
    &[0x05], &[0x05, 4], &[0x05, 255], &[0x05, 0, 0],
    &[0x06], &[0x06, 1, 0],
    &[0x07], &[0x07, 1, 0],
    &[0x08, 0], &[0x08, 8],
    &[0x09], &[0x09, 2], &[0x09, 255], &[0x09, 0, 0],
    &[0x0A, 0], &[0x0A, 0x0A],
    &[0x0B, 0], &[0x0B, 0x0B],
];

pub fn records(all: &mut Vec<History>) {
    let tree = r#"03"a" 02"/*b*/" 00"\n" 03"z""#;
    for bad in BAD_RECORDS {
        let mut h = history("refused records", tree, &[WriteOwned(0), Ws, Finish]);
        h.steps.insert(2, bad.to_vec());
        // 12 before 10
        h.steps.push(bad.to_vec());
        all.push(h);
    }
}

/// Every call behind a finish, those too that would do nothing.
pub fn finished(all: &mut Vec<History>) {
    let sort = "finished";
    let tree = r#"03"a" 00"\n" 01"//l" 00"\n" 03"z""#;
    let mut every = vec![WriteOwned(4), WriteRaw(4), Ignore(4), WriteOwned(99)];
    every.extend((0..8).map(Lit));
    every.extend((0..4).map(Comments));
    every.extend([Indent(0), Indent(-1), Nl(0), Nl(1), Ws]);
    every.extend([FlushWhitespace(false), FlushWhitespace(true)]);
    every.extend([FlushPrefixComments, Finish]);
    for before in [
        &[][..],
        &[WriteOwned(0)],
        &[Ignore(0), Ws, Indent(3), Nl(2)],
    ] {
        let calls = [before, &[Finish], &every].concat();
        all.push(history(sort, tree, &calls));
    }
    // one byte too few: a finish that is refused leaves the engine open
    for cap in [4, 5] {
        let calls = [WriteOwned(0), Finish, Nl(1), Finish, Lit(5)];
        let cap = Some(cap);
        let h = history(sort, r#"03"a" 01"//l""#, &calls);
        all.push(History { cap, ..h });
    }
}
