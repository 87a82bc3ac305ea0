//! Collecting, queues of up to 257 comments, and buffers of every length.
use super::{encode, history, last_of};
use crate::call::Call::{
    self, Comments, Finish, FlushPrefixComments, FlushWhitespace, Ignore, Indent, Lit, Nl,
    WriteOwned, WriteRaw, Ws,
};
use crate::grammar::Rec;
use crate::record::history::History;
use crate::record::pieces::Pieces;

/// What a collecting passes and what stops it, from each record on.
pub fn collecting(all: &mut Vec<History>) {
    let sort = "collecting";
    for tree in [
        // composites that have records are passed, at any depth
        r#"03"a" (80 00"\n" (F7 02"/*1*/" (96 01"//2")) 00"\n") 02"/*3*/" 03"z" 02"/*4*/""#,
        // an empty composite stops
        r#"(80 03"a" (B0) 02"/*1*/") 02"/*2*/" (80) 01"//3""#,
        // the first count that isn't 0 stands
        r#"03"a" 00" " 00"\n\n" 00"\n" 02"/*1*/" 00"" 00"\n" 00"x\n\ny" 01"//2" 00"\n\n""#,
        // empty records, and kinds that no table lists
        r#"7F"a" 00"" 01"" 02"" 7F"" 01"//1" (FF 02"/*2*/") 00"\n""#,
    ] {
        let last = last_of(tree);
        for call in [Ignore as fn(u32) -> Call, WriteOwned, WriteRaw] {
            let calls: Vec<Call> = (0..=last).map(call).collect();
            all.push(history(sort, tree, &calls));
        }
        for first in [FlushPrefixComments, Ignore(0), WriteOwned(last)] {
            let again = FlushPrefixComments;
            let calls = [first, Nl(1), again, Ws, again, Finish];
            all.push(history(sort, tree, &calls));
        }
    }
}

/// So many comments of one byte each, every fifth a line comment.
fn comments(n: usize) -> impl Iterator<Item = Rec> {
    let kind = |i: u32| if i % 5 == 4 { 1 } else { 2 };
    (0..n as u32).map(move |i| Rec::new(kind(i), 1 + i, 2 + i, 0))
}

/// A token and so many comments behind it.
fn many(n: usize, calls: &[Call]) -> History {
    let records: Vec<Rec> = [Rec::new(3, 0, 1, 0)]
        .into_iter()
        .chain(comments(n))
        .collect();
    History {
        sort: "queues",
        source: Pieces::from("a").and(Pieces::times(n, "c")),
        tree: records.into(),
        cap: None,
        steps: encode(calls),
        runs: false,
    }
}

/// So many comments from record 0 on.
fn only_comments(n: usize, calls: &[Call]) -> History {
    History {
        tree: comments(n).collect::<Vec<Rec>>().into(),
        ..many(n, calls)
    }
}

pub fn sizes(all: &mut Vec<History>) {
    for n in [0, 1, 255, 256, 257] {
        all.push(many(n, &[WriteOwned(0), Nl(1), Comments(0)]));
        all.push(many(n, &[Ignore(0), Comments(1), Finish]));
        all.push(only_comments(n, &[FlushPrefixComments, Lit(5)]));
    }
    // once per collecting, behind a queue that is nearly full or full
    all.push(many(255, &[Ignore(0), Ignore(254), Ignore(254), Ignore(0)]));
    all.push(many(256, &[Ignore(0), WriteOwned(255), WriteOwned(256)]));
    all.push(many(256, &[Ignore(255), Ignore(0), Comments(1), Ignore(0)]));
    // the write calls meet 4 before 5, flush_prefix_comments 5 before 4
    for n in [256, 257] {
        for cap in [0, 1] {
            for call in [WriteOwned(0), WriteRaw(0), Ignore(0)] {
                let cap = Some(cap);
                all.push(History {
                    cap,
                    ..many(n, &[call])
                });
            }
            let cap = Some(cap);
            let calls = [FlushPrefixComments];
            all.push(History {
                cap,
                ..only_comments(n, &calls)
            });
        }
    }
}

/// One history with every buffer length, from none to one more than it needs.
pub fn rooms(all: &mut Vec<History>) {
    let tree = r#"02"/*é*/" 03"a" 00"\n" 01"//l " 00"\n\n\n" 02"/*b*/" 03"z" 02"/*d*/""#;
    let calls = [
        FlushPrefixComments,
        Ws,
        WriteOwned(1),
        Indent(1),
        Nl(1),
        Comments(0),
        Lit(1),
        WriteRaw(6),
        Nl(2),
        FlushWhitespace(true),
        Ws,
        WriteOwned(6),
        Comments(1),
        Finish,
    ];
    for cap in 0..=history("rooms", tree, &calls).needs() + 1 {
        let cap = Some(cap);
        let h = history("rooms", tree, &calls);
        all.push(History { cap, ..h });
    }
}
