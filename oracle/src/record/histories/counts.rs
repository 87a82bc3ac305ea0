//! What is flushed: newlines, spaces, indentation, and the counts behind them.
use super::history;
use crate::call::Call::{
    self, Comments, FlushWhitespace, Ignore, Indent, Lit, Nl, WriteOwned, WriteRaw, Ws,
};
use crate::grammar::Rec;
use crate::record::history::History;
use crate::record::pieces::Pieces;

/// All that a flush may find, and each call that flushes or doesn't.
pub fn flushes(all: &mut Vec<History>) {
    let tree = r#"03"a" 00"\n\n\n" 03"b" 01"//l" 03"c""#;
    let befores: [&[Call]; 9] = [
        &[],
        &[Ws],
        &[Nl(1)],
        &[Nl(3)],
        &[Ws, Nl(2)],
        &[WriteRaw(0)],
        &[WriteRaw(0), Ws],
        &[WriteRaw(0), Ws, Nl(1)],
        // the comment takes the count, `use_lines` stays
        &[Nl(1), Ignore(2), Ws],
    ];
    let lasts = [
        FlushWhitespace(false),
        FlushWhitespace(true),
        Lit(6),
        WriteOwned(4),
        WriteRaw(4),
        Ignore(4),
    ];
    for before in befores {
        for last in lasts {
            for indent in [0, 2] {
                let calls = [&[Indent(indent)][..], before, &[last, WriteOwned(4)]];
                all.push(history("flushes", tree, &calls.concat()));
            }
        }
    }
}

pub fn literals(all: &mut Vec<History>) {
    let tree = r#"03"a" 00"\n" 02"/*b*/" 00"\n\n" 03"z""#;
    for n in 0..8 {
        let lit = Lit(n);
        all.push(history("literals", tree, &[lit, lit]));
        let between = [WriteOwned(0), lit, Ws, lit, Nl(1), lit, WriteOwned(4)];
        all.push(history("literals", tree, &between));
    }
}

pub fn indents(all: &mut Vec<History>) {
    let sort = "indents";
    let every: Vec<Call> = (0..=255u8).map(|b| Indent(b as i8)).collect();
    all.push(history(sort, "", &every));
    let from_32 = [&[Indent(32)][..], &every].concat();
    all.push(history(sort, "", &from_32));
    let bounds = [64, 1, 0, 127, -64, -1, 65, 63, 1, 1, -65, -128, -64, 0];
    all.push(history(sort, "", &bounds.map(Indent)));
    let tree = r#"03"a" 00"\n\n\n" 01"//l" 00"\n" 03"z""#;
    for indent in [0, 1, 63, 64] {
        let begin = [Indent(indent), WriteOwned(0)];
        let end = [Comments(0), Nl(1), WriteOwned(4)];
        all.push(history(sort, tree, &[&begin[..], &end].concat()));
        // indentation counts when the newline is written, not when it is offered
        let begin = [WriteOwned(4), Nl(2), Indent(indent)];
        let end = [WriteOwned(4), Indent(-1)];
        all.push(history(sort, tree, &[&begin[..], &end].concat()));
    }
}

/// The script's own count against what `nl` offers; counts beyond two are kept.
pub fn lines(all: &mut Vec<History>) {
    let sort = "line counts";
    for newlines in [0, 1, 2, 3, 300] {
        let gap = r"\n".repeat(newlines);
        let tree = format!(r#"03"a" 00" {gap} " 03"b" 00" " 00"{gap}" 02"/**/" 03"c""#);
        for offer in [0, 1, 2, 3, 255] {
            let begin = [WriteOwned(0), Nl(offer), Nl(1), WriteOwned(2)];
            let end = [Nl(offer), Comments(0), Ws, WriteOwned(6)];
            all.push(history(sort, &tree, &[&begin[..], &end].concat()));
        }
    }
    all.push(long_gap(sort));
}

/// 65,000 newlines before a comment.
fn long_gap(sort: &'static str) -> History {
    let calls = [Ignore(0), Comments(0), Nl(1), WriteOwned(0), WriteOwned(3)];
    let gap = Pieces::times(65_000, "\n");
    let records = [
        Rec::new(3, 0, 1, 0),
        Rec::new(0, 1, 65_001, 0),
        Rec::new(1, 65_001, 65_004, 0),
        Rec::new(3, 65_004, 65_005, 0),
    ];
    History {
        source: Pieces::from("a").and(gap).and("//lz"),
        tree: records.into(),
        ..history(sort, "", &calls)
    }
}
