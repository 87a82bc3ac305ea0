//! Comments let out: by each call that does so, in every order, over an output
//! that is empty and one that isn't.
use super::{history, last_of, RELEASES};
use crate::call::Call::{Comments, FlushPrefixComments, Ignore, Indent, Lit, Nl, WriteOwned, Ws};
use crate::record::history::History;

/// Document 01's small sessions from P4 on, and the students' errors.
pub fn sessions(all: &mut Vec<History>) {
    let note = r#"03"a" 01"// n""#;
    let note_below = r#"03"a" 00"\n" 01"// n""#;
    let both = r#"03"a" 01"// n" 02"/* b */" 03"z""#;
    let gap = r#"03"a" 00"\n\n\n\n\n" 03"z""#;
    let first = WriteOwned(0);
    for (tree, calls) in [
        (note, &[first, Nl(1)][..]),
        (note_below, &[first, Nl(1)]),
        (both, &[first, Ws]),
        (r#"03"(" 02"/* b */""#, &[first, Comments(1)]),
        ("", &[Indent(-1)]),
        (r#"03"a""#, &[Ws, first]),
        (gap, &[first, Nl(1), WriteOwned(2)]),
        // a block comment doesn't pass a line comment
        (both, &[first, Comments(1), Comments(2), Comments(3), Ws]),
        // an offer neither is cut to two nor overwrites a count
        (gap, &[WriteOwned(2), Nl(200), Nl(1), first]),
        (gap, &[first, Nl(2), Nl(3), WriteOwned(2)]),
        // a literal that wrote no newline keeps the count
        (gap, &[first, Lit(5), Nl(1), WriteOwned(2)]),
        (gap, &[first, Lit(5), Ws, Lit(6), WriteOwned(2)]),
    ] {
        all.push(history("small sessions", tree, calls));
    }
}

/// A comment, a line comment or not, with so many newlines before it.
fn comment(line: bool, before: usize) -> String {
    let gap = match before {
        0 => String::new(),
        _ => format!(r#"00"{}" "#, r"\n".repeat(before)),
    };
    let text = if line {
        r#"01"//l " "#
    } else {
        r#"02"/*b*/" "#
    };
    gap + text
}

fn between_tokens(comments: &str) -> String {
    format!(r#"03"a" {comments}03"z""#)
}

/// Each release on every queue of one comment, before 0 to 3, and of two.
pub fn each(all: &mut Vec<History>) {
    let sorts = |befores: &[usize]| -> Vec<String> {
        let both = |before: &usize| [comment(false, *before), comment(true, *before)];
        befores.iter().flat_map(both).collect()
    };
    let mut queues = sorts(&[0, 1, 2, 3]);
    for first in sorts(&[0, 1, 3]) {
        queues.extend(
            sorts(&[0, 1, 3])
                .iter()
                .map(|second| first.clone() + second),
        );
    }
    for queue in queues {
        let tree = between_tokens(&queue);
        for release in RELEASES {
            let calls = [WriteOwned(0), release, WriteOwned(last_of(&tree))];
            all.push(history("releases", &tree, &calls));
        }
    }
}

/// Each release behind each other, on longer queues, at some indentation.
pub fn two(all: &mut Vec<History>) {
    let block = |before| comment(false, before);
    let line = |before| comment(true, before);
    let queues = [
        block(0) + &line(0) + &block(0),
        line(0) + &block(0) + &line(1),
        block(1) + &block(0) + &line(3) + &block(0),
    ];
    for (i, queue) in queues.iter().enumerate() {
        let tree = between_tokens(queue);
        for first in RELEASES {
            for second in RELEASES {
                let begin = [Indent(i as i8), WriteOwned(0)];
                let end = [first, second, WriteOwned(last_of(&tree))];
                all.push(history("two releases", &tree, &[&begin[..], &end].concat()));
            }
        }
    }
}

/// Comments let out while the output is empty, some of them empty themselves, or
/// empty once they are trimmed.
pub fn on_empty_output(all: &mut Vec<History>) {
    let sort = "empty output";
    let comments = [
        r#"02"" "#,
        r#"01"" "#,
        r#"01" \t\r" "#,
        r#"02"/*b*/" "#,
        r#"01"//l" "#,
        r#"00"\n" 02"" "#,
        r#"00"\n" 01"//l" "#,
    ];
    for first in comments {
        for second in comments {
            let tree = between_tokens(&format!("{first}{second}"));
            for release in &RELEASES[..6] {
                all.push(history(sort, &tree, &[Ignore(0), *release, Lit(5)]));
            }
        }
    }
    let leading = r#"00"\n\n\n" 02"/*b*/" 00"\n" 01"//l" 00"\n\n" (80) 03"z""#;
    let calls = [FlushPrefixComments, WriteOwned(6), FlushPrefixComments];
    all.push(history(sort, leading, &calls));
}

/// Every character of White_Space.
const WHITE: &str = "\u{9}\u{A}\u{B}\u{C}\u{D}\u{20}\u{85}\u{A0}\u{1680}\u{2000}\u{2001}\u{2002}\u{2003}\
     \u{2004}\u{2005}\u{2006}\u{2007}\u{2008}\u{2009}\u{200A}\u{2028}\u{2029}\u{202F}\u{205F}\u{3000}";

/// What a comment may end in: each sort of White_Space, alone, behind a letter
/// whose last byte is a blank by itself, and many in a row; White_Space with
/// something behind it; nothing but `//` and blanks; and characters beside the
/// ranges, which stay.
pub fn trimming(all: &mut Vec<History>) {
    let mut ends: Vec<String> = vec![];
    for c in WHITE.chars() {
        ends.extend([c.to_string(), format!("x{c}"), format!("ą{c} {c}")]);
    }
    ends.extend([WHITE.into(), format!("x{WHITE}y"), WHITE.repeat(3)]);
    ends.extend(["ą", "à", "x\n\u{3000}y \u{3000}", "x\n", "\n\n", "\r\n"].map(String::from));
    let beside = "\u{1C}\u{1D}\u{1E}\u{1F}\u{8}\u{E}\u{84}\u{86}\u{9F}\u{A1}\u{180E}\u{200B}\u{2027}\u{202A}\u{2060}\u{3001}\u{FEFF}";
    ends.extend(beside.chars().map(|c| format!("x {c}")));
    ends.extend([" ".repeat(300), "\u{3000}".repeat(100), "🦀\u{2003}".into()]);
    let escaped = |end: &str| -> String {
        end.chars()
            .map(|c| c.escape_unicode().to_string())
            .collect()
    };
    let mut put = |comment: String, release| {
        let tree = between_tokens(&comment);
        let calls = [WriteOwned(0), release, Nl(1), WriteOwned(last_of(&tree))];
        all.push(history("trimming", &tree, &calls));
    };
    for end in ends {
        put(format!(r#"01"//{}" "#, escaped(&end)), Nl(1));
    }
    // a block comment and a space release keep all of it
    let end = escaped(&format!("x{WHITE}"));
    for release in RELEASES {
        put(format!(r#"01"//{end}" "#), release);
        put(format!(r#"02"/**/{end}" "#), release);
    }
}
