//! Sources beyond ASCII, and histories by chance.
use super::{history, last_of, RELEASES};
use crate::call::Call::{self, Comments, Nl, WriteOwned, WriteRaw, Ws};
use crate::gen::{self, Rng};
use crate::record::history::History;

/// White_Space that is no newline, and what trimming keeps.
const TREES: [&str; 3] = [
    r#"03"é" 00"\u{2028}\u{85}\u{3000}" 01"// 注釈 \t\r" 00"\u{2029}\n" 02"/*🦀\u{3000}*/"
       03"名前""#,
    r#"03"𝒳" 01"//\u{3000}x  " 02"/* \u{A0} */" 00"\u{B}\u{C}\r\n" 01"//\u{200B}" 03"ß""#,
    r#"03"漢字" 00"\n" 02"é " 01"é \t \r\r" 00"\r\n\r\n\r\n" 02"\r\n" 03"\u{10FFFF}""#,
];

pub fn other_characters(all: &mut Vec<History>) {
    let sort = "other characters";
    for tree in TREES {
        let last = last_of(tree);
        for release in RELEASES {
            let calls = [WriteOwned(0), release, Comments(0), Nl(1), WriteOwned(last)];
            all.push(history(sort, tree, &calls));
        }
        let parts: Vec<Call> = (0..=last).flat_map(|n| [WriteRaw(n), Ws, Nl(1)]).collect();
        all.push(history(sort, tree, &parts));
    }
}

/// Over small trees; every third may end line comments in White_Space of every
/// sort.
pub fn random(all: &mut Vec<History>) {
    let mut rng = Rng::new(7);
    for i in 0..90 {
        let (source, records) = gen::small_tree(&mut rng, i % 3 == 2);
        let calls = gen::history(&mut rng, records.len(), 12, 40);
        let cap = rng.one_in(3).then(|| rng.below(120));
        all.push(History {
            sort: "random",
            source: source.as_str().into(),
            tree: records.into(),
            cap,
            steps: calls,
            runs: false,
        });
    }
}
