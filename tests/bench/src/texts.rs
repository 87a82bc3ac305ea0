//! Texts of 64 KiB.

pub const SIZE: usize = 65_536;

const SCRIPT: &str = "pub fn drain(pool, weight) {
    let limit = weight * 80; // per backend
    for b in pool.backends() {
        if b.load() > limit && !b.pinned() {
            b.close(limit, \"drained by policy\");
        }
    }
}

";
const REMARKS: &str = "    // Rückbau: erst ausleeren, dann schließen — 重みが零なら外す
    let größe = 80; // δίσκος, дальше
";
const JAPANESE: &str =
    "重みが零の転送先は、新しい接続を受けない。既存の接続が終わるまで待ってから外すこと。\u{3000}";

/// The pieces in turn, whole, then letters up to the size.
fn filled(pieces: &[&str], size: usize) -> String {
    let mut text = String::new();
    for piece in pieces.iter().cycle() {
        if text.len() + piece.len() > size {
            break;
        }
        text.push_str(piece);
    }
    while text.len() < size {
        text.push('x');
    }
    text
}

/// A script with remarks in other letters.
pub fn mixed(size: usize) -> String {
    filled(&[SCRIPT, REMARKS], size)
}

/// Name and text of each row.
pub fn all() -> Vec<(&'static str, String)> {
    vec![
        ("ASCII", filled(&[SCRIPT], SIZE)),
        ("mixed", mixed(SIZE)),
        ("Japanese", filled(&[JAPANESE], SIZE)),
    ]
}
