//! The measurements: the proved code beside the Rust, in one run. Arguments name
//! tables; none: all. `tests/bench/run` builds and starts it.
mod clock;
mod exported;
mod histories;
mod layouts;
mod nodes;
mod public;
mod rust;
mod scripts;
mod stack;
mod tables;
mod texts;
mod trees;

const TABLES: &[(&str, fn())] = &[
    ("texts", tables::texts),
    ("opening", tables::opening),
    ("calls", tables::calls),
    ("single", tables::single),
    ("trimmed", tables::trimmed),
    ("public", public::calls),
    ("growth", public::growth),
    ("runs", public::runs),
    ("layouts", layouts::table),
    ("turns", layouts::turns),
    ("stack", stack::table),
];

fn main() {
    let wanted: Vec<String> = std::env::args().skip(1).collect();
    if let Some(word) = wanted.iter().find(|w| TABLES.iter().all(|t| t.0 != *w)) {
        eprintln!("{word} is no table; there are:");
        TABLES.iter().for_each(|t| eprintln!("  {}", t.0));
        std::process::exit(2);
    }
    for (name, table) in TABLES {
        if wanted.is_empty() || wanted.iter().any(|w| w == name) {
            table();
        }
    }
}
