//! Which lines of format.rs call a stand-in (feature `trace`).
#[cfg(feature = "trace")]
mod counting {
    use crate::lines::{FORMAT, FORMAT_RS, FUNCTIONS};
    use core::panic::Location;
    use std::sync::atomic::{AtomicU32, Ordering};

    static HITS: [AtomicU32; 2048] = [const { AtomicU32::new(0) }; 2048];

    #[track_caller]
    pub fn hit() {
        let from = Location::caller();
        if from.file() == FORMAT_RS {
            HITS[from.line() as usize].fetch_add(1, Ordering::Relaxed);
        }
    }

    /// What a line that calls a stand-in holds.
    const CALLS: &[&str] = &[
        "p.expect(",
        "p.one(",
        "p.eat(",
        "p.eat_matching(",
        "p.pump()",
        "p.peek()",
        "p.kind()",
        "p.remaining(",
        "p.children()",
        "p.is_eof()",
        "p.expected(",
        ".unsupported(",
        ".parse(",
        ".fmt(fmt)",
        ".ignore(fmt",
        "node.kind()",
        "and_then(",
        "is_present()",
        "write_if(",
        "write_only_if(",
        "fmt.ws()",
        "fmt.nl(",
        "fmt.comments(",
        "fmt.indent(",
        "fmt.lit(",
    ];

    /// Functions that no run reaches: document 01 leaves the macro calls and the skip
    /// attribute out, and a whole layout is no run.
    pub const NO_RULES: &[&str] = &[
        "is_runefmt_skip",
        "root",
        "loose_expr_macro_call",
        "compact_expr_macro_call",
    ];

    /// Of all functions but these.
    pub fn report(but: &[&str]) {
        let (mut entered, mut with_calls, mut reached, mut all) = (0, 0, 0, 0);
        for (name, first, last) in FUNCTIONS.iter().filter(|f| !but.contains(&f.0)) {
            let calls: Vec<usize> = (*first..=*last)
                .filter(|n| {
                    CALLS
                        .iter()
                        .any(|c| FORMAT.lines().nth(n - 1).unwrap().contains(c))
                })
                .collect();
            let missed: Vec<usize> = calls
                .iter()
                .copied()
                .filter(|n| HITS[*n].load(Ordering::Relaxed) == 0)
                .collect();
            all += calls.len();
            reached += calls.len() - missed.len();
            with_calls += !calls.is_empty() as usize;
            entered += (missed.len() < calls.len()) as usize;
            if !missed.is_empty() {
                println!("  {name:28} lines not reached: {missed:?}");
            }
        }
        println!("functions entered: {entered} of {with_calls}");
        println!("lines that call a stand-in: {reached} of {all}");
    }
}

#[cfg(feature = "trace")]
pub use counting::{hit, report, NO_RULES};

/// Counts the line of format.rs that called the stand-in.
#[cfg(not(feature = "trace"))]
#[inline(always)]
pub fn hit() {}
