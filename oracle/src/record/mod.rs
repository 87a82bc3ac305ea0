//! Recorded cases: files that a program of the port replays with no Rust at hand.
//! The README gives their formats.
mod again;
mod bounds;
mod calls;
mod histories;
mod history;
mod pieces;
mod planted;
mod rules;
mod runs;
mod sources;
mod trees;

pub use again::replay;
pub use calls::record as calls;
pub use planted::record as planted;
#[cfg(feature = "trace")]
pub use runs::make as make_runs;
pub use runs::record as runs;
pub use trees::record as trees;

/// How many cases of each sort a file holds, in the order of the file.
#[derive(Default)]
struct Sorts(Vec<(&'static str, usize)>);

impl Sorts {
    fn count(&mut self, sort: &'static str) {
        match self.0.iter_mut().find(|s| s.0 == sort) {
            Some(s) => s.1 += 1,
            None => self.0.push((sort, 1)),
        }
    }

    fn show(&self) {
        for (sort, n) in &self.0 {
            println!("  {sort:20} {n:5}");
        }
    }

    /// With how many of each the other holds.
    fn show_beside(&self, other: &Sorts) {
        for (sort, n) in &self.0 {
            let m = other.0.iter().find(|s| s.0 == *sort).map_or(0, |s| s.1);
            println!("  {sort:20} {n:5} {m:5}");
        }
    }
}

fn put_u32(file: &mut Vec<u8>, n: usize) {
    let n = u32::try_from(n).expect("a number of four bytes");
    file.extend_from_slice(&n.to_le_bytes());
}

fn put_u64(file: &mut Vec<u8>, n: u64) {
    file.extend_from_slice(&n.to_le_bytes());
}
