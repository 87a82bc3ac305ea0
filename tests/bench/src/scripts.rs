//! Scripts of a given size from the oracle's generator: as its family `big` makes them,
//! some eight bytes a record, so that only the size tells one row from another.
use oracle::call::layout_step;
use oracle::case::{self, Case};
use oracle::gen::{Builder, Opts, Rng};
use oracle::opening::{join, MAX_RECORDS};

pub struct Script {
    pub source: Vec<u8>,
    pub tree: Vec<u8>,
    pub records: usize,
}

impl Script {
    pub fn text(&self) -> &str {
        std::str::from_utf8(&self.source).unwrap()
    }
}

/// A source of 64 KiB takes so many records.
const MOST: usize = 8_000;

/// So many scripts of at most so many bytes, each laid out without a refusal.
pub fn all(bytes: usize, count: usize) -> Vec<Script> {
    let rng = &mut Rng::new(bytes as u64);
    let mut found = vec![];
    while found.len() < count {
        if let Some(script) = one(rng, bytes) {
            found.push(script);
        }
    }
    found
}

/// The first that nearly fills its bytes, names and indentation being made shorter from
/// one to the next; none where each is too short.
fn one(rng: &mut Rng, bytes: usize) -> Option<Script> {
    let aim = bytes * MOST / 65_536;
    for pad in (2..90).rev() {
        let opts = Opts {
            size: aim,
            comments: 6,
            spaces: 50,
            odd: 0,
            pad,
            ..Opts::random(rng)
        };
        let (source, records) = Builder::new(rng.branch(), opts).program(5);
        let near = |n: usize, most: usize| n <= most && n >= most - most / 16;
        let most = (aim + aim / 32).min(MAX_RECORDS);
        if near(source.len(), bytes) && near(records.len(), most) {
            let (source, tree) = (source.into_bytes(), join(&records));
            return good(&source, &tree).then_some(Script {
                source,
                tree,
                records: records.len(),
            });
        }
    }
    None
}

fn good(source: &[u8], tree: &[u8]) -> bool {
    let case = Case::new(source.to_vec(), tree.to_vec(), layout_step());
    case::run(&case).refusals.is_empty()
}
