//! A state as bytes, and the checks on a lent one, from document 01's words and
//! the header's. The oracle has none of this: the Rust lends nothing.
use oracle::refusal::Refusal;
use oracle::state::{State, Waiting};

pub const STATE: usize = 4_128;
pub const MOST_WAITING: usize = 256;
/// The eight words in front of the comments.
pub const SCALARS: usize = 8;
pub const COMMENT: usize = 4;

// Numbers of words.
pub const LENGTH: usize = 0;
pub const LINES: usize = 1;
pub const USE_LINES: usize = 2;
pub const WS: usize = 3;
pub const INDENT: usize = 4;
pub const FINISHED: usize = 5;
pub const COUNT: usize = 6;
pub const ZERO: usize = 7;

pub fn word(state: &[u8], number: usize) -> u32 {
    u32::from_le_bytes(state[number * 4..number * 4 + 4].try_into().unwrap())
}

pub fn put_word(state: &mut [u8], number: usize, value: u32) {
    state[number * 4..number * 4 + 4].copy_from_slice(&value.to_le_bytes());
}

/// The word of comment k, by its number in the comment.
pub fn of_comment(k: usize, number: usize) -> usize {
    SCALARS + k * COMMENT + number
}

/// The one form in which a state is handed back.
pub fn encode(state: &State) -> Vec<u8> {
    let mut bytes: Vec<u8> = state
        .words(false)
        .iter()
        .flat_map(|w| w.to_le_bytes())
        .collect();
    bytes.resize(STATE, 0);
    bytes
}

/// Has it the shape of a state: its length, its flags, a buffer that a word can
/// measure? Where it has not, nothing in it can be trusted, not even a length.
pub fn shaped(state: &[u8], out_len: usize) -> bool {
    if state.len() != STATE || out_len > u32::MAX as usize {
        return false;
    }
    let count = word(state, COUNT) as usize;
    let mut flags = [USE_LINES, WS, FINISHED]
        .into_iter()
        .chain((0..count.min(MOST_WAITING)).map(|k| of_comment(k, 3)));
    flags.all(|flag| word(state, flag) <= 1)
}

/// The lent state, or the refusal that it meets.
pub fn checked(source: &str, state: &[u8], out_len: usize) -> Result<State, Refusal> {
    let no_engine = Refusal::new(5, 8_192);
    if !shaped(state, out_len) {
        return Err(no_engine);
    }
    let count = word(state, COUNT) as usize;
    let length = word(state, LENGTH);
    if length as usize > out_len {
        return Err(Refusal::new(4, length));
    }
    if count > MOST_WAITING {
        return Err(no_engine);
    }
    let queue: Vec<Waiting> = (0..count).map(|k| waiting(state, k)).collect();
    for c in &queue {
        if source.get(c.start as usize..c.end as usize).is_none() {
            return Err(no_engine);
        }
    }
    let indent = word(state, INDENT);
    if indent > 64 {
        return Err(Refusal::new(6, indent));
    }
    Ok(State {
        len: length as usize,
        queue,
        lines: word(state, LINES) as usize,
        use_lines: word(state, USE_LINES) == 1,
        ws: word(state, WS) == 1,
        indent: indent as usize,
        finished: word(state, FINISHED) == 1,
    })
}

fn waiting(state: &[u8], k: usize) -> Waiting {
    let at = |number| word(state, of_comment(k, number));
    Waiting {
        start: at(0),
        end: at(1),
        before: at(2) as usize,
        line: at(3) == 1,
    }
}
