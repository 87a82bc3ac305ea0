//! Stand-in for `crate::alloc`: what output.rs asks of rune's own collections,
//! with document 01's two bounds where the crate has a limit on memory.
use std::collections::vec_deque;

pub mod prelude {
    pub(crate) use super::String;
}

#[derive(Debug, Clone, Copy)]
pub enum Error {
    BufferFull,
    QueueFull,
}

pub type Result<T, E = Error> = core::result::Result<T, E>;

/// The lent buffer: text that never grows past `cap` bytes (refusal 4).
pub struct String {
    pub text: std::string::String,
    pub cap: usize,
}

impl String {
    pub fn with_cap(cap: usize) -> Self {
        let text = std::string::String::new();
        Self { text, cap }
    }

    #[inline]
    pub fn is_empty(&self) -> bool {
        self.text.is_empty()
    }

    #[inline]
    pub fn try_push_str(&mut self, s: &str) -> Result<()> {
        if self.text.len() + s.len() > self.cap {
            return Err(Error::BufferFull);
        }
        self.text.push_str(s);
        Ok(())
    }
}

/// How many comments may wait (refusal 5).
pub const QUEUE: usize = 256;

pub struct VecDeque<T>(pub vec_deque::VecDeque<T>);

impl<T> VecDeque<T> {
    pub fn new() -> Self {
        Self(vec_deque::VecDeque::new())
    }

    #[inline]
    pub fn is_empty(&self) -> bool {
        self.0.is_empty()
    }

    #[inline]
    pub fn front(&self) -> Option<&T> {
        self.0.front()
    }

    #[inline]
    pub fn pop_front(&mut self) -> Option<T> {
        self.0.pop_front()
    }

    pub fn try_push_back(&mut self, t: T) -> Result<()> {
        if self.0.len() >= QUEUE {
            return Err(Error::QueueFull);
        }
        self.0.push_back(t);
        Ok(())
    }
}
