//! Document 01's refusals.
use std::fmt;

#[derive(Debug, Clone, Copy, PartialEq, Eq)]
pub struct Refusal {
    pub no: u8,
    pub place: u32,
}

impl Refusal {
    pub fn new(no: u8, place: u32) -> Self {
        Self { no, place }
    }

    /// Number and place in one, as the recorded files hold them.
    pub fn packed(self) -> u64 {
        ((self.no as u64) << 32) + self.place as u64
    }
}

impl fmt::Display for Refusal {
    fn fmt(&self, f: &mut fmt::Formatter<'_>) -> fmt::Result {
        write!(f, "refused {} {}", self.no, self.place)
    }
}
