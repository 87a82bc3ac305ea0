//! Bytes as the recorded files hold them: pieces, each some bytes so many times.
//! A source of 65,536 equal bytes or a list of 8,193 equal records stays small.
use super::put_u32;
use crate::grammar::Rec;
use crate::opening::join;

#[derive(Clone, Default)]
pub struct Pieces(Vec<(usize, Vec<u8>)>);

impl Pieces {
    pub fn times(n: usize, unit: impl Into<Pieces>) -> Self {
        Pieces(vec![(n, unit.into().bytes())])
    }

    pub fn and(mut self, behind: impl Into<Pieces>) -> Self {
        self.0.extend(behind.into().0);
        self
    }

    pub fn bytes(&self) -> Vec<u8> {
        self.0
            .iter()
            .flat_map(|(n, unit)| unit.repeat(*n))
            .collect()
    }

    pub fn put(&self, file: &mut Vec<u8>) {
        put_u32(file, self.0.len());
        for (n, unit) in &self.0 {
            put_u32(file, *n);
            put_u32(file, unit.len());
            file.extend_from_slice(unit);
        }
    }
}

impl From<Vec<u8>> for Pieces {
    fn from(bytes: Vec<u8>) -> Self {
        match bytes.is_empty() {
            true => Pieces(vec![]),
            false => Pieces(vec![(1, bytes)]),
        }
    }
}

impl From<&[u8]> for Pieces {
    fn from(bytes: &[u8]) -> Self {
        bytes.to_vec().into()
    }
}

impl From<&str> for Pieces {
    fn from(text: &str) -> Self {
        text.as_bytes().into()
    }
}

impl From<&[Rec]> for Pieces {
    fn from(records: &[Rec]) -> Self {
        join(records).into()
    }
}

impl From<Vec<Rec>> for Pieces {
    fn from(records: Vec<Rec>) -> Self {
        records[..].into()
    }
}

impl<const N: usize> From<[Rec; N]> for Pieces {
    fn from(records: [Rec; N]) -> Self {
        records[..].into()
    }
}

impl From<Rec> for Pieces {
    fn from(record: Rec) -> Self {
        [record].into()
    }
}
