//! Stand-in for `crate::compile`: errors that carry document 01's refusals.
use crate::alloc;
use crate::ast::Span;
use crate::refusal::Refusal;

#[derive(Debug, Clone, Copy)]
#[allow(dead_code)] // output.rs fills in more than is read here
pub enum ErrorKind {
    BadSpan { len: usize },
    BadIndent { level: isize, indent: usize },
    Alloc(alloc::Error),
    Refused(Refusal),
}

#[derive(Debug, Clone, Copy)]
#[allow(dead_code)]
pub struct Error {
    pub span: Span,
    pub kind: ErrorKind,
}

impl Error {
    pub fn new(span: Span, kind: ErrorKind) -> Self {
        Self { span, kind }
    }

    pub fn refuse(no: u8, place: u32) -> Self {
        let kind = ErrorKind::Refused(Refusal::new(no, place));
        Self::new(Span::new(0, 0), kind)
    }
}

impl From<alloc::Error> for Error {
    fn from(e: alloc::Error) -> Self {
        Self::new(Span::new(0, 0), ErrorKind::Alloc(e))
    }
}

pub type Result<T, E = Error> = core::result::Result<T, E>;

pub trait WithSpan<T> {
    fn with_span(self, span: Span) -> Result<T>;
}

impl<T> WithSpan<T> for alloc::Result<T> {
    #[inline]
    fn with_span(self, span: Span) -> Result<T> {
        self.map_err(|e| Error::new(span, ErrorKind::Alloc(e)))
    }
}

pub struct FmtOptions {
    /// False in the oracle: a node of kind Error gets no layout (reading 12).
    pub error_recovery: bool,
}

pub const OPTIONS: FmtOptions = FmtOptions {
    error_recovery: false,
};
