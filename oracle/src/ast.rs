//! Stand-in for `crate::ast`: `Kind` and `Delimiter` by the names that format.rs
//! uses, and what the two files ask of span.rs.
#[derive(Debug, Clone, Copy, PartialEq, Eq)]
pub enum Delimiter {
    Parenthesis,
    Brace,
    Bracket,
    Empty,
}

// A name that format.rs matches on and that stood here under another spelling
// would be taken for a binding there; fmt/format.rs denies the lints that tell.
#[rustfmt::skip]
#[derive(Debug, Clone, Copy, PartialEq, Eq)]
#[allow(dead_code)]
pub enum Kind {
    // given by no record: the end of a stream, a kind that kinds.txt doesn't
    // list, and what only the rules ask for that document 01 leaves out
    Eof, Unknown, TokenStream, ExprMacroCall,
    // white space and comments
    Whitespace, Comment, MultilineComment(bool),
    // tokens
    Ident, Label, Number, Str, LitTok, ObjectKey, AnonymousObjectKey, PatIgnore,
    Open(Delimiter), Close(Delimiter),
    Comma, SemiColon, Colon, ColonColon, Eq_, Rocket, Dash, DotDot, DotDotEq, Lt, Gt, Pipe,
    PipePipe, QuestionMark, Dot, Bang, Pound, Star, Op,
    LetKw, InKw, If, ElseKw, WhileKw, LoopKw, ForKw, BreakKw, ContinueKw, ReturnKw, YieldKw,
    SelectKw, DefaultKw, MatchKw, AsKw, AwaitKw, StructKw, EnumKw, FnKw, UseKw, ImplKw, ModKw,
    ConstKw, PubKw, AsyncKw, MoveKw, SuperKw, SelfValueKw, CrateKw,
    // nodes
    BlockBody, Block, Attribute, InnerAttribute, Modifiers, ModifierSuper, ModifierSelf,
    ModifierCrate, ModifierIn, Item, Local, Expr, ItemStruct, ItemEnum, ItemFn, ItemUse, ItemImpl,
    ItemMod, ItemFileMod, ItemConst, ItemUsePath, ItemUseGroup, Variant, StructBody, TupleBody,
    EmptyBody, Field, FnArgs, Path, PathGenerics, Pat, PatArray, PatTuple, PatObject, Lit,
    TemplateString, ExprAssign, ExprArray, ExprTuple, ExprObject, ExprBinary, ExprOperator,
    ExprUnary, ExprGroup, ExprEmptyGroup, ExprIf, ExprElse, ExprElseIf, Condition, ExprWhile,
    ExprLoop, ExprFor, ExprBreak, ExprContinue, ExprReturn, ExprYield, ExprSelect, ExprSelectArm,
    ExprMatch, ExprMatchArm, ExprRangeFull, ExprRangeFrom, ExprRangeTo, ExprRangeToInclusive,
    ExprRange, ExprRangeInclusive, ExprClosure, ClosureArguments, ExprChain, ExprTry, ExprAwait,
    ExprField, ExprCall, ExprIndex, Error,
}

#[derive(Debug, Clone, Copy, PartialEq, Eq)]
pub struct Span {
    pub start: u32,
    pub end: u32,
}

impl Span {
    pub fn new(start: u32, end: u32) -> Self {
        Self { start, end }
    }

    pub fn head(self) -> Self {
        Self::new(self.start, self.start)
    }

    pub fn join(self, other: Self) -> Self {
        Self::new(self.start.min(other.start), self.end.max(other.end))
    }

    #[inline]
    pub fn range(self) -> core::ops::Range<usize> {
        self.start as usize..self.end as usize
    }
}
