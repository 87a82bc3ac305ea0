//! Expressions: lists, objects, operators, chains, and the choice among all sorts.
use super::builder::Force;
use super::Builder;
use crate::kinds::k::*;

const PARENS: [(u8, &str); 2] = [(PAREN_OPEN, "("), (PAREN_CLOSE, ")")];
const BRACKETS: [(u8, &str); 2] = [(BRACKET_OPEN, "["), (BRACKET_CLOSE, "]")];

/// Sorts of inner expressions that `inner` chooses among.
pub(super) const SORTS: usize = 36;

impl Builder {
    pub(super) fn expr(&mut self, depth: usize) {
        self.expr_as(EXPR, depth);
    }

    pub(super) fn expr_as(&mut self, kind: u8, depth: usize) {
        self.node(kind);
        self.attributes(25);
        if self.rng.one_in(20) {
            self.modifiers(false);
        }
        if self.rng.one_in(20) {
            self.token(LABEL, "'lab");
            if !self.odd() {
                self.token(COLON, ":");
            }
        }
        self.inner(depth);
        self.close();
    }

    /// What `inner_expr` is called on.
    pub(super) fn inner(&mut self, depth: usize) {
        if depth == 0 || self.small() {
            match self.rng.below(8) {
                0..=2 => self.lit(),
                3 => self.token(IDENT, "lone"),
                _ => self.path(depth.min(1)),
            }
            return;
        }
        let mut sort = self.rng.below(SORTS);
        if let Force::Expr(forced) = self.opts.force {
            sort = forced;
            if !self.rng.one_in(3) {
                self.opts.force = Force::Nothing;
            }
        }
        let below = depth - 1;
        match sort {
            0 | 1 => self.path(depth),
            2 => self.lit(),
            3 => self.whole(TEMPLATE, &[(STR, "`tpl ${x} y`")]),
            4 => self.block(below),
            5 => self.assign(below),
            6 | 7 => self.exprs(EXPR_ARRAY, BRACKETS, below),
            8 => self.tuple(below),
            9 | 10 => self.object(below),
            11 | 12 => self.binary(below),
            13 => self.unary(below),
            14 => self.group(EXPR_GROUP, PARENS, below),
            // `Open(Empty)` at both ends (reading 5)
            15 => self.group(EXPR_EMPTY_GROUP, [(EMPTY_OPEN, ""); 2], below),
            16 | 17 => self.if_else(below),
            18 => self.while_loop(below),
            19 => self.plain_loop(below),
            20 => self.for_loop(below),
            21 => self.jump(below),
            22 | 23 => self.select(below),
            24 | 25 => self.match_arms(below),
            26 | 27 => self.range(below.min(1)),
            28 | 29 => self.closure(below),
            30..=34 => self.chain(below),
            _ => self.token(IDENT, "lone"),
        }
    }

    fn assign(&mut self, depth: usize) {
        self.node(EXPR_ASSIGN);
        self.expr(depth);
        self.token(EQ, "=");
        self.expr(depth);
        self.close();
    }

    /// How many entries a list gets: around the sixth, if many.
    fn entries(&mut self, many: bool) -> usize {
        if self.small() {
            self.rng.below(2)
        } else if many {
            4 + self.rng.below(5)
        } else {
            self.rng.below(4)
        }
    }

    /// A comma before an entry that fills a list up, unless one stands there.
    fn comma_before_last(&mut self, n: usize) {
        if n > 0 && self.records.last().unwrap().kind != COMMA {
            self.token(COMMA, ",");
        }
    }

    /// A path of one name, without gaps.
    fn plain_path(&mut self, name: &str) {
        self.start(PATH);
        self.leaf(IDENT, name);
        self.finish();
    }

    /// A list of Exprs, sometimes filled up to a width near 80.
    fn exprs(&mut self, kind: u8, [open, close]: [(u8, &str); 2], depth: usize) {
        self.node(kind);
        let at = self.records.len() - 1;
        self.token(open.0, open.1);
        let many = self.rng.one_in(5);
        let n = self.entries(many);
        let fill = self.rng.one_in(4) || self.opts.fill;
        let depth = if fill || many { depth.min(1) } else { depth };
        self.commas(n, |b| b.expr(depth));
        if !fill {
            self.token(close.0, close.1);
            self.close();
            return;
        }
        self.comma_before_last(n);
        let (want, width) = (self.near_80(), self.width_from(at) + 1);
        if width < want {
            let name = self.long_name(want - width);
            self.start(EXPR);
            self.plain_path(&name);
            self.finish();
        }
        self.leaf(close.0, close.1);
        self.finish();
    }

    fn tuple(&mut self, depth: usize) {
        self.node(EXPR_TUPLE);
        self.token(PAREN_OPEN, "(");
        let n = self.rng.below(4);
        self.commas(n, |b| b.expr(depth));
        self.token(PAREN_CLOSE, ")");
        self.close();
    }

    /// An object, sometimes filled up to a width near 80.
    fn object(&mut self, depth: usize) {
        self.node(EXPR_OBJECT);
        let at = self.records.len() - 1;
        self.object_name();
        self.token(BRACE_OPEN, "{");
        let many = self.rng.one_in(4);
        let n = self.entries(many);
        let fill = self.rng.one_in(4) || self.opts.fill;
        let depth = if fill || many { depth.min(1) } else { depth };
        self.commas(n, |b| {
            b.object_key();
            if b.rng.one_in(2) {
                b.token(COLON, ":");
                b.expr(depth.saturating_sub(1));
            }
        });
        if !fill {
            if !self.odd() {
                self.token(BRACE_CLOSE, "}");
            }
            self.close();
            return;
        }
        self.comma_before_last(n);
        let (want, width) = (self.near_80(), self.width_from(at) + 1);
        if width < want {
            let name = self.long_name(want - width);
            self.leaf(OBJ_KEY, &name);
        }
        self.leaf(BRACE_CLOSE, "}");
        self.finish();
    }

    fn binary(&mut self, depth: usize) {
        self.node(EXPR_BINARY);
        self.inner(depth);
        for _ in 0..self.rng.below(4) {
            match self.rng.below(4) {
                0 => self.whole(OPERATOR, &[(OP, "is"), (OP, " not")]),
                1 => self.whole(OPERATOR, &[(OP, "&&")]),
                _ => self.whole(OPERATOR, &[(OP, "+")]),
            }
            self.inner(depth);
        }
        self.close();
    }

    fn unary(&mut self, depth: usize) {
        self.node(EXPR_UNARY);
        self.token(BANG, "!");
        self.inner(depth);
        self.close();
    }

    fn group(&mut self, kind: u8, [open, close]: [(u8, &str); 2], depth: usize) {
        self.node(kind);
        self.token(open.0, open.1);
        if self.rng.one_in(3) {
            self.gap();
        } else {
            self.expr(depth);
        }
        self.token(close.0, close.1);
        self.close();
    }

    /// `fill_head` brings the head, or the head up to the first call, near 80;
    /// `fill_all` the whole chain.
    fn chain(&mut self, depth: usize) {
        self.node(EXPR_CHAIN);
        let at = self.records.len() - 1;
        let fill_head = self.rng.one_in(5);
        let fill_all = self.rng.one_in(3) || self.opts.fill;
        if fill_head && self.rng.one_in(2) {
            let n = 76 + self.rng.below(8);
            let name = self.long_name(n);
            self.plain_path(&name);
        } else {
            self.inner(depth.min(2));
        }
        let most = if self.rng.one_in(3) { 9 } else { 4 };
        let no_call = self.rng.one_in(3);
        for i in 0..self.rng.below(most) {
            let with_calls = [0, 1, 2, 3, 4, 5, 6, 7, 8];
            let sort = if no_call {
                self.rng.pick(&[1, 5, 6, 7, 8, 8])
            } else {
                self.rng.pick(&with_calls)
            };
            if sort <= 1 && fill_head && i == 0 && !no_call {
                self.filling_field(at, 1);
                self.exprs(EXPR_CALL, PARENS, depth);
            } else {
                self.chain_member(sort, depth);
            }
            if self.small() && self.rng.one_in(2) {
                break;
            }
        }
        if fill_all && self.filling_field(at, 0) {
            self.finish();
        } else {
            self.close();
        }
    }

    /// A field that brings the width from a record on near 80, with a name of at
    /// least so many characters. Says whether there is one.
    fn filling_field(&mut self, from: usize, least: usize) -> bool {
        let (want, width) = (self.near_80(), self.width_from(from) + 1);
        let n = want.saturating_sub(width).max(least);
        if n == 0 {
            return false;
        }
        let name = self.long_name(n);
        self.start(EXPR_FIELD);
        self.leaf(DOT, ".");
        self.plain_path(&name);
        self.finish();
        true
    }

    fn chain_member(&mut self, sort: usize, depth: usize) {
        match sort {
            0 | 1 => self.field_access(),
            2 | 3 => {
                self.field_access();
                self.exprs(EXPR_CALL, PARENS, depth);
            }
            4 => self.exprs(EXPR_CALL, PARENS, depth),
            5 => self.tokens(EXPR_AWAIT, &[(DOT, "."), (KW_AWAIT, "await")]),
            6 => self.tokens(EXPR_TRY, &[(QUESTION, "?")]),
            7 => {
                self.node(EXPR_INDEX);
                self.token(BRACKET_OPEN, "[");
                self.expr(depth);
                self.token(BRACKET_CLOSE, "]");
                self.close();
            }
            _ => self.tokens(EXPR_FIELD, &[(DOT, "."), (NUMBER, "0")]),
        }
    }

    fn field_access(&mut self) {
        self.node(EXPR_FIELD);
        self.token(DOT, ".");
        self.path(1);
        self.close();
    }

    /// A composite of tokens.
    pub(super) fn tokens(&mut self, kind: u8, parts: &[(u8, &str)]) {
        self.node(kind);
        for (kind, text) in parts {
            self.token(*kind, text);
        }
        self.close();
    }
}
