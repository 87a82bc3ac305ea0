//! Blocks, conditions, loops, jumps, select, match, ranges and closures.
use super::Builder;
use crate::kinds::k::*;

impl Builder {
    pub(super) fn block(&mut self, depth: usize) {
        self.node(BLOCK);
        self.token(BRACE_OPEN, "{");
        self.node(BLOCK_BODY);
        self.block_content(depth, false);
        self.close();
        self.token(BRACE_CLOSE, "}");
        self.close();
    }

    pub(super) fn condition(&mut self, depth: usize) {
        if self.rng.one_in(3) {
            self.node(CONDITION);
            self.token(KW_LET, "let");
            self.pat(depth);
            self.token(EQ, "=");
            self.expr(depth);
            self.close();
        } else {
            self.expr(depth);
        }
    }

    pub(super) fn if_else(&mut self, depth: usize) {
        self.node(EXPR_IF);
        self.token(KW_IF, "if");
        self.condition(depth);
        if !self.odd() {
            self.block(depth);
        }
        while self.rng.one_in(3) {
            self.node(EXPR_ELSE_IF);
            self.token(KW_ELSE, "else");
            self.token(KW_IF, "if");
            self.condition(depth);
            self.block(depth);
            self.close();
        }
        if self.rng.one_in(2) {
            self.node(EXPR_ELSE);
            self.token(KW_ELSE, "else");
            self.block(depth);
            self.close();
        }
        if self.odd() {
            self.token(IDENT, "odd");
        }
        self.close();
    }

    pub(super) fn while_loop(&mut self, depth: usize) {
        self.node(EXPR_WHILE);
        self.token(KW_WHILE, "while");
        self.condition(depth);
        self.block(depth);
        self.close();
    }

    pub(super) fn plain_loop(&mut self, depth: usize) {
        self.node(EXPR_LOOP);
        self.token(KW_LOOP, "loop");
        self.block(depth);
        self.close();
    }

    pub(super) fn for_loop(&mut self, depth: usize) {
        self.node(EXPR_FOR);
        self.token(KW_FOR, "for");
        self.pat(depth);
        self.token(KW_IN, "in");
        self.expr(depth);
        self.block(depth);
        self.close();
    }

    pub(super) fn jump(&mut self, depth: usize) {
        let (kind, token, text) = self.rng.pick(&[
            (EXPR_BREAK, KW_BREAK, "break"),
            (EXPR_CONTINUE, KW_CONTINUE, "continue"),
            (EXPR_RETURN, KW_RETURN, "return"),
            (EXPR_YIELD, KW_YIELD, "yield"),
        ]);
        let takes_label = kind == EXPR_BREAK || kind == EXPR_CONTINUE;
        self.node(kind);
        self.token(token, text);
        if takes_label && self.rng.one_in(3) {
            self.token(LABEL, "'lab");
        }
        if kind != EXPR_CONTINUE && self.rng.one_in(2) {
            self.expr(depth);
        }
        self.close();
    }

    pub(super) fn select(&mut self, depth: usize) {
        self.node(EXPR_SELECT);
        self.token(KW_SELECT, "select");
        if !self.rng.one_in(8) {
            self.token(BRACE_OPEN, "{");
            let n = self.rng.below(4);
            self.commas(n, |b| b.select_arm(depth));
            self.token(BRACE_CLOSE, "}");
        }
        self.close();
    }

    fn select_arm(&mut self, depth: usize) {
        self.node(SELECT_ARM);
        if self.rng.one_in(4) {
            self.token(KW_DEFAULT, "default");
        } else {
            self.pat(depth);
        }
        if self.rng.one_in(2) {
            self.token(EQ, "=");
            self.expr(depth);
        }
        self.token(ROCKET, "=>");
        self.arm_body(depth);
        self.close();
    }

    pub(super) fn match_arms(&mut self, depth: usize) {
        self.node(EXPR_MATCH);
        self.token(KW_MATCH, "match");
        self.expr(depth);
        self.token(BRACE_OPEN, "{");
        let n = self.rng.below(4);
        self.commas(n, |b| b.match_arm(depth));
        self.token(BRACE_CLOSE, "}");
        self.close();
    }

    fn match_arm(&mut self, depth: usize) {
        self.node(MATCH_ARM);
        self.pat(depth);
        if self.rng.one_in(3) {
            self.token(KW_IF, "if");
            self.expr(depth);
        }
        self.token(ROCKET, "=>");
        self.arm_body(depth);
        self.close();
    }

    /// An arm's body, often a block: its comma is then ignored.
    fn arm_body(&mut self, depth: usize) {
        if self.rng.one_in(3) {
            self.node(EXPR);
            self.block(depth);
            self.close();
        } else {
            self.expr(depth);
        }
    }

    pub(super) fn range(&mut self, depth: usize) {
        let (kind, from, to) = self.rng.pick(&[
            (RANGE_FULL, false, false),
            (RANGE_FROM, true, false),
            (RANGE_TO, false, true),
            (RANGE_TO_INCL, false, true),
            (RANGE, true, true),
            (RANGE_INCL, true, true),
        ]);
        self.node(kind);
        if from {
            self.inner(depth);
        }
        if kind == RANGE_TO_INCL || kind == RANGE_INCL {
            self.token(DOTDOTEQ, "..=");
        } else {
            self.token(DOTDOT, "..");
        }
        if to {
            self.inner(depth);
        }
        self.close();
    }

    pub(super) fn closure(&mut self, depth: usize) {
        self.node(EXPR_CLOSURE);
        if !self.odd() {
            self.closure_arguments(depth);
        }
        if !self.odd() {
            self.expr(depth);
        }
        self.close();
    }

    fn closure_arguments(&mut self, depth: usize) {
        self.node(CLOSURE_ARGS);
        if self.rng.one_in(4) {
            self.token(PIPEPIPE, "||");
        } else {
            self.token(PIPE, "|");
            let n = self.rng.below(4);
            self.commas(n, |b| b.pat(depth));
            self.token(PIPE, "|");
        }
        self.close();
    }
}
