//! Paths, patterns, attributes, modifiers and literals.
use super::builder::Force;
use super::Builder;
use crate::kinds::k::*;

impl Builder {
    pub(super) fn path(&mut self, depth: usize) {
        self.node(PATH);
        match self.rng.below(12) {
            0 => self.token(KW_CRATE, "crate"),
            1 => self.token(KW_SELF, "self"),
            _ => self.ident(),
        }
        while self.rng.one_in(4) {
            self.token(COLONCOLON, "::");
            self.ident();
        }
        if depth > 0 && self.rng.one_in(6) && !self.small() {
            self.token(COLONCOLON, "::");
            self.path_generics(depth - 1);
            if self.rng.one_in(4) {
                self.token(COLONCOLON, "::");
                self.ident();
            }
        }
        self.close();
    }

    pub(super) fn path_generics(&mut self, depth: usize) {
        self.node(PATH_GENERICS);
        self.token(LT, "<");
        let n = self.rng.below(4);
        self.commas(n, |b| b.path(depth));
        self.token(GT, ">");
        self.close();
    }

    fn attribute(&mut self) {
        let name = self.name();
        let parts = [
            (POUND, "#"),
            (BRACKET_OPEN, "["),
            (IDENT, &name),
            (BRACKET_CLOSE, "]"),
        ];
        self.whole(ATTR, &parts);
    }

    pub(super) fn attributes(&mut self, odds: usize) {
        while self.rng.one_in(odds) {
            self.attribute();
        }
    }

    pub(super) fn inner_attribute(&mut self) {
        let parts = [
            (POUND, "#"),
            (BANG, "!"),
            (BRACKET_OPEN, "["),
            (IDENT, "doc"),
            (BRACKET_CLOSE, "]"),
        ];
        self.whole(INNER_ATTR, &parts);
    }

    pub(super) fn modifiers(&mut self, with_const: bool) {
        self.node(MODIFIERS);
        if self.rng.one_in(2) {
            self.token(KW_PUB, "pub");
            self.visibility();
        }
        if with_const {
            self.token(KW_CONST, "const");
        }
        if self.rng.one_in(3) {
            self.token(KW_ASYNC, "async");
        }
        if self.rng.one_in(6) {
            self.token(KW_MOVE, "move");
        }
        self.close();
    }

    /// What may stand behind `pub`.
    fn visibility(&mut self) {
        let (kind, token, text) = match self.rng.below(7) {
            0 => (MOD_SUPER, KW_SUPER, "super"),
            1 => (MOD_SELF, KW_SELF, "self"),
            2 => (MOD_CRATE, KW_CRATE, "crate"),
            3 => (MOD_IN, KW_IN, "in"),
            _ => return,
        };
        self.node(kind);
        self.token(PAREN_OPEN, "(");
        self.token(token, text);
        if kind == MOD_IN {
            self.path(1);
        }
        self.token(PAREN_CLOSE, ")");
        self.close();
    }

    pub(super) fn lit(&mut self) {
        self.node(LIT);
        if self.rng.one_in(6) {
            self.token(MINUS, "-");
            self.token(NUMBER, "42");
        } else {
            match self.rng.below(4) {
                0 => self.token(NUMBER, "17"),
                1 => self.token(STR, "\"text  with spaces\""),
                2 if self.opts.non_ascii => self.token(STR, "\"漢\u{3000}字\""),
                2 => self.token(STR, "\"two\nlines\""),
                _ => self.token(LIT_OTHER, "true"),
            }
        }
        self.close();
    }

    pub(super) fn pat(&mut self, depth: usize) {
        self.node(PAT);
        self.attributes(20);
        let simple = depth == 0 || self.small();
        let mut sort = self.rng.below(if simple { 6 } else { 12 });
        if let (Force::Pattern(forced), 1..) = (self.opts.force, depth) {
            sort = 2 * forced;
        }
        match sort {
            0 => self.lit(),
            1 => self.token(PAT_IGNORE, "_"),
            2 if self.rng.one_in(3) => self.token(DOTDOT, ".."),
            2..=5 => self.path(depth.min(1)),
            6 | 7 => self.pat_array(depth - 1),
            8 | 9 => self.pat_tuple(depth - 1),
            _ => self.pat_object(depth - 1),
        }
        self.close();
    }

    pub(super) fn pat_array(&mut self, depth: usize) {
        self.node(PAT_ARRAY);
        self.token(BRACKET_OPEN, "[");
        let n = self.rng.below(4);
        self.commas(n, |b| b.pat_or_rest(depth));
        self.token(BRACKET_CLOSE, "]");
        self.close();
    }

    pub(super) fn pat_tuple(&mut self, depth: usize) {
        self.node(PAT_TUPLE);
        if self.rng.one_in(2) {
            self.path(0);
        }
        self.token(PAREN_OPEN, "(");
        let n = self.rng.below(4);
        self.commas(n, |b| b.pat_or_rest(depth));
        self.token(PAREN_CLOSE, ")");
        self.close();
    }

    fn pat_or_rest(&mut self, depth: usize) {
        if self.rng.one_in(5) {
            self.token(DOTDOT, "..");
        } else {
            self.pat(depth);
        }
    }

    pub(super) fn pat_object(&mut self, depth: usize) {
        self.node(PAT_OBJECT);
        self.object_name();
        self.token(BRACE_OPEN, "{");
        let n = self.rng.below(5);
        self.commas(n, |b| b.pat_object_entry(depth));
        if !self.odd() {
            self.token(BRACE_CLOSE, "}");
        }
        self.close();
    }

    fn pat_object_entry(&mut self, depth: usize) {
        if self.rng.one_in(5) {
            self.token(DOTDOT, "..");
            return;
        }
        self.object_key();
        if self.rng.one_in(2) {
            self.token(COLON, ":");
            self.pat(depth);
        }
    }

    pub(super) fn object_name(&mut self) {
        if self.rng.one_in(2) {
            self.whole(ANON_KEY, &[(POUND, "#")]);
        } else {
            self.path(1);
        }
    }

    pub(super) fn object_key(&mut self) {
        let name = self.name();
        if self.rng.one_in(5) {
            self.token(OBJ_KEY, &format!("\"{name}\""));
        } else {
            self.token(OBJ_KEY, &name);
        }
    }
}
