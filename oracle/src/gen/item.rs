//! Items, statements, and whole programs.
use super::builder::Force;
use super::Builder;
use crate::grammar::Rec;
use crate::kinds::k::*;

/// The item kinds that `item` chooses among; functions twice as often.
pub(super) const ITEMS: [u8; 9] = [
    ITEM_STRUCT,
    ITEM_ENUM,
    ITEM_FN,
    ITEM_FN,
    ITEM_USE,
    ITEM_IMPL,
    ITEM_MOD,
    ITEM_FILE_MOD,
    ITEM_CONST,
];

impl Builder {
    /// A struct's or variant's body. Says whether it is in braces.
    pub(super) fn body(&mut self) -> bool {
        let n = self.rng.below(4);
        match self.rng.below(3) {
            0 => {
                self.node(STRUCT_BODY);
                self.token(BRACE_OPEN, "{");
                self.commas(n, |b| b.field());
                self.token(BRACE_CLOSE, "}");
                self.close();
                return true;
            }
            1 => {
                self.node(TUPLE_BODY);
                self.token(PAREN_OPEN, "(");
                self.commas(n, |b| b.field());
                self.token(PAREN_CLOSE, ")");
                self.close();
            }
            _ if EMPTY_BODY < 0x80 => self.leaf(EMPTY_BODY, ""),
            _ => {
                self.start(EMPTY_BODY);
                self.finish();
            }
        }
        false
    }

    fn field(&mut self) {
        self.node(FIELD);
        self.ident();
        self.close();
    }

    /// What `item_use_path` walks.
    pub(super) fn use_path(&mut self, depth: usize) {
        self.ident();
        for _ in 0..self.rng.below(3) {
            self.token(COLONCOLON, "::");
            self.ident();
        }
        match self.rng.below(6) {
            0..=2 if depth > 0 => {
                self.token(COLONCOLON, "::");
                self.use_group(depth - 1);
            }
            3 => {
                self.token(COLONCOLON, "::");
                self.token(STAR, "*");
            }
            4 => {
                self.token(KW_AS, "as");
                if !self.odd() {
                    self.ident();
                }
            }
            _ => {}
        }
    }

    pub(super) fn use_group(&mut self, depth: usize) {
        self.node(ITEM_USE_GROUP);
        self.token(BRACE_OPEN, "{");
        let n = self.rng.below(4);
        self.commas(n, |b| {
            b.node(ITEM_USE_PATH);
            b.use_path(depth);
            b.close();
        });
        self.token(BRACE_CLOSE, "}");
        self.close();
    }

    pub(super) fn item(&mut self, depth: usize) {
        let mut kind = self.rng.pick(&ITEMS);
        if let Force::Item(forced) = self.opts.force {
            kind = ITEMS[forced];
        }
        let is_const = kind == ITEM_CONST;
        self.node(ITEM);
        let statement = self.records.len() - 1;
        self.attributes(6);
        // Modifiers stand inside the item's own node (reading 3), and the word
        // `const` stands among them (reading 4).
        self.node(kind);
        if is_const || self.rng.one_in(3) {
            self.modifiers(is_const);
        }
        let mut semi = self.item_content(kind, depth);
        self.close();
        self.close();
        if self.odd() {
            semi = !semi;
        }
        // Whether a semicolon is needed is known only now.
        self.records[statement].kind = match (is_const, semi) {
            (false, false) => ITEM,
            (false, true) => ITEM_SEMI,
            (true, false) => CONST_STMT,
            (true, true) => CONST_SEMI,
        };
        self.semicolon(semi);
    }

    /// The records of an item behind its modifiers. Says whether a semicolon is
    /// needed behind it.
    pub(super) fn item_content(&mut self, kind: u8, depth: usize) -> bool {
        match kind {
            ITEM_STRUCT => {
                self.keyword_and_name(KW_STRUCT, "struct");
                return !self.body();
            }
            ITEM_ENUM => self.enum_content(),
            ITEM_FN => self.fn_content(depth),
            ITEM_USE => {
                self.token(KW_USE, "use");
                self.use_path(2);
                return true;
            }
            ITEM_IMPL => {
                self.token(KW_IMPL, "impl");
                self.path(1);
                self.block(depth);
            }
            ITEM_MOD => {
                self.token(KW_MOD, "mod");
                self.ident();
                self.block(depth);
            }
            ITEM_FILE_MOD => {
                self.token(KW_MOD, "mod");
                self.ident();
                return true;
            }
            _ => {
                self.ident();
                self.token(EQ, "=");
                self.expr(depth.min(2));
                return true;
            }
        }
        false
    }

    fn keyword_and_name(&mut self, keyword: u8, text: &str) {
        self.token(keyword, text);
        if !self.odd() {
            self.ident();
        }
    }

    fn enum_content(&mut self) {
        self.keyword_and_name(KW_ENUM, "enum");
        if self.odd() {
            return;
        }
        self.token(BRACE_OPEN, "{");
        let n = self.rng.below(4);
        self.commas(n, |b| b.variant());
        self.token(BRACE_CLOSE, "}");
    }

    pub(super) fn variant(&mut self) {
        self.node(VARIANT);
        if !self.odd() {
            self.ident();
        }
        self.body();
        self.close();
    }

    fn fn_content(&mut self, depth: usize) {
        self.keyword_and_name(KW_FN, "fn");
        if !self.odd() {
            self.fn_args(1);
        }
        if !self.odd() {
            self.block(depth);
        }
    }

    pub(super) fn fn_args(&mut self, depth: usize) {
        self.node(FN_ARGS);
        self.token(PAREN_OPEN, "(");
        if self.odd() {
            self.token(COMMA, ",");
        }
        let n = self.rng.below(4);
        self.commas(n, |b| b.pat(depth));
        self.token(PAREN_CLOSE, ")");
        self.close();
    }

    /// A semicolon, nearly always where it is needed, seldom where it isn't.
    fn semicolon(&mut self, needed: bool) {
        let there = if needed {
            !self.odd()
        } else {
            self.rng.one_in(10)
        };
        if there {
            self.token(SEMI, ";");
        }
    }

    fn local(&mut self, depth: usize) {
        let needed = !self.odd();
        self.node(if needed { LOCAL_SEMI } else { LOCAL });
        self.attributes(12);
        if self.rng.one_in(20) {
            self.modifiers(false);
        }
        self.token(KW_LET, "let");
        self.pat(depth.min(2));
        self.token(EQ, "=");
        self.expr(depth);
        self.close();
        self.semicolon(needed);
    }

    pub(super) fn statement(&mut self, depth: usize) {
        let mut sort = self.rng.below(10);
        match self.opts.force {
            Force::Expr(_) => sort = 9,
            Force::Item(_) => sort = 4,
            Force::Pattern(_) => sort = 0,
            Force::Nothing => {}
        }
        match sort {
            0..=2 => self.local(depth),
            3 | 4 => self.item(depth.saturating_sub(1)),
            5 => self.item(0),
            _ => {
                let needed = self.rng.one_in(2);
                self.expr_as(if needed { EXPR_SEMI } else { EXPR }, depth);
                self.semicolon(needed);
            }
        }
    }

    /// `top`: statements until the size is reached.
    pub(super) fn block_content(&mut self, depth: usize, top: bool) {
        if self.rng.one_in(8) {
            for _ in 0..1 + self.rng.below(2) {
                self.inner_attribute();
            }
        }
        let most = match top {
            true => usize::MAX,
            false if self.small() => self.rng.below(2),
            false => self.rng.below(4),
        };
        for i in 0..most {
            let full = (top || i > 0) && self.records.len() >= self.opts.size;
            if full || self.source_is_long() {
                break;
            }
            let less = if top { 0 } else { 1 };
            let depth = if self.small() {
                0
            } else {
                depth.saturating_sub(less)
            };
            self.statement(depth);
        }
    }

    /// A whole program: record 0 is a block body that holds all the others.
    pub fn program(mut self, depth: usize) -> (String, Vec<Rec>) {
        self.start(BLOCK_BODY);
        self.gap();
        self.block_content(depth, true);
        self.gap();
        self.close();
        self.done()
    }
}
