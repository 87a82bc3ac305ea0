//! Edits on a tree in the words of sx.rs: something more in a gap, a record that is
//! missing, doubled or of another kind.
use crate::kinds::k::IDENT;
use crate::sx::{self, with_blocks};

/// `(kind`, a leaf, or `)`, one after the other; B is an empty block, which no edit
/// is made in.
pub struct Words(Vec<String>);

impl Words {
    pub fn of(tree: &str) -> Self {
        let mut words: Vec<String> = vec![];
        let (mut quoted, mut apart) = (false, true);
        for c in tree.chars() {
            if quoted || !(c.is_whitespace() || c == ')') {
                if apart {
                    words.push(String::new());
                }
                words.last_mut().expect("a word").push(c);
                quoted ^= c == '"';
                apart = false;
                continue;
            }
            if c == ')' {
                words.push(")".to_string());
            }
            apart = true;
        }
        Words(words)
    }

    fn with(&self, from: usize, to: usize, new: &str) -> String {
        let parts = [&self.0[..from], &[new.to_string()], &self.0[to..]];
        with_blocks(&parts.concat().join(" "))
    }

    /// Every place between two records, in front of the first and behind the last,
    /// on each level.
    pub fn gaps(&self) -> std::ops::RangeInclusive<usize> {
        0..=self.0.len()
    }

    pub fn with_in(&self, gap: usize, more: &str) -> String {
        self.with(gap, gap, more)
    }

    /// Behind the first record inside the first.
    pub fn with_behind_first(&self, more: &str) -> String {
        self.with_in(self.behind(1), more)
    }

    /// Something in every gap, the sorts of it in turn.
    pub fn with_in_all(&self, sorts: &[&str], first: usize) -> String {
        let mut words = vec![];
        for gap in self.gaps() {
            words.push(sorts[(first + gap) % sorts.len()]);
            words.extend(self.0.get(gap).map(|w| w.as_str()));
        }
        with_blocks(&words.join(" "))
    }

    /// Where a composite ends: the places of what would be left over.
    pub fn ends(&self) -> Vec<usize> {
        self.gaps().filter(|i| self.is(*i, ")")).collect()
    }

    /// The end of the outermost composite.
    pub fn last_end(&self) -> usize {
        self.0.len() - 1
    }

    /// Where a record begins, the first one aside.
    pub fn records(&self) -> Vec<usize> {
        self.gaps()
            .filter(|i| 0 < *i && *i < self.0.len() && !self.is(*i, ")"))
            .collect()
    }

    fn is(&self, at: usize, word: &str) -> bool {
        self.0.get(at).is_some_and(|w| w == word)
    }

    pub fn is_leaf(&self, at: usize) -> bool {
        self.0[at].ends_with('"')
    }

    /// Behind the record that begins at a word, and everything below it.
    fn behind(&self, from: usize) -> usize {
        let (mut at, mut depth) = (from, 0);
        loop {
            depth += self.0[at].starts_with('(') as usize;
            depth -= self.is(at, ")") as usize;
            at += 1;
            if depth == 0 {
                return at;
            }
        }
    }

    pub fn without(&self, record: usize) -> String {
        self.with(record, self.behind(record), "")
    }

    pub fn doubled(&self, leaf: usize) -> String {
        self.with(leaf, leaf, &self.0[leaf])
    }

    /// A composite that no table knows; a name in place of a token, and a number in
    /// place of a name.
    pub fn of_another_kind(&self, record: usize) -> String {
        let is_name = |w: &str| sx::build(w).1[0].kind == IDENT;
        let new = match &self.0[record] {
            w if w.starts_with('(') => "(F0",
            w if w == "B" => "(F0)",
            w if is_name(w) => r#""1""#,
            _ => r#""x""#,
        };
        self.with(record, record + 1, new)
    }
}
