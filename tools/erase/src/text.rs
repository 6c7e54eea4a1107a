//! The tokens of a file, and what rules removed and wrote.
use crate::Fault;
use crate::lexer::{Kind, Origin, Token, tokens};
use crate::pattern::{Pattern, Template};
use std::collections::HashSet;
use std::ops::Range;
use std::rc::Rc;

/// A file on its way from Rattle to Rust.
pub struct Text {
    /// Its path, for faults.
    pub path: String,
    /// The module of its crate in the result, and the name of the crate.
    pub module: String,
    /// Whether it is the root file of its crate.
    pub is_root: bool,
    /// The tokens of the result.
    pub live: Vec<Token>,
    /// The tokens of the source.
    pub source: Vec<Token>,
    /// The rule that removed each token of the source.
    pub removed: Vec<Option<&'static str>>,
    /// The rule that runs.
    pub rule: &'static str,
    /// What paths to other modules begin with: `crate`, and in an example the name of the crate.
    pub root: String,
    /// What examples call the crate that has the module.
    pub library: String,
    /// The modules whose names the examples of this file see.
    pub sees: Vec<String>,
    /// The traits of all crates, by their names.
    pub traits: Rc<HashSet<String>>,
    /// Whether it is the code of an example.
    pub is_example: bool,
}

impl Text {
    pub fn new(path: &str, module: &str, is_root: bool, source: &str) -> Result<Text, Fault> {
        let source = tokens(path, source)?;
        Ok(Text {
            path: path.into(),
            module: module.into(),
            is_root,
            live: source.clone(),
            removed: vec![None; source.len()],
            source,
            root: "crate".into(),
            library: "erased".into(),
            sees: vec![module.into()],
            ..Text::of(vec![])
        })
    }

    /// These tokens, of no file.
    pub fn of(live: Vec<Token>) -> Text {
        Text {
            path: String::new(),
            module: String::new(),
            is_root: false,
            live,
            removed: vec![],
            source: vec![],
            rule: "",
            root: String::new(),
            library: String::new(),
            sees: vec![],
            traits: Rc::default(),
            is_example: false,
        }
    }

    pub fn fault(&self, at: usize, why: impl Into<String>) -> Fault {
        let line = self.live.get(at).or(self.live.last()).map_or(0, |token| token.line);
        Fault { path: self.path.clone(), line, why: why.into() }
    }

    /// The text of the token at this place, empty past the end.
    pub fn at(&self, at: usize) -> &str {
        self.live.get(at).map_or("", |token| &token.text)
    }

    pub fn is(&self, at: usize, text: &str) -> bool {
        self.at(at) == text
    }

    /// The place of the bracket that closes the one at this place.
    pub fn closing(&self, open: usize) -> Result<usize, Fault> {
        let mut depth = 0_usize;
        for at in open..self.live.len() {
            match (self.live[at].kind, self.at(at)) {
                (Kind::Mark, "(" | "[" | "{") => depth += 1,
                (Kind::Mark, ")" | "]" | "}") => depth -= 1,
                _ => {}
            }
            if depth == 0 {
                return Ok(at);
            }
        }
        Err(self.fault(open, "a bracket is not closed"))
    }

    /// Removes tokens, and notes the rule for those of the source. The first token after them keeps its line of its own.
    pub fn remove(&mut self, range: Range<usize>) {
        let gone: Vec<Token> = self.live.drain(range.clone()).collect();
        for token in &gone {
            self.note(token);
        }
        if let (Some(first), Some(next)) = (gone.first(), self.live.get_mut(range.start)) {
            if first.before.contains('\n') && !next.before.contains('\n') {
                next.before.clone_from(&first.before);
            }
        }
    }

    // Notes that a token is removed. One that a rule wrote leaves no trace.
    fn note(&mut self, token: &Token) {
        if let Origin::Source(index) = token.origin {
            self.removed[index] = Some(self.rule);
        }
    }

    /// Writes tokens before the one at this place.
    pub fn write(&mut self, at: usize, text: &str) {
        let line = self.live.get(at).map_or(1, |token| token.line);
        let written = self.written(text, line);
        self.live.splice(at..at, written);
    }

    /// Writes tokens on a line of their own over the one at this place.
    pub fn write_line(&mut self, at: usize, text: &str) {
        let before = self.live[at].before.clone();
        let count = self.live.len();
        self.write(at, text);
        let written = self.live.len() - count;
        self.live[at].before.clone_from(&before);
        let blanks = before.rsplit('\n').next().unwrap_or_default();
        self.live[at + written].before = format!("\n{blanks}");
    }

    /// Tokens that the rule writes.
    pub fn written(&self, text: &str, line: usize) -> Vec<Token> {
        let mut written = tokens("a rule", text).unwrap_or_else(|fault| panic!("{}: {fault}", self.rule));
        for token in &mut written {
            token.origin = Origin::Written(self.rule);
            token.line = line;
        }
        written
    }

    /// Replaces tokens by others. Of both, what is the same in the same order stays.
    pub fn replace(&mut self, range: Range<usize>, mut with: Vec<Token>) {
        if let (Some(first), Some(old)) = (with.first_mut(), self.live.get(range.start)) {
            first.before.clone_from(&old.before);
        }
        let old: Vec<Token> = self.live[range.clone()].to_vec();
        let kept = common(&old, &with);
        let (mut stays, mut next) = (vec![false; old.len()], kept.iter().peekable());
        for (at, token) in with.iter_mut().enumerate() {
            if let Some(&&(from, to)) = next.peek() {
                if to == at {
                    stays[from] = true;
                    token.origin = old[from].origin;
                    next.next();
                    continue;
                }
            }
            token.origin = Origin::Written(self.rule);
        }
        for (token, _) in old.iter().zip(stays).filter(|(_, stays)| !stays) {
            self.note(token);
        }
        self.live.splice(range, with);
    }

    /// Replaces what a pattern matches everywhere, from the front on. Returns how often.
    pub fn rewrite(&mut self, pattern: &str, with: &str) -> usize {
        let (pattern, with) = (Pattern::new(pattern), Template::new(with));
        let (mut at, mut count) = (0, 0);
        while at < self.live.len() {
            match pattern.matches(self, at) {
                Some(found) => {
                    let new = with.filled(self, &found);
                    let length = new.len();
                    let is_open = new.last().is_some_and(|token| token.is("("));
                    self.replace(at..found.end, new);
                    // No blank after a bracket whose first argument went.
                    if let Some(next) = self.live.get_mut(at + length).filter(|next| is_open && !next.before.contains('\n')) {
                        next.before.clear();
                    }
                    // A match may have others within it.
                    at += usize::from(length > 0);
                    count += 1;
                }
                None => at += 1,
            }
        }
        count
    }

    /// The first place from this one on at which a pattern matches.
    pub fn find(&self, pattern: &Pattern, from: usize) -> Option<(usize, crate::pattern::Found)> {
        (from..self.live.len()).find_map(|at| pattern.matches(self, at).map(|found| (at, found)))
    }

    /// The place where an item begins, with the comments and attributes over it.
    pub fn item_start(&self, item: usize) -> usize {
        let mut start = item;
        while start > 0 && self.live[start].before.matches('\n').count() < 2 {
            match self.over(start) {
                Some(before) => start = before,
                None => break,
            }
        }
        start
    }

    // The place of the comment or attribute that ends before this place, if there is one.
    fn over(&self, start: usize) -> Option<usize> {
        if self.live[start - 1].is_comment() && (start == 1 || self.live[start - 1].before.contains('\n')) {
            return Some(start - 1);
        }
        if self.is(start - 1, "]") {
            let open = (0..start).rev().find(|&at| self.is(at, "[") && self.closing(at).is_ok_and(|end| end == start - 1))?;
            return (open > 0 && self.is(open - 1, "#")).then_some(open - 1);
        }
        None
    }

    /// The result as text. Each comment ends its line, and no two lines are empty.
    pub fn rendered(&self) -> String {
        let mut out = String::new();
        let mut was_comment = false;
        for token in &self.live {
            let breaks = token.before.matches('\n').count();
            if breaks > 1 && !out.ends_with("\n\n") && !out.is_empty() {
                out.push_str(if out.ends_with('\n') { "\n" } else { "\n\n" });
            } else if (breaks == 1 || was_comment) && !out.ends_with('\n') && !out.is_empty() {
                out.push('\n');
            }
            out.push_str(token.before.rsplit('\n').next().unwrap_or_default());
            out.push_str(&token.text);
            was_comment = token.is_comment();
        }
        out.push('\n');
        out
    }
}

// The places of a longest common sequence of both, by their texts: ends that are the same first, then the middle.
fn common(old: &[Token], new: &[Token]) -> Vec<(usize, usize)> {
    let same = |from: usize, to: usize| old[from].text == new[to].text;
    let short = old.len().min(new.len());
    let front = (0..short).take_while(|&at| same(at, at)).count();
    let back = (0..short - front).take_while(|&at| same(old.len() - 1 - at, new.len() - 1 - at)).count();
    let (rows, columns) = (old.len() - front - back, new.len() - front - back);
    let mut longest = vec![vec![0_usize; columns + 1]; rows + 1];
    for row in (0..rows).rev() {
        for column in (0..columns).rev() {
            longest[row][column] =
                if same(front + row, front + column) { longest[row + 1][column + 1] + 1 } else { longest[row + 1][column].max(longest[row][column + 1]) };
        }
    }
    let mut pairs: Vec<(usize, usize)> = (0..front).map(|at| (at, at)).collect();
    let (mut row, mut column) = (0, 0);
    while row < rows && column < columns {
        if same(front + row, front + column) {
            pairs.push((front + row, front + column));
            (row, column) = (row + 1, column + 1);
        } else if longest[row + 1][column] >= longest[row][column + 1] {
            row += 1;
        } else {
            column += 1;
        }
    }
    pairs.extend((0..back).rev().map(|at| (old.len() - 1 - at, new.len() - 1 - at)));
    pairs
}
