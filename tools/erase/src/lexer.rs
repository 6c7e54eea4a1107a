//! The tokens of a Rattle source.
//!
//! Clauses and ghost items are one token each, because their text is not Rust. Outside them, a character that no token of
//! Rust begins with is an error.
use crate::Fault;

/// What kind of token it is.
#[derive(Clone, Copy, Debug, PartialEq, Eq)]
pub enum Kind {
    /// A keyword, or a name.
    Word,
    /// A lifetime, or a label.
    Lifetime,
    /// A number, a string, or a character.
    Literal,
    /// One character of an operator, or a bracket.
    Mark,
    /// A comment to the end of its line.
    Comment,
    /// A line of a doc comment.
    Doc,
    /// `requires` or `ensures`, with its clause.
    Clause,
    /// A ghost item or member, with the `;` or `,` that ends it.
    Ghost,
}

/// A token, with the blanks before it.
#[derive(Clone, Debug)]
pub struct Token {
    pub kind: Kind,
    pub text: String,
    pub before: String,
    /// The number of its line, from 1 on.
    pub line: usize,
    pub origin: Origin,
}

/// Where a token comes from.
#[derive(Clone, Copy, Debug, PartialEq, Eq)]
pub enum Origin {
    /// It is the token of the source with this index.
    Source(usize),
    /// The rule with this name wrote it.
    Written(&'static str),
}

impl Token {
    pub fn is(&self, text: &str) -> bool {
        self.text == text
    }

    pub fn is_comment(&self) -> bool {
        matches!(self.kind, Kind::Comment | Kind::Doc)
    }
}

/// Returns the tokens of a source.
///
/// # Errors
///
/// A character or a word that begins no token, an unfinished token, or a ghost word without its clause.
pub fn tokens(path: &str, source: &str) -> Result<Vec<Token>, Fault> {
    let mut lexer = Lexer { path, rest: source, line: 1 };
    let mut found = Vec::new();
    while let Some(token) = lexer.next(found.len())? {
        found.push(token);
    }
    Ok(found)
}

struct Lexer<'a> {
    path: &'a str,
    rest: &'a str,
    line: usize,
}

impl<'a> Lexer<'a> {
    fn fault(&self, why: impl Into<String>) -> Fault {
        Fault { path: self.path.into(), line: self.line, why: why.into() }
    }

    // Consumes this many bytes.
    fn take(&mut self, length: usize) -> &'a str {
        let (taken, rest) = self.rest.split_at(length);
        self.line += taken.matches('\n').count();
        self.rest = rest;
        taken
    }

    fn next(&mut self, index: usize) -> Result<Option<Token>, Fault> {
        let blanks = self.rest.len() - self.rest.trim_start().len();
        let before = self.take(blanks).to_string();
        if self.rest.is_empty() {
            return Ok(None);
        }
        let line = self.line;
        let (kind, length) = self.measure()?;
        let text = self.take(length).trim_end().to_string();
        Ok(Some(Token { kind, text, before, line, origin: Origin::Source(index) }))
    }

    // The kind and the length of the next token.
    fn measure(&self) -> Result<(Kind, usize), Fault> {
        let rest = self.rest;
        let first = rest.chars().next().unwrap_or_default();
        if rest.starts_with("//") {
            let length = rest.find('\n').unwrap_or(rest.len());
            let is_doc = rest.starts_with("//!") || (rest.starts_with("///") && !rest.starts_with("////"));
            return Ok((if is_doc { Kind::Doc } else { Kind::Comment }, length));
        }
        if first == '"' || rest.starts_with("b\"") {
            return self.quoted('"').map(|length| (Kind::Literal, length));
        }
        if rest.starts_with("b'") {
            return self.quoted('\'').map(|length| (Kind::Literal, length));
        }
        if first == '\'' {
            return self.quote();
        }
        if first == '_' || first.is_ascii_alphabetic() {
            return self.word();
        }
        if first.is_ascii_digit() {
            return Ok((Kind::Literal, number(rest)));
        }
        if first.is_ascii_punctuation() && first != '`' && first != '\\' {
            return Ok((Kind::Mark, 1));
        }
        Err(self.fault(format!("no token begins with {first:?}: a ghost text that is in no clause?")))
    }

    // The length of a string or a character, with its quotes.
    fn quoted(&self, quote: char) -> Result<usize, Fault> {
        let mut is_escaped = false;
        let opened = self.rest.find(quote).unwrap_or_default() + 1;
        for (at, c) in self.rest[opened..].char_indices() {
            match c {
                _ if is_escaped => is_escaped = false,
                '\\' => is_escaped = true,
                c if c == quote => return Ok(opened + at + 1),
                _ => {}
            }
        }
        Err(self.fault("a string or a character does not end"))
    }

    // A lifetime, or a character.
    fn quote(&self) -> Result<(Kind, usize), Fault> {
        let inner = &self.rest[1..];
        let name = word_length(inner);
        if name > 0 && !inner[name..].starts_with('\'') {
            return Ok((Kind::Lifetime, 1 + name));
        }
        self.quoted('\'').map(|length| (Kind::Literal, length))
    }

    fn word(&self) -> Result<(Kind, usize), Fault> {
        let length = word_length(self.rest);
        match &self.rest[..length] {
            "ghost" => self.ghost().map(|length| (Kind::Ghost, length)),
            "requires" | "ensures" => self.clause(length).map(|length| (Kind::Clause, length)),
            _ => Ok((Kind::Word, length)),
        }
    }

    // The length of a clause whose keyword has this length: `ensures* NAME { .. }`, where star and name may be absent.
    fn clause(&self, keyword: usize) -> Result<usize, Fault> {
        let mut at = keyword + usize::from(self.rest[keyword..].starts_with('*'));
        at += blank_length(&self.rest[at..]);
        at += word_length(&self.rest[at..]);
        at += blank_length(&self.rest[at..]);
        if !self.rest[at..].starts_with('{') {
            return Err(self.fault(format!("`{}` without a clause", &self.rest[..keyword])));
        }
        Ok(at + self.braces(at)?)
    }

    // The length of a ghost item or member, to the `;` or `,` outside its braces.
    fn ghost(&self) -> Result<usize, Fault> {
        let mut at = 0;
        while let Some(c) = self.rest[at..].chars().next() {
            match c {
                '{' => at += self.braces(at)?,
                ';' | ',' => return Ok(at + 1),
                _ => at += c.len_utf8(),
            }
        }
        Err(self.fault("a ghost item does not end"))
    }

    // The length of the braces at this place, with what they hold.
    fn braces(&self, start: usize) -> Result<usize, Fault> {
        let mut depth = 0_usize;
        for (at, c) in self.rest[start..].char_indices() {
            match c {
                '{' => depth += 1,
                '}' => depth -= 1,
                _ => {}
            }
            if depth == 0 {
                return Ok(at + 1);
            }
        }
        Err(self.fault("a brace is not closed"))
    }
}

fn word_length(text: &str) -> usize {
    let is_first = text.starts_with(|c: char| c == '_' || c.is_ascii_alphabetic());
    let length = text.find(|c: char| c != '_' && !c.is_ascii_alphanumeric()).unwrap_or(text.len());
    if is_first { length } else { 0 }
}

fn blank_length(text: &str) -> usize {
    text.len() - text.trim_start().len()
}

// The length of a number. A point belongs to it only before a digit, and so not in `0..9`.
fn number(text: &str) -> usize {
    let digits = |text: &str| text.find(|c: char| c != '_' && !c.is_ascii_alphanumeric()).unwrap_or(text.len());
    let whole = digits(text);
    match text[whole..].strip_prefix('.') {
        Some(rest) if rest.starts_with(|c: char| c.is_ascii_digit()) => whole + 1 + digits(rest),
        _ => whole,
    }
}
