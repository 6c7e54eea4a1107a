//! Turns Rattle sources into Rust, for those who trust or check rustc: what only the proof reads goes, a list of forms is written as Rust spells
//! them, and everything else stays, comments and order included.
//!
//! It reads tokens. Each [`rules::Rule`] has a name, a sentence and a test, [`honesty::check`] holds the result against the source, and a ghost
//! token that no rule knows is an error.
#![forbid(unsafe_code)]

pub mod crates;
pub mod honesty;
pub mod leaving;
pub mod lexer;
pub mod library;
pub mod pattern;
pub mod rules;
pub mod text;

use honesty::Counts;
use std::fmt;
use text::Text;

/// Why a file could not be erased, and where.
#[derive(Debug, PartialEq, Eq)]
pub struct Fault {
    pub path: String,
    pub line: usize,
    pub why: String,
}

impl fmt::Display for Fault {
    fn fmt(&self, f: &mut fmt::Formatter<'_>) -> fmt::Result {
        write!(f, "{}:{}: {}", self.path, self.line, self.why)
    }
}

/// Words that the result must not have, since they are Rattle's.
const UNKNOWN: [&str; 9] = ["ghost", "requires", "ensures", "tactic", "Model", "DerefSlice", "final", "unsafe", "Drop"];

/// Runs all rules over a file, and returns what they removed and wrote.
///
/// # Errors
///
/// The first fault of a rule, a word of Rattle that none removed, or a result that is not the source.
pub fn erase(text: &mut Text) -> Result<Counts, Fault> {
    for rule in rules::rules() {
        text.rule = rule.name;
        (rule.apply)(text)?;
    }
    if let Some(at) = (0..text.live.len()).find(|&at| is_unknown(text, at)) {
        return Err(text.fault(at, format!("no rule knows `{}` here", text.at(at))));
    }
    honesty::check(text)
}

// Whether a word of Rattle is at this place: one that Rust has not, or the first argument of a macro that may abort or allocate.
fn is_unknown(text: &Text, at: usize) -> bool {
    let is_first = at > 1 && text.is(at - 2, "!") && ["(", "[", "{"].contains(&text.at(at - 1));
    let is_argument = text.is(at, "in") || text.is(at, "rt") && text.is(at + 1, ";");
    text.live[at].kind == lexer::Kind::Word && (UNKNOWN.contains(&text.at(at)) || is_first && is_argument)
}
