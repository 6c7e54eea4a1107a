//! Patterns and templates over tokens.
//!
//! A pattern is Rust text in which `$x` stands for one token that is no mark, `$$x` for tokens whose brackets are balanced, as few as serve, with no
//! brace and no `;` among them, and `$$$x` for any tokens whose brackets are balanced. A template is Rust text in which these stand for what they
//! matched.
use crate::lexer::{Kind, Token, tokens};
use crate::text::Text;
use std::ops::Range;

enum Part {
    Exactly(String),
    One(String),
    Several(String),
    Any(String),
}

pub struct Pattern(Vec<Part>);

/// What a pattern matched: where it ends, and what its names stand for.
pub struct Found {
    pub end: usize,
    bound: Vec<(String, Range<usize>)>,
}

impl Found {
    /// The place of the first token of what a name stands for, and of the one after the last.
    pub fn of(&self, name: &str) -> Range<usize> {
        let found = self.bound.iter().find(|(bound, _)| bound == name);
        found.map_or_else(|| panic!("no `{name}` in the pattern"), |(_, range)| range.clone())
    }
}

// The tokens of a pattern or a template. A name follows one or two `$`.
fn parts(text: &str) -> Vec<(Part, String)> {
    let list = tokens("a pattern", text).unwrap_or_else(|fault| panic!("{text}: {fault}"));
    let (mut found, mut dollars, mut before) = (Vec::new(), 0, String::new());
    for token in list {
        if dollars == 0 {
            before.clone_from(&token.before);
        }
        if token.is("$") {
            dollars += 1;
            continue;
        }
        let part = match dollars {
            0 => Part::Exactly(token.text),
            1 => Part::One(token.text),
            2 => Part::Several(token.text),
            _ => Part::Any(token.text),
        };
        found.push((part, before.clone()));
        dollars = 0;
    }
    found
}

impl Pattern {
    pub fn new(text: &str) -> Pattern {
        Pattern(parts(text).into_iter().map(|(part, _)| part).collect())
    }

    /// What the pattern matches at this place.
    pub fn matches(&self, text: &Text, at: usize) -> Option<Found> {
        let mut found = Found { end: at, bound: Vec::new() };
        matched(&self.0, text, &mut found).then_some(found)
    }
}

fn matched(parts: &[Part], text: &Text, found: &mut Found) -> bool {
    let Some((part, rest)) = parts.split_first() else { return true };
    let start = found.end;
    match part {
        Part::Exactly(wanted) => {
            found.end += 1;
            text.is(start, wanted) && matched(rest, text, found)
        }
        Part::One(name) => {
            let fits = text.live.get(start).is_some_and(|token| token.kind != Kind::Mark);
            found.end += 1;
            found.bound.push((name.clone(), start..start + 1));
            fits && matched(rest, text, found)
        }
        Part::Several(name) => several(name, &["{", ";"], rest, text, found),
        Part::Any(name) => several(name, &[], rest, text, found),
    }
}

// Tries longer and longer runs of tokens with balanced brackets, outside of which none of the `stops` is.
fn several(name: &str, stops: &[&str], rest: &[Part], text: &Text, found: &mut Found) -> bool {
    let start = found.end;
    let mut end = start;
    while end <= text.live.len() {
        let mut longer = Found { end, bound: found.bound.clone() };
        longer.bound.push((name.into(), start..end));
        if matched(rest, text, &mut longer) {
            *found = longer;
            return true;
        }
        end = match text.at(end) {
            stop if stops.contains(&stop) => return false,
            "(" | "[" | "{" => text.closing(end).map_or(usize::MAX - 1, |close| close) + 1,
            ")" | "]" | "}" | "" => return false,
            _ => end + 1,
        };
    }
    false
}

pub struct Template(Vec<(Part, String)>);

impl Template {
    pub fn new(text: &str) -> Template {
        Template(parts(text))
    }

    /// The tokens of the template, with what a match has for its names.
    pub fn filled(&self, text: &Text, found: &Found) -> Vec<Token> {
        let mut list = Vec::new();
        for (part, before) in &self.0 {
            match part {
                Part::Exactly(exact) => {
                    let mut written = text.written(exact, 0);
                    written[0].before.clone_from(before);
                    list.append(&mut written);
                }
                Part::One(name) | Part::Several(name) | Part::Any(name) => {
                    let first = list.len();
                    list.extend_from_slice(&text.live[found.of(name)]);
                    if let Some(token) = list.get_mut(first).filter(|token| !token.before.contains('\n')) {
                        token.before.clone_from(before);
                    }
                }
            }
        }
        let line = text.live.get(found.end.saturating_sub(1)).map_or(0, |token| token.line);
        for token in list.iter_mut().filter(|token| token.line == 0) {
            token.line = line;
        }
        list
    }
}
