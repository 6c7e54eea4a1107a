//! The check that the result is the source, but for what rules removed or wrote.
use crate::Fault;
use crate::lexer::{Kind, Origin, Token, tokens};
use crate::pattern::Pattern;
use crate::rules::{Rule, rules};
use crate::text::Text;
use std::collections::BTreeMap;

/// What each rule removed and wrote, in tokens.
pub type Counts = BTreeMap<&'static str, (usize, usize)>;

/// Checks a file: the tokens of the result, in order, are those of the source, but for those that a rule removed or wrote.
///
/// # Errors
///
/// The first token for which it does not hold, also if the text of the result has other tokens.
pub fn check(text: &Text) -> Result<Counts, Fault> {
    let mut counts = Counts::new();
    let mut next = 0;
    for (at, token) in text.live.iter().enumerate() {
        match token.origin {
            Origin::Written(rule) => counts.entry(rule).or_default().1 += 1,
            Origin::Source(index) => {
                removed(text, next..index, &mut counts)?;
                if index < next || text.removed[index].is_some() || text.source[index].text != token.text {
                    return Err(text.fault(at, format!("`{}` is not the token of the source that it should be", token.text)));
                }
                next = index + 1;
            }
        }
    }
    removed(text, next..text.source.len(), &mut counts)?;
    same(text)?;
    for rule in rules() {
        shapes(text, rule)?;
    }
    Ok(counts)
}

// Checks that what a rule removed and wrote has the shapes that the rule may remove and write.
fn shapes(text: &Text, rule: &Rule) -> Result<(), Fault> {
    let all = [("remove", removed_runs(text, rule.name), rule.removes), ("write", written_runs(text, rule.name), rule.writes)];
    for (verb, runs, shapes) in all {
        let shapes: Vec<(Vec<String>, Pattern)> = if runs.is_empty() { vec![] } else { shapes.iter().map(|shape| parted(shape)).collect() };
        for run in runs {
            let named = Text::of(run.iter().map(|token| named(token)).collect());
            // Some shapes have to follow others in the source, each at its own place.
            let may_begin = |place: usize, context: &[String]| is_after(text, run[place], context);
            if !is_made_of(&named, 0, &shapes, &may_begin) {
                let words: Vec<&str> = named.live.iter().map(|token| token.text.as_str()).collect();
                let why = format!("the rule `{}` may not {verb} `{}`", rule.name, words.join(" "));
                return Err(Fault { path: text.path.clone(), line: run[0].line, why });
            }
        }
    }
    Ok(())
}

// What a shape has to follow, and what it is.
fn parted(shape: &str) -> (Vec<String>, Pattern) {
    let (context, shape) = shape.split_once('~').unwrap_or(("", shape));
    let words = tokens("a shape", context).unwrap_or_default();
    (words.into_iter().map(|token| token.text).collect(), Pattern::new(shape))
}

// Whether a token of the source is right after these.
fn is_after(text: &Text, token: &Token, context: &[String]) -> bool {
    let Origin::Source(index) = token.origin else { return context.is_empty() };
    let before = index.checked_sub(context.len()).map(|start| &text.source[start..index]);
    before.is_some_and(|before| before.iter().map(|token| &token.text).eq(context))
}

// A token as the shapes name it: what is no Rust, comments and lifetimes by their kind.
fn named(token: &Token) -> Token {
    let name = match token.kind {
        Kind::Comment => "COMMENT",
        Kind::Doc => "DOC",
        Kind::Clause => "CLAUSE",
        Kind::Ghost => "GHOST",
        Kind::Lifetime => "LIFETIME",
        _ => &token.text,
    };
    Token { text: name.into(), ..token.clone() }
}

// Whether the tokens from this place on are what these shapes match, one after the other, each where it may begin.
fn is_made_of(text: &Text, at: usize, shapes: &[(Vec<String>, Pattern)], may_begin: &dyn Fn(usize, &[String]) -> bool) -> bool {
    let ends = || shapes.iter().filter(|(context, _)| may_begin(at, context)).filter_map(|(_, shape)| Some(shape.matches(text, at)?.end));
    at == text.live.len() || ends().any(|end| end > at && is_made_of(text, end, shapes, may_begin))
}

// Counts tokens of the source that are not in the result. A rule must have removed each.
fn removed(text: &Text, range: std::ops::Range<usize>, counts: &mut Counts) -> Result<(), Fault> {
    for index in range {
        let Some(rule) = text.removed[index] else {
            let token = &text.source[index];
            return Err(Fault { path: text.path.clone(), line: token.line, why: format!("no rule removed `{}`", token.text) });
        };
        counts.entry(rule).or_default().0 += 1;
    }
    Ok(())
}

// Checks that the text of the result has the tokens of the result.
fn same(text: &Text) -> Result<(), Fault> {
    let plain = |token: &Token| token.text.clone();
    let found = tokens(&text.path, &text.rendered())?;
    let is_same = found.iter().map(plain).eq(text.live.iter().map(plain));
    if is_same { Ok(()) } else { Err(text.fault(0, "the text of the result has other tokens")) }
}

/// The runs of tokens that a rule removed, with nothing kept between them. What other rules removed does not part a run.
pub fn removed_runs<'a>(text: &'a Text, rule: &str) -> Vec<Vec<&'a Token>> {
    let mut runs = vec![vec![]];
    for (token, removed) in text.source.iter().zip(&text.removed) {
        match removed {
            Some(by) if *by == rule => runs.last_mut().expect("one run at least").push(token),
            Some(_) => {}
            None => runs.push(vec![]),
        }
    }
    runs.retain(|run| !run.is_empty());
    runs
}

/// The runs of tokens that a rule wrote.
pub fn written_runs<'a>(text: &'a Text, rule: &'static str) -> Vec<Vec<&'a Token>> {
    let runs = text.live.chunk_by(|one, other| one.origin == other.origin);
    runs.filter(|run| run[0].origin == Origin::Written(rule)).map(|run| run.iter().collect()).collect()
}
