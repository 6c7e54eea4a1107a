//! Bugs of rules that the check of honesty refuses: each is planted behind the real rules, under the name of one of them.
use erase::text::Text;
use erase::{erase, honesty};

const SOURCE: &str = "\
/// Whether it is one.
fn is_one(rt: HostRuntime, n: u32, list: &mut Vec<u32>) -> Result<bool>
    requires { n < 2 ^ 32 }
{
    list.push(n)?;
    count(list);
    if !list.is_empty() && n <= 1 {
        return Ok(n - 1 == 0);
    }
    match n {
        0 => Ok(false),
        1 => Ok(true),
        _ => g(rt.alloc(), &n),
    }
}
";

fn place(text: &Text, words: &str) -> usize {
    let words: Vec<&str> = words.split(' ').collect();
    let found = (0..text.live.len()).find(|&at| words.iter().enumerate().all(|(next, word)| text.is(at + next, word)));
    found.unwrap_or_else(|| panic!("{words:?}"))
}

// What the check says of the bug under the name of each rule.
fn refused(bug: fn(&mut Text)) {
    for rule in erase::rules::rules() {
        // These may write one word for another. Tests have to show it.
        if ["modules", "parameters", "imports"].contains(&rule.name) {
            continue;
        }
        let mut text = Text::new("a.rt", "base", false, SOURCE).unwrap();
        erase(&mut text).unwrap();
        text.rule = rule.name;
        bug(&mut text);
        assert!(honesty::check(&text).is_err(), "{}:\n{}", rule.name, text.rendered());
    }
}

fn remove(text: &mut Text, words: &str, count: usize) {
    let at = place(text, words);
    text.remove(at..at + count);
}

fn replace(text: &mut Text, words: &str, with: &str) {
    let at = place(text, words);
    let new = text.written(with, 1);
    text.replace(at..at + words.split(' ').count(), new);
}

#[test]
fn a_dropped_statement() {
    refused(|text| remove(text, "count ( list ) ;", 5));
    refused(|text| remove(text, "list . push", 8));
}

#[test]
fn an_error_that_is_not_returned() {
    refused(|text| remove(text, "? ; count", 1));
}

#[test]
fn exchanged_arms() {
    refused(|text| {
        let (first, second) = (place(text, "0 = >"), place(text, "1 = >"));
        text.live.swap(first, second);
    });
    refused(|text| {
        let arm = place(text, "0 = >");
        text.live[arm..arm + 16].rotate_left(8);
    });
}

#[test]
fn a_negation_that_is_kept_away() {
    refused(|text| remove(text, "! list", 1));
}

#[test]
fn another_comparison() {
    refused(|text| remove(text, "= 1 {", 1));
    refused(|text| replace(text, "< =", ">="));
}

#[test]
fn another_number() {
    refused(|text| replace(text, "0 )", "1)"));
}

#[test]
fn a_dropped_arm() {
    refused(|text| remove(text, "1 = >", 8));
}

#[test]
fn an_early_return_that_goes() {
    refused(|text| remove(text, "return", 1));
}

#[test]
fn a_statement_twice() {
    refused(|text| {
        let at = place(text, "count ( list )");
        let copy = text.live[at..at + 5].to_vec();
        text.live.splice(at..at, copy);
    });
}

#[test]
fn a_written_statement() {
    refused(|text| {
        let at = place(text, "count ( list )");
        text.write(at, "list.clear();");
    });
}

#[test]
fn a_token_that_changes_unnoted() {
    refused(|text| {
        let at = place(text, "true");
        text.live[at].text = "false".into();
    });
    refused(|text| {
        let at = place(text, "true");
        text.live.remove(at);
    });
}

#[test]
fn two_tokens_that_become_one() {
    refused(|text| {
        let at = place(text, "return Ok");
        text.live[at + 1].before.clear();
    });
}
