//! Parameters that nothing names any more.
use super::Rule;
use crate::Fault;
use crate::lexer::Kind;
use crate::pattern::Pattern;
use crate::text::Text;
use std::ops::Range;

pub(super) const RULES: &[Rule] = &[Rule {
    name: "parameters",
    removes: &["$name"],
    writes: &["$name"],
    says: "A parameter that only removed text names gets an underscore.",
    source: "run(|rt: HostRuntime| { f(); });\nfn f<T: Fn() -> u8>(mut a: u8, b: u8, c: u8) -> u8 where T: Copy { a + g(\"{c}\") }\nfn g(a: u8);",
    result: "run(|_rt: HostRuntime| { f(); });\nfn f<T: Fn() -> u8>(mut a: u8, _b: u8, c: u8) -> u8 where T: Copy { a + g(\"{c}\") }\nfn g(a: u8);",
    apply: parameters,
}];

fn parameters(text: &mut Text) -> Result<(), Fault> {
    let functions: Vec<usize> = (0..text.live.len()).filter(|&at| text.is(at, "fn") && text.live[at + 1].kind == Kind::Word).collect();
    for at in functions {
        let open = after_generics(text, at + 2);
        let close = text.closing(open)?;
        let mut end = close;
        while !["{", ";", ""].contains(&text.at(end)) {
            end = if ["(", "["].contains(&text.at(end)) { text.closing(end)? } else { end } + 1;
        }
        if text.is(end, "") {
            return Err(text.fault(at, "a function without a body"));
        }
        if text.is(end, "{") {
            let body = end..text.closing(end)?;
            for name in (open..close).filter(|&name| is_parameter(text, open, name)).collect::<Vec<_>>() {
                mark_unused(text, name, body.clone());
            }
        }
    }
    let test = Pattern::new("(|$rt: HostRuntime|");
    let mut from = 0;
    while let Some((at, found)) = text.find(&test, from) {
        from = found.end;
        let body = from..text.closing(at)?;
        mark_unused(text, found.of("rt").start, body);
    }
    Ok(())
}

// The place after the generic parameters that may begin here.
fn after_generics(text: &Text, start: usize) -> usize {
    let (mut at, mut depth) = (start, 0_usize);
    loop {
        match text.at(at) {
            "<" => depth += 1,
            ">" if !text.is(at - 1, "-") => depth -= 1,
            _ => {}
        }
        if depth == 0 || text.is(at, "") {
            return if at == start && !text.is(at, ">") { at } else { at + 1 };
        }
        at += 1;
    }
}

// Whether the token at this place is the name of a parameter of the list that begins there.
fn is_parameter(text: &Text, open: usize, at: usize) -> bool {
    let is_name = text.live[at].kind == Kind::Word && text.is(at + 1, ":") && !text.is(at + 2, ":");
    let before = if text.is(at - 1, "mut") { at - 2 } else { at - 1 };
    is_name && (before == open || text.is(before, ",") && depth_between(text, open + 1, before) == 0)
}

fn depth_between(text: &Text, start: usize, end: usize) -> isize {
    let opens = text.live[start..end].iter().filter(|token| ["(", "["].contains(&token.text.as_str())).count();
    let closes = text.live[start..end].iter().filter(|token| [")", "]"].contains(&token.text.as_str())).count();
    opens as isize - closes as isize
}

// Writes an underscore before a parameter that the body does not have, in formats neither.
fn mark_unused(text: &mut Text, name: usize, body: Range<usize>) {
    let word = text.at(name).to_string();
    let is_used = body.into_iter().any(|at| {
        let is_format = text.at(at).starts_with('"') && text.at(at).contains(&format!("{{{word}"));
        is_format || text.is(at, &word) && !(text.is(at - 1, ":") && text.is(at - 2, ":"))
    });
    if !is_used && !word.starts_with('_') {
        let new = text.written(&format!("_{word}"), text.live[name].line);
        text.replace(name..name + 1, new);
    }
}
