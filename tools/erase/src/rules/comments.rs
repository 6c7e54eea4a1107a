//! Comments that speak of proofs, and examples.
use super::Rule;
use crate::Fault;
use crate::lexer::{Kind, Origin, Token};
use crate::text::Text;

pub(super) const RULES: &[Rule] = &[
    Rule {
        name: "proved",
        removes: &["COMMENT"],
        writes: &[],
        says: "A comment that begins with `// Proved:` goes, with the lines that continue it, and so do the headings over clauses.",
        source: "// The count.\n// Proved: it is read\n//   once [`gives`]\n// It is below 2^32.\nfn count() {}",
        result: "// The count.\n// It is below 2^32.\nfn count() {}",
        apply: proved,
    },
    Rule {
        name: "examples",
        removes: &["DOC"],
        writes: &["DOC"],
        says: "An example becomes a doc test: its code by the other rules, in a function that has the runtime, its allocator, and the names that it sees. In private modules it goes.",
        source: "/// Adds.\n///\n/// ```rattle\n/// assert_eq!(rt; add(1, 2), 3);\n/// ```\nfn add() {}",
        result: "/// Adds.\n///\n/// ```\n/// # use erased::{base::*, std::prelude::*};\n/// # fn main() {\n/// # erased::std::test::run(|rt: HostRuntime| -> \
                 Result<(), erased::std::test::Fail> {\n/// # let alloc = rt.alloc();\n/// assert_eq!(add(1, 2), 3);\n/// # let _ = alloc;\n/// # Ok(())\n/// # });\n\
                 /// # }\n/// ```\nfn add() {}",
        apply: examples,
    },
];

// Headings of groups of clauses.
const HEADINGS: [&str; 3] = ["// On success.", "// On an error.", "// On every outcome."];

fn proved(text: &mut Text) -> Result<(), Fault> {
    let mut at = 0;
    while at < text.live.len() {
        let token = &text.live[at];
        let is_first = token.kind == Kind::Comment && (token.text.starts_with("// Proved:") || HEADINGS.contains(&token.text.as_str()));
        if !is_first {
            at += 1;
            continue;
        }
        let more = text.live[at + 1..].iter().take_while(|token| token.kind == Kind::Comment && token.text.starts_with("//   ")).count();
        text.remove(at..at + 1 + more);
    }
    Ok(())
}

// The parts of a line of a doc comment: its mark, and what follows it.
fn parts(line: &str) -> (&str, &str) {
    let (mark, rest) = line.split_at(3);
    (mark, rest.strip_prefix(' ').unwrap_or(rest))
}

fn examples(text: &mut Text) -> Result<(), Fault> {
    let mut at = 0;
    while at < text.live.len() {
        if text.live[at].kind != Kind::Doc || parts(text.at(at)).1 != "```rattle" {
            at += 1;
            continue;
        }
        let end = (at + 1..text.live.len()).find(|&end| text.live[end].kind != Kind::Doc || parts(text.at(end)).1 == "```");
        let Some(end) = end.filter(|&end| text.live[end].kind == Kind::Doc) else { return Err(text.fault(at, "an example does not end")) };
        if text.library.is_empty() {
            // With the empty line over it.
            let start = if parts(text.at(at - 1)).1.is_empty() { at - 1 } else { at };
            text.remove(start..end + 1);
            at = start;
            continue;
        }
        let new = example(text, at, end)?;
        let length = new.len();
        text.replace(at..end, new);
        at += length;
    }
    Ok(())
}

// The lines of the example that begins and ends at these places, but for the last.
fn example(text: &Text, start: usize, end: usize) -> Result<Vec<Token>, Fault> {
    let first = &text.live[start];
    let mark = parts(&first.text).0;
    let code: Vec<&str> = text.live[start + 1..end].iter().map(|token| parts(&token.text).1).collect();
    let code = erased(text, start, &code.join("\n"))?;
    let root = &text.library;
    let mut lines = vec!["```".to_string()];
    let seen: Vec<String> = text.sees.iter().map(|module| format!("{module}::*, ")).collect();
    lines.push(format!("# use {root}::{{{}std::prelude::*}};", seen.concat()));
    lines.push("# fn main() {".into());
    lines.push(format!("# {root}::std::test::run(|rt: HostRuntime| -> Result<(), {root}::std::test::Fail> {{"));
    lines.push("# let alloc = rt.alloc();".into());
    lines.extend(code.trim_end().lines().map(str::to_string));
    lines.extend(["# let _ = alloc;", "# Ok(())", "# });", "# }"].map(str::to_string));
    let blanks = first.before.rsplit('\n').next().unwrap_or_default();
    Ok(lines.into_iter().map(|line| doc(text, mark, &line, blanks, first.line)).collect())
}

fn doc(text: &Text, mark: &str, line: &str, blanks: &str, number: usize) -> Token {
    let text_of = format!("{mark} {line}");
    Token { kind: Kind::Doc, text: text_of.trim_end().into(), before: format!("\n{blanks}"), line: number, origin: Origin::Written(text.rule) }
}

// The code of an example by the other rules.
fn erased(text: &Text, start: usize, code: &str) -> Result<String, Fault> {
    let mut inner = Text::new(&text.path, &text.module, false, code)?;
    inner.root.clone_from(&text.library);
    inner.is_example = true;
    for rule in super::rules().filter(|rule| rule.name != text.rule) {
        inner.rule = rule.name;
        (rule.apply)(&mut inner)?;
    }
    crate::honesty::check(&inner).map_err(|fault| text.fault(start, fault.why))?;
    Ok(inner.rendered())
}
