//! One crate of modules, and what its files import.
use super::Rule;
use crate::Fault;
use crate::lexer::{Kind, Token, tokens};
use crate::text::Text;
use std::collections::HashSet;
use std::ops::Range;

pub(super) const RULES: &[Rule] = &[
    Rule {
        name: "imports",
        removes: &["use", "$name", "::", "{", "}", ",", ";"],
        writes: &[],
        says: "An import goes whose name the result has not, but for those of traits.",
        source: "use crate::error::{self, Error, Result};\nuse std::{fmt, io::{self, Write}};\nuse std::mem;\n\nfn f() -> Result<u32> {}",
        result: "use crate::error::{Result};\nuse std::{io::{Write}};\n\nfn f() -> Result<u32> {}",
        apply: imports,
    },
    Rule {
        name: "modules",
        removes: &["$name"],
        writes: &["$root::", "$root::$module", "$root::$outer::", "$root::$outer::$module", "::$module", "::$outer::$module"],
        says: "Crates become modules of one crate, named without `wasm_`, and so do `std` and `bitflags`.",
        source: "use crate::error::Error;\nuse wasm_frames::Frame;\nuse std::fmt;\npub(crate) fn f() -> std::fmt::Result {}",
        result: "use crate::base::error::Error;\nuse crate::frames::Frame;\nuse crate::std::fmt;\npub(crate) fn f() -> crate::std::fmt::Result {}",
        apply: modules,
    },
    Rule {
        name: "prelude",
        removes: &[],
        writes: &[
            "use $root::std::prelude::$name;",
            "use $root::std::prelude::{$$names};",
            "use $root::$outer::std::prelude::$name;",
            "use $root::$outer::std::prelude::{$$names};",
        ],
        says: "A file imports what it names of the prelude of Rattle that Rust's has not, or has otherwise.",
        source: "// Lists.\nuse std::fmt;\n\nfn f(list: Vec<u8>) {}",
        result: "// Lists.\nuse crate::std::prelude::Vec;\nuse std::fmt;\n\nfn f(list: Vec<u8>) {}",
        apply: prelude,
    },
];

// The names of the prelude, and the traits of methods that rules write.
const PRELUDE: [&str; 3] = ["HostRuntime", "String", "Vec"];
const METHODS: [(&str, &str); 4] =
    [("to_vec_with", "ToVecWith"), ("to_string_with", "ToStringWith"), ("repeat_with", "RepeatWith"), ("concat_with", "ConcatWith")];

// Traits of `std` and `bitflags`, whose methods are called where nothing has their names.
const TRAITS: [&str; 11] = ["AsSlice", "Debug", "Flags", "Hash", "IsTerminal", "MetadataExt", "OpenOptionsExt", "PermissionsExt", "Read", "ToString", "Write"];

fn words(tokens: &[Token]) -> HashSet<String> {
    let is_part = |c: char| c == '_' || c.is_ascii_alphanumeric();
    let plain = tokens.iter().filter(|token| !token.is_comment());
    plain.flat_map(|token| token.text.split(move |c| !is_part(c)).map(str::to_string)).collect()
}

// The tokens outside of imports.
fn used(tokens: &[Token]) -> Vec<Token> {
    let mut is_import = false;
    let outside = tokens.iter().filter(|token| {
        is_import |= token.is("use");
        let is_outside = !is_import;
        is_import &= !token.is(";");
        is_outside
    });
    outside.cloned().collect()
}

fn imports(text: &mut Text) -> Result<(), Fault> {
    let named = words(&used(&text.live));
    let traits = text.traits.clone();
    let is_dropped = |name: &str| !named.contains(name) && !traits.contains(name) && !TRAITS.contains(&name);
    drop_from(text, &is_dropped, &|text, at| !(at > 0 && [")", "pub"].contains(&text.at(at - 1))));
    Ok(())
}

/// Drops names from all imports, and from what is re-exported.
pub fn drop_imports(text: &mut Text, is_dropped: &dyn Fn(&str) -> bool) {
    drop_from(text, is_dropped, &|_, _| true);
}

fn drop_from(text: &mut Text, is_dropped: &dyn Fn(&str) -> bool, is_meant: &dyn Fn(&Text, usize) -> bool) {
    let mut at = 0;
    while at < text.live.len() {
        let is_import = text.is(at, "use") && is_meant(text, at);
        if is_import {
            let end = (at..text.live.len()).find(|&end| text.is(end, ";")).unwrap_or(at) + 1;
            drop_names(text, at..end, is_dropped);
        }
        at += usize::from(text.is(at, "use") || !is_import);
    }
}

/// The names of the items of a file that others see.
pub fn exported(text: &Text) -> Vec<String> {
    let is_word = |at: &usize| ["fn", "struct", "enum", "trait", "type", "const"].contains(&text.at(*at)) && text.live[*at + 1].kind == Kind::Word;
    let starts_line = |at: usize| text.is(at, "pub") && !text.live[at].before.ends_with(' ');
    let is_outer = |at: &usize| starts_line(at.saturating_sub(1)) || text.is(at.saturating_sub(1), ")") && starts_line(at.saturating_sub(4));
    (0..text.live.len()).filter(is_word).filter(is_outer).map(|at| text.at(at + 1).to_string()).collect()
}

/// A name that a file imports or re-exports: the module of this crate that has it, empty for the file's own, and what it is called here.
pub struct Import {
    pub module: String,
    pub name: String,
    pub alias: String,
    pub is_public: bool,
}

/// The names that a file imports.
pub fn imported(text: &Text) -> Vec<Import> {
    let (mut found, mut start, mut is_import) = (Vec::new(), 0, false);
    for at in 0..text.live.len() {
        if text.is(at, "use") {
            (start, is_import) = (at, true);
        }
        let is_leaf = is_import && text.live[at].kind == Kind::Word && [",", "}", ";"].contains(&text.at(at + 1));
        if is_leaf {
            // The path begins with `crate` and perhaps the module that has all others.
            let outer = start + if text.is(start + 4, "proved") { 7 } else { 4 };
            let module = if text.is(start + 1, "crate") { text.at(outer).to_string() } else { String::new() };
            let name = if text.is(at - 1, "as") { text.at(at - 2) } else { text.at(at) };
            let is_public = start > 0 && text.is(start - 1, "pub");
            found.push(Import { module, name: name.into(), alias: text.at(at).into(), is_public });
        }
        is_import &= !text.is(at, ";");
    }
    found
}

// Drops names from an import, and all of it if none remains.
fn drop_names(text: &mut Text, range: Range<usize>, is_dropped: &dyn Fn(&str) -> bool) {
    let mut kept = text.live[range.clone()].to_vec();
    while let Some(at) = (0..kept.len()).rev().find(|&at| is_dropped_leaf(&kept, at, is_dropped)) {
        if kept[at + 1].is(";") {
            let start = if range.start > 0 && text.is(range.start - 1, "pub") { range.start - 1 } else { range.start };
            text.remove(start..range.end);
            return;
        }
        // The path of the name within its braces, and its comma or the one before.
        let start = (0..at).rev().find(|&start| kept[start].is("{") || kept[start].is(",")).unwrap_or(at) + 1;
        match (kept[start - 1].is(","), kept[at + 1].is(",")) {
            (_, true) => drop(kept.drain(start..at + 2)),
            (true, false) => drop(kept.drain(start - 1..at + 1)),
            (false, false) => drop(kept.drain(start..at + 1)),
        }
    }
    if kept.len() < range.len() {
        text.replace(range, kept);
    }
}

// Whether the token at this place ends the path of a name that is dropped, or braces in which none remains.
fn is_dropped_leaf(list: &[Token], at: usize, is_dropped: &dyn Fn(&str) -> bool) -> bool {
    let Some(next) = list.get(at + 1) else { return false };
    if ![",", "}", ";"].contains(&next.text.as_str()) {
        return false;
    }
    match list[at].text.as_str() {
        "}" => list[at - 1].is("{"),
        "self" => is_dropped(&list[at - 4].text),
        name => list[at].kind == Kind::Word && is_dropped(name),
    }
}

// The module of a crate in the result.
pub fn module_of(name: &str) -> &str {
    match name {
        "pulleynavy" => "program",
        _ => name.strip_prefix("wasm_").unwrap_or(name),
    }
}

fn modules(text: &mut Text) -> Result<(), Fault> {
    let mut at = 0;
    while at + 2 < text.live.len() {
        let is_path = text.is(at + 1, ":") && text.is(at + 2, ":") && !(at > 1 && text.is(at - 1, ":") && text.is(at - 2, ":"));
        let word = text.at(at);
        let new = match word {
            "crate" if is_path => format!("{}::{}", text.root, text.module),
            "std" | "bitflags" | "test_devices" if is_path => format!("{}::{word}", text.root),
            _ if is_path && word.starts_with("wasm_") => format!("{}::{}", text.root, module_of(word)),
            _ => {
                at += 1;
                continue;
            }
        };
        let new = text.written(&new, text.live[at].line);
        let length = new.len();
        text.replace(at..at + 1, new);
        at += length;
    }
    Ok(())
}

fn prelude(text: &mut Text) -> Result<(), Fault> {
    if text.is_example {
        return Ok(());
    }
    let words: HashSet<&str> = text.live.iter().filter(|token| token.kind == Kind::Word).map(|token| token.text.as_str()).collect();
    let mut names: Vec<&str> = PRELUDE.into_iter().filter(|name| words.contains(name)).collect();
    names.extend(METHODS.iter().filter(|(method, _)| words.contains(method)).map(|(_, name)| *name));
    names.sort_unstable();
    let import = match names[..] {
        [] => return Ok(()),
        [name] => format!("use {}::std::prelude::{name};", text.root),
        _ => format!("use {}::std::prelude::{{{}}};", text.root, names.join(", ")),
    };
    // After the comment on the file, before the first item. A doc comment belongs to an item.
    let is_head = |token: &Token| token.kind == Kind::Comment || token.text.starts_with("//!");
    let head = text.live.iter().take_while(|token| is_head(token)).count();
    let is_own = head > 0 && text.live.get(head).is_some_and(|token| token.before.matches('\n').count() == 1 && !token.is("use"));
    // A comment right over an item is its own.
    let at = if is_own && text.live[0].kind == Kind::Comment { 0 } else { head };
    let mut import = tokens("a rule", &import)?;
    let is_first = at == 0;
    import[0].before = if is_first { String::new() } else { "\n".into() };
    let length = import.len();
    let line = text.live.get(at).map_or(1, |token| token.line);
    for token in &mut import {
        token.origin = crate::lexer::Origin::Written(text.rule);
        token.line = line;
    }
    text.live.splice(at..at, import);
    if let Some(next) = text.live.get_mut(at + length) {
        let is_import = next.is("use");
        next.before = if is_import { "\n".into() } else { "\n\n".into() };
    }
    Ok(())
}
