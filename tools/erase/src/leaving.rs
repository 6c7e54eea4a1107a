//! What a crate leaves out of the modules that it takes: files, and what needs them or an allocator.
//!
//! An item that names something left out is left out too, and so on. Of an `impl` only the members that do are, unless its head does.
use crate::Fault;
use crate::lexer::Kind;
use crate::rules::{drop_imports, exported, imported};
use crate::text::Text;
use std::collections::{BTreeMap, BTreeSet};
use std::ops::Range;
use std::path::PathBuf;

/// The name of the rule.
pub const RULE: &str = "left out";

// An item or a member: its tokens, with the comments and attributes over it, and where it says what it is.
struct Item {
    all: Range<usize>,
    start: usize,
}

/// What is left out: words that are in every file, and items of a module by their names.
#[derive(Default)]
pub struct Gone {
    everywhere: BTreeSet<String>,
    of_modules: BTreeSet<(String, String)>,
    // What the names of a file stand for, if it is gone.
    of_files: BTreeMap<PathBuf, BTreeSet<String>>,
}

// Another item is called `Global`, so that of `std::alloc` gets this name until it is left out.
const ALLOCATOR: &str = "GlobalAllocator";

impl Gone {
    /// These words of the prelude and of `std::alloc`.
    pub fn new(words: &[&str]) -> Gone {
        Gone { everywhere: words.iter().copied().chain([ALLOCATOR]).map(str::to_string).collect(), ..Gone::default() }
    }

    /// Leaves out files: their modules, and the names that they export.
    pub fn files(&mut self, files: &mut BTreeMap<PathBuf, Text>, is_left_out: &dyn Fn(&str) -> bool) {
        let gone: Vec<PathBuf> = files.keys().filter(|path| is_left_out(&path.display().to_string())).cloned().collect();
        for path in gone {
            let Some(text) = files.remove(&path) else { continue };
            self.of_modules.extend(exported(&text).into_iter().map(|name| (text.module.clone(), name)));
            let module = path.file_stem().and_then(|stem| stem.to_str()).unwrap_or_default();
            let parent = path.parent().map(PathBuf::from).unwrap_or_default();
            let owner = [parent.join("mod.rs"), parent.with_extension("rs")].into_iter().find(|owner| files.contains_key(owner));
            if let Some(text) = owner.and_then(|owner| files.get_mut(&owner)) {
                text.rule = RULE;
                for form in [format!("pub(crate) mod {module};"), format!("pub mod {module};"), format!("mod {module};")] {
                    text.rewrite(&form, "");
                }
            }
        }
    }

    /// Leaves out what names something that is left out, until nothing does.
    ///
    /// # Errors
    ///
    /// A bracket that is not closed.
    pub fn all(&mut self, files: &mut BTreeMap<PathBuf, Text>) -> Result<(), Fault> {
        for text in files.values_mut().filter(|text| is_allocating(text)) {
            mark_allocator(text);
        }
        let mut changed = true;
        while changed {
            changed = false;
            for (path, text) in files.iter_mut() {
                text.rule = RULE;
                let count = text.live.len();
                let mut names = self.of_files.remove(path).unwrap_or_default();
                self.imports(text, &mut names);
                names.extend(self.everywhere.iter().cloned());
                pass(text, &mut names, &mut self.of_modules)?;
                self.of_files.insert(path.clone(), names);
                changed |= text.live.len() != count;
            }
        }
        Ok(())
    }

    // Drops imports of what is gone, and adds the names that they had.
    fn imports(&mut self, text: &mut Text, names: &mut BTreeSet<String>) {
        for import in imported(text) {
            let module = if import.module.is_empty() { text.module.clone() } else { import.module };
            if self.everywhere.contains(&import.name) || self.of_modules.contains(&(module, import.name)) {
                names.insert(import.alias.clone());
                if import.is_public {
                    self.of_modules.insert((text.module.clone(), import.alias));
                }
            }
        }
        drop_imports(text, &|name| names.contains(name));
    }
}

// Whether a file imports the global allocator.
fn is_allocating(text: &Text) -> bool {
    imported(text).iter().any(|import| import.module == "std" && import.name == "Global")
}

fn mark_allocator(text: &mut Text) {
    // As the type of a parameter or a field. There is a variant of this name too.
    let places: Vec<usize> = (2..text.live.len()).filter(|&at| text.is(at, "Global") && text.is(at - 1, ":") && !text.is(at - 2, ":")).collect();
    for at in places {
        text.live[at].text = ALLOCATOR.into();
    }
    text.rule = RULE;
    drop_imports(text, &|name| name == "Global");
}

// Removes the items that name something left out from a file, and adds their names.
fn pass(text: &mut Text, names: &mut BTreeSet<String>, of_modules: &mut BTreeSet<(String, String)>) -> Result<(), Fault> {
    for item in items(text, 0..text.live.len())?.into_iter().rev() {
        match word(text, item.start) {
            "use" | "mod" => {}
            "impl" => members(text, &item, names)?,
            _ if is_named(text, item.all.clone(), names) => {
                if let Some(name) = name(text, &item) {
                    of_modules.insert((text.module.clone(), name.clone()));
                    names.insert(name);
                }
                text.remove(item.all);
            }
            _ => {}
        }
    }
    Ok(())
}

// The first word after `pub` and its like.
fn word(text: &Text, start: usize) -> &str {
    let mut at = start;
    while text.is(at, "pub") || text.is(at, "(") || ["const", "unsafe"].contains(&text.at(at)) && text.is(at + 1, "fn") {
        at = if text.is(at, "(") { text.closing(at).map_or(at, |close| close) } else { at } + 1;
    }
    text.at(at)
}

fn name(text: &Text, item: &Item) -> Option<String> {
    let at = (item.start..item.all.end).find(|&at| ["fn", "struct", "enum", "trait", "type", "const"].contains(&text.at(at)) && !text.is(at + 1, "fn"))?;
    Some(text.at(at + 1).to_string())
}

fn is_named(text: &Text, range: Range<usize>, names: &BTreeSet<String>) -> bool {
    range.into_iter().any(|at| text.live[at].kind == Kind::Word && names.contains(text.at(at)) && !is_own(text, at))
}

// Whether a word belongs to something else: a field, a method, a variable, or a variant after a path.
fn is_own(text: &Text, at: usize) -> bool {
    let is_value = text.at(at).starts_with(|c: char| c.is_ascii_lowercase()) && !["(", ":"].contains(&text.at(at + 1));
    is_value
        || text.is(at + 1, ":") && !text.is(at + 2, ":")
        || at > 0 && text.is(at - 1, ".")
        || at > 1 && text.is(at - 1, ":") && text.is(at - 2, ":") && is_type(text, at)
}

// Whether the path before `::` ends in the name of a type.
fn is_type(text: &Text, at: usize) -> bool {
    at > 2 && text.at(at - 3).starts_with(|c: char| c.is_ascii_uppercase())
}

fn members(text: &mut Text, item: &Item, names: &BTreeSet<String>) -> Result<(), Fault> {
    let Some(open) = (item.start..item.all.end).find(|&at| text.is(at, "{")) else { return Ok(()) };
    if is_named(text, item.start..open, names) {
        text.remove(item.all.clone());
        return Ok(());
    }
    let close = item.all.end - 1;
    let inner = items(text, open + 1..close)?;
    let is_trait = (item.start..open).any(|at| text.is(at, "for"));
    let gone: Vec<_> = inner.into_iter().filter(|member| is_named(text, member.all.clone(), names)).collect();
    if is_trait && !gone.is_empty() {
        text.remove(item.all.clone());
        return Ok(());
    }
    for member in gone.into_iter().rev() {
        text.remove(member.all);
    }
    Ok(())
}

// The items in a range.
fn items(text: &Text, range: Range<usize>) -> Result<Vec<Item>, Fault> {
    let (mut found, mut at) = (Vec::new(), range.start);
    while at < range.end {
        let all = at;
        // Comments and attributes before it. Those of the file have an item of their own.
        while at < range.end && (text.live[at].is_comment() || text.is(at, "#")) {
            at = if text.is(at, "#") { text.closing(at + 1)? } else { at } + 1;
            if text.at(at - 1).starts_with("//!") || at < range.end && text.live[at].before.matches('\n').count() > 1 {
                break;
            }
        }
        if at == range.end || text.live[at].is_comment() || text.is(at, "#") {
            continue;
        }
        let start = at;
        let ends_in_brace = !["use", "const", "type", "static"].contains(&word(text, start));
        loop {
            match text.at(at) {
                ";" => break,
                "{" if ends_in_brace => {
                    at = text.closing(at)?;
                    break;
                }
                "(" | "[" | "{" => at = text.closing(at)?,
                _ => {}
            }
            at += 1;
            if at >= range.end {
                return Err(text.fault(start, "an item does not end"));
            }
        }
        at += 1;
        found.push(Item { all: all..at, start });
    }
    Ok(found)
}
