//! What the crate `pulleynavy` takes of the proved sources: the parser of frames, the readers and writers of items, and edits in memory, all of which need
//! no allocator.
use crate::crates::{Erased, Sources, write_core};
use crate::leaving::Gone;
use crate::rules::module_of;
use crate::text::Text;
use crate::{Fault, honesty};
use std::path::Path;

const CRATES: [&str; 9] = ["wasm_base", "wasm_grammar", "wasm_frames", "wasm_items", "wasm_custom", "wasm_encode", "wasm_io", "wasm_streams", "wasm_edits"];

/// Of these crates only these files are taken.
const TAKEN: [(&str, &[&str]); 3] = [
    ("io", &["mod", "digits", "short_text"]),
    ("streams", &["mod", "buffer", "cursor", "parser"]),
    ("edits", &["mod", "editing", "edits", "encoding", "fates", "stripping"]),
];

/// What allocates. It is left out, with what needs it.
const ALLOCATES: [&str; 5] = ["AllocError", "AllocFailed", "Allocator", "String", "Vec"];

fn is_left_out(path: &str) -> bool {
    let (module, file) = path.split_once('/').unwrap_or_default();
    let taken = TAKEN.iter().find(|(of, _)| *of == module);
    taken.is_some_and(|(_, files)| !files.contains(&file.trim_end_matches(".rs")))
}

/// Writes the modules of the crate below a folder, whose `mod.rs` declares them.
///
/// # Errors
///
/// The first fault, or what the system says.
pub fn write(top: &Path, folder: &Path) -> Result<(), String> {
    let (erased, modules) = library(top).map_err(|fault| fault.to_string())?;
    let written = erased.write(folder).and_then(|()| write_core(folder)).and_then(|()| std::fs::write(folder.join("mod.rs"), modules));
    written.map_err(|error| format!("{}: {error}", folder.display()))
}

/// The crates that the crate takes something of.
pub fn crates() -> [&'static str; 9] {
    CRATES
}

// Returns the modules of the crate, and the items that declare them.
fn library(top: &Path) -> Result<(Erased, String), Fault> {
    let sources = Sources::new(top)?;
    let mut erased = Erased::default();
    for name in CRATES {
        sources.erase(name, "crate::proved", "", &mut erased)?;
    }
    let mut gone = Gone::new(&ALLOCATES);
    gone.files(&mut erased.files, &is_left_out);
    gone.all(&mut erased.files)?;
    let mut marked = 0;
    for (path, text) in &mut erased.files {
        marked += mark_inlined(&path.display().to_string(), text)?;
        settle(text)?;
    }
    if marked != MARKED.len() {
        return Err(Fault { path: "tools/erase/src/library.rs".into(), line: 0, why: format!("{marked} functions are marked, and not all that are listed") });
    }
    let modules = CRATES.map(|name| format!("pub(crate) mod {};\n", module_of(name)));
    Ok((erased, format!("pub(crate) mod bitflags;\n{}mod std;\n", modules.concat())))
}

// Functions that rustc should treat otherwise than it would: what the first number of most items costs is decided there.
const MARKED: [(&str, &str, &str); 3] = [
    ("base/number.rs", "number_in", "#[inline(always)]"),
    ("base/number.rs", "long_number_in", "#[cold] #[inline(never)]"),
    ("base/reader.rs", "read_septets", "#[inline(always)]"),
];

// Functions of up to this many tokens may be inlined into the caller's crate.
const SHORT: usize = 150;

// Marks functions that rustc may inline, and those of the list. Returns how many are of the list.
fn mark_inlined(path: &str, text: &mut Text) -> Result<usize, Fault> {
    let mut count = 0;
    text.rule = "inlined";
    let functions: Vec<usize> = (0..text.live.len()).filter(|&at| text.is(at, "fn") && !text.is(at + 1, "(")).collect();
    for at in functions.into_iter().rev() {
        let start = function_start(text, at);
        let is_marked = start > 0 && text.is(start - 1, "]") && (start.saturating_sub(8)..start).any(|before| ["inline", "cold"].contains(&text.at(before)));
        let marked = MARKED.iter().find(|(file, name, _)| *file == path && text.is(at + 1, name));
        if let Some((_, _, mark)) = marked.filter(|_| !is_marked) {
            text.write_line(start, mark);
            count += 1;
        } else if !is_marked && length(text, at)?.is_some_and(|length| length <= SHORT) {
            text.write_line(start, "#[inline]");
        }
    }
    Ok(count)
}

// Where a function begins, before `pub` and its like.
fn function_start(text: &Text, at: usize) -> usize {
    let mut start = at;
    while start > 0 {
        start = match text.at(start - 1) {
            "pub" | "const" => start - 1,
            ")" if text.is(start - 4, "pub") => start - 4,
            _ => return start,
        };
    }
    start
}

// How many tokens a function has, if it has a body.
fn length(text: &Text, at: usize) -> Result<Option<usize>, Fault> {
    let mut end = at;
    while !["{", ";", ""].contains(&text.at(end)) {
        end = if ["(", "["].contains(&text.at(end)) { text.closing(end)? } else { end } + 1;
    }
    if text.is(end, "{") { Ok(Some(text.closing(end)? - at)) } else { Ok(None) }
}

// Drops the imports that nothing needs any more, and checks the result.
fn settle(text: &mut Text) -> Result<(), Fault> {
    for rule in crate::rules::rules().filter(|rule| rule.name == "imports") {
        text.rule = rule.name;
        (rule.apply)(text)?;
    }
    honesty::check(text).map(|_| ())
}
