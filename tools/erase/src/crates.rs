//! The crates of a checkout as modules of one crate.
use crate::honesty::Counts;
use crate::rules::module_of;
use crate::text::Text;
use crate::{Fault, erase};
use std::collections::{BTreeMap, HashSet};
use std::ffi::OsStr;
use std::fs;
use std::path::{Path, PathBuf};
use std::rc::Rc;

/// The sources of a checkout.
pub struct Sources {
    top: PathBuf,
    // The crates in reading order, each with its libraries.
    uses: Vec<(String, Vec<String>)>,
    traits: Rc<HashSet<String>>,
}

/// The erased files by their paths below a folder of modules, and what the rules removed and wrote.
#[derive(Default)]
pub struct Erased {
    pub files: BTreeMap<PathBuf, Text>,
    pub counts: Counts,
}

fn read(path: &Path) -> Result<String, Fault> {
    fs::read_to_string(path).map_err(|error| Fault { path: path.display().to_string(), line: 0, why: error.to_string() })
}

// The `.rt` files below a folder, in order.
fn files(folder: &Path) -> Result<Vec<PathBuf>, Fault> {
    let entries = fs::read_dir(folder).map_err(|error| Fault { path: folder.display().to_string(), line: 0, why: error.to_string() })?;
    let mut found = Vec::new();
    for path in entries.flatten().map(|entry| entry.path()) {
        if path.is_dir() {
            found.extend(files(&path)?);
        } else if path.extension().is_some_and(|end| end == "rt") {
            found.push(path);
        }
    }
    found.sort();
    Ok(found)
}

// The word that a text begins with.
fn word(text: &str) -> &str {
    text.split(|c: char| c != '_' && !c.is_ascii_alphanumeric()).next().unwrap_or_default()
}

impl Sources {
    /// Reads `crates.txt`, which lists the crates and their libraries.
    pub fn new(top: &Path) -> Result<Sources, Fault> {
        let list = read(&top.join("crates.txt"))?;
        let lines = list.lines().filter(|line| !line.starts_with('#')).filter_map(|line| line.split_once(':'));
        let split = |text: &str| text.split_whitespace().map(str::to_string).collect::<Vec<_>>();
        let uses: Vec<_> = lines.filter_map(|(name, libraries)| Some((split(name).first()?.clone(), split(libraries)))).collect();
        let mut sources = Sources { top: top.into(), uses, traits: Rc::default() };
        let mut traits = HashSet::new();
        for name in sources.names() {
            for path in files(&sources.folder(name))? {
                let text = read(&path)?;
                traits.extend(text.lines().filter_map(|line| line.split_once("trait ")).map(|(_, rest)| word(rest).to_string()));
            }
        }
        sources.traits = Rc::new(traits);
        Ok(sources)
    }

    /// The crates, in reading order.
    pub fn names(&self) -> impl Iterator<Item = &str> {
        self.uses.iter().map(|(name, _)| name.as_str())
    }

    /// The folder of a crate's sources.
    pub fn folder(&self, name: &str) -> PathBuf {
        self.top.join("crates").join(name).join("src")
    }

    // The modules whose names an example of a crate sees: its own, its libraries', and those that re-export its names.
    fn seen(&self, name: &str) -> Result<Vec<String>, Fault> {
        let libraries = self.uses.iter().find(|(of, _)| of == name).map_or(&[][..], |(_, libraries)| libraries);
        let mut seen = vec![module_of(name).to_string()];
        seen.extend(libraries.iter().filter(|library| *library != "test_devices").map(|library| module_of(library).to_string()));
        for (other, _) in &self.uses {
            let root = self.folder(other).join("lib.rt");
            if root.exists() && read(&root)?.contains(&format!("pub use {name}::")) {
                seen.push(module_of(other).into());
            }
        }
        seen.dedup();
        Ok(seen)
    }

    /// Erases a crate: `root` is the path of the module that has its module, and `library` what its examples call the crate with it.
    pub fn erase(&self, name: &str, root: &str, library: &str, into: &mut Erased) -> Result<(), Fault> {
        let folder = self.folder(name);
        let seen = self.seen(name)?;
        for path in files(&folder)? {
            let inner = path.strip_prefix(&folder).unwrap_or(&path).with_extension("rs");
            // Modules of laws go as a whole.
            if inner.file_stem().is_some_and(|stem| stem == "laws") {
                continue;
            }
            let is_root = ["lib.rs", "main.rs"].iter().any(|root| inner == Path::new(root));
            let shown = path.strip_prefix(&self.top).unwrap_or(&path).display().to_string();
            let mut text = Text::new(&shown, module_of(name), is_root, &read(&path)?)?;
            text.sees.clone_from(&seen);
            text.traits = Rc::clone(&self.traits);
            text.root = root.into();
            text.library = library.into();
            for (rule, (removed, written)) in erase(&mut text)? {
                let count = into.counts.entry(rule).or_default();
                *count = (count.0 + removed, count.1 + written);
            }
            let inner = if is_root { PathBuf::from("mod.rs") } else { inner };
            into.files.insert(Path::new(module_of(name)).join(inner), text);
        }
        Ok(())
    }
}

impl Erased {
    /// Writes the files below a folder.
    pub fn write(&self, folder: &Path) -> std::io::Result<()> {
        for (path, text) in &self.files {
            let path = folder.join(path);
            fs::create_dir_all(path.parent().unwrap_or(folder))?;
            fs::write(path, text.rendered())?;
        }
        Ok(())
    }
}

/// Writes the modules that the erased sources take for `std` and `bitflags`.
pub fn write_std(folder: &Path) -> std::io::Result<()> {
    for entry in fs::read_dir(stand_in())? {
        let name = entry?.file_name();
        if name != "core.rs" && name != "bitflags.rs" {
            copy(&name, &folder.join("std").join(&name))?;
        }
    }
    copy("bitflags.rs".as_ref(), &folder.join("bitflags.rs"))
}

/// Writes those of these modules that need no allocator and no system.
pub fn write_core(folder: &Path) -> std::io::Result<()> {
    copy("bitflags.rs".as_ref(), &folder.join("bitflags.rs"))?;
    copy("core.rs".as_ref(), &folder.join("std").join("mod.rs"))?;
    ["convert.rs", "simd.rs"].into_iter().try_for_each(|name| copy(name.as_ref(), &folder.join("std").join(name)))
}

// The folder of these modules.
fn stand_in() -> PathBuf {
    Path::new(env!("CARGO_MANIFEST_DIR")).join("std")
}

fn copy(name: &OsStr, to: &Path) -> std::io::Result<()> {
    fs::create_dir_all(to.parent().unwrap_or(to))?;
    fs::copy(stand_in().join(name), to).map(|_| ())
}
