//! Prints the relocations of an object file with the symbols that they refer to.
//!
//! It uses the names of `wasmparser` alone: with that crate in the manifest it compiles as it is.
use std::error::Error;
use wasmparser::{KnownCustom, Linking, Parser, Payload, RelocAddendKind, RelocationEntry, RelocationType, SymbolFlags, SymbolInfo};

/// The text of a symbol: its kind, its name if it has one, and its flags.
fn symbol(symbol: &SymbolInfo<'_>) -> String {
    let (kind, flags, name) = match *symbol {
        SymbolInfo::Func { flags, index, name } => ("func", flags, name.map_or_else(|| index.to_string(), str::to_owned)),
        SymbolInfo::Data { flags, name, .. } => ("data", flags, name.to_owned()),
        SymbolInfo::Global { flags, index, name } => ("global", flags, name.map_or_else(|| index.to_string(), str::to_owned)),
        SymbolInfo::Section { flags, section } => ("section", flags, section.to_string()),
        SymbolInfo::Event { flags, index, name } => ("event", flags, name.map_or_else(|| index.to_string(), str::to_owned)),
        SymbolInfo::Table { flags, index, name } => ("table", flags, name.map_or_else(|| index.to_string(), str::to_owned)),
    };
    let state = if flags.contains(SymbolFlags::UNDEFINED) { ", undefined" } else { "" };
    let names: Vec<_> = (flags - SymbolFlags::UNDEFINED).iter_names().map(|(name, _)| name).collect();
    format!("{kind} {name}{state}{}{}", if names.is_empty() { "" } else { ", " }, names.join(" | "))
}

/// What a relocation refers to: a symbol, or for one type a type index.
fn target(entry: &RelocationEntry, symbols: &[SymbolInfo<'_>]) -> String {
    match (entry.ty, symbols.get(entry.index as usize)) {
        (RelocationType::TypeIndexLeb, _) => format!("type {}", entry.index),
        (_, Some(one)) => symbol(one),
        (_, None) => format!("symbol {}, which is missing", entry.index),
    }
}

pub fn show(bytes: &[u8]) -> wasmparser::Result<()> {
    let (mut sections, mut symbols, mut relocations) = (Vec::new(), Vec::new(), Vec::new());
    for payload in Parser::new(0).parse_all(bytes) {
        let payload = payload?;
        if let Some((id, range)) = payload.as_section() {
            sections.push((id, range));
        }
        let Payload::CustomSection(section) = payload else { continue };
        match section.as_known() {
            KnownCustom::Linking(linking) => {
                for subsection in linking.subsections() {
                    if let Linking::SymbolTable(table) = subsection? {
                        symbols = table.into_iter().collect::<Result<Vec<_>, _>>()?;
                    }
                }
            }
            KnownCustom::Reloc(section) => relocations.push(section),
            _ => {}
        }
    }
    println!("{} symbols", symbols.len());
    for section in relocations {
        let start = sections.get(section.section_index() as usize).map_or(0, |(_, range)| range.start);
        println!("section {}: {} relocations", section.section_index(), section.entries().count());
        for entry in section.entries() {
            let entry = entry?;
            let addend = if entry.ty.addend_kind() == RelocAddendKind::None { String::new() } else { format!(" {:+}", entry.addend) };
            println!("  {:#08x}  {:22} {}{addend}", start + u64::from(entry.offset), format!("{:?}", entry.ty), target(&entry, &symbols));
        }
    }
    Ok(())
}

fn main() -> Result<(), Box<dyn Error>> {
    let path = std::env::args().nth(1).ok_or("usage: relocations FILE")?;
    Ok(show(&std::fs::read(path)?)?)
}
