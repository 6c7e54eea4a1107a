//! Prints how many bytes each section of a module takes, largest first, and the share of the custom sections.
//!
//! It uses the names of `wasmparser` alone: with that crate in the manifest it compiles as it is.
use std::error::Error;
use wasmparser::{Parser, Payload};

/// The names of sections by id.
const NAMES: [&str; 14] =
    ["custom", "type", "import", "function", "table", "memory", "global", "export", "start", "element", "code", "data", "data count", "tag"];

pub struct Section {
    pub name: String,
    pub size: u64,
    pub items: Option<u32>,
}

fn items(payload: &Payload<'_>) -> Option<u32> {
    Some(match payload {
        Payload::TypeSection(section) => section.count(),
        Payload::ImportSection(section) => section.count(),
        Payload::FunctionSection(section) => section.count(),
        Payload::TableSection(section) => section.count(),
        Payload::MemorySection(section) => section.count(),
        Payload::TagSection(section) => section.count(),
        Payload::GlobalSection(section) => section.count(),
        Payload::ExportSection(section) => section.count(),
        Payload::ElementSection(section) => section.count(),
        Payload::DataSection(section) => section.count(),
        Payload::CodeSectionStart { count, .. } => *count,
        _ => return None,
    })
}

pub fn sections(module: &[u8]) -> Result<Vec<Section>, wasmparser::BinaryReaderError> {
    let mut sections = Vec::new();
    for payload in Parser::new(0).parse_all(module) {
        let payload = payload?;
        let Some((id, range)) = payload.as_section() else { continue };
        let name = match &payload {
            Payload::CustomSection(section) => format!("custom {:?}", section.name()),
            _ => NAMES.get(usize::from(id)).map_or_else(|| format!("unknown {id}"), |name| name.to_string()),
        };
        sections.push(Section { name, size: range.end - range.start, items: items(&payload) });
    }
    Ok(sections)
}

fn main() -> Result<(), Box<dyn Error>> {
    let path = std::env::args().nth(1).ok_or("usage: sizes FILE")?;
    let module = std::fs::read(path)?;
    let mut sections = sections(&module)?;
    sections.sort_by_key(|section| std::cmp::Reverse(section.size));
    for section in &sections {
        let items = section.items.map_or_else(String::new, |count| format!("{count} items"));
        println!("{:>10}  {:5.1}%  {:24} {items}", section.size, 100.0 * section.size as f64 / module.len() as f64, section.name);
    }
    let custom: u64 = sections.iter().filter(|section| section.name.starts_with("custom")).map(|section| section.size).sum();
    println!("{custom:>10}  of {} bytes in custom sections", module.len());
    Ok(())
}
