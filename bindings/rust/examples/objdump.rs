//! Shows the sections of the module in a file and how many items each has, as an object dump does.
use pulleynavy::{Parser, Payload, Result};

fn show(payload: &Payload<'_>) {
    let (name, range, count) = match payload {
        Payload::TypeSection(section) => ("types", section.range(), section.count()),
        Payload::ImportSection(section) => ("imports", section.range(), section.count()),
        Payload::FunctionSection(section) => ("functions", section.range(), section.count()),
        Payload::TableSection(section) => ("tables", section.range(), section.count()),
        Payload::MemorySection(section) => ("memories", section.range(), section.count()),
        Payload::TagSection(section) => ("tags", section.range(), section.count()),
        Payload::GlobalSection(section) => ("globals", section.range(), section.count()),
        Payload::ExportSection(section) => ("exports", section.range(), section.count()),
        Payload::ElementSection(section) => ("elements", section.range(), section.count()),
        Payload::DataSection(section) => ("data", section.range(), section.count()),
        Payload::CodeSectionStart { unchecked_range, count, .. } => ("code", unchecked_range.clone(), *count),
        Payload::StartSection { range, .. } => ("start", range.clone(), 1),
        Payload::DataCountSection { range, .. } => ("data count", range.clone(), 1),
        Payload::CustomSection(section) => {
            return println!("  {:10} | {:#10x} - {:#10x} | custom {:?}", "", section.range().start, section.range().end, section.name());
        }
        _ => return,
    };
    println!("  {name:10} | {:#10x} - {:#10x} | {:9} bytes | {count} count", range.start, range.end, range.end - range.start);
}

fn dump(module: &[u8]) -> Result<()> {
    for payload in Parser::new(0).parse_all(module) {
        show(&payload?);
    }
    Ok(())
}

fn main() {
    let Some(path) = std::env::args().nth(1) else {
        eprintln!("usage: objdump FILE");
        std::process::exit(2);
    };
    let module = std::fs::read(&path).unwrap_or_else(|error| panic!("{path}: {error}"));
    if let Err(error) = dump(&module) {
        eprintln!("{path}: {error}");
        std::process::exit(1);
    }
}
