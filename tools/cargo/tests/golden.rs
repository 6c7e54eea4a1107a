//! The events that `wasmparser` gives for the streams of `tools/golden.jsonl`. The crate's own tests compare the items too.
use pulleynavy_program::parser::{Error, Parser, Payload};
use std::fs;
use std::ops::Range;
use std::path::Path;

fn place(range: &Range<u64>) -> String {
    format!("{} {}", range.start, range.end)
}

fn fault(error: &Error) -> String {
    let number = error.number().map_or(String::new(), |number| format!(": {number}"));
    format!("fault {} {}{number}", error.offset(), error.message())
}

/// The line of a payload.
fn event(payload: &Payload<'_>) -> String {
    match payload {
        Payload::Version { num, encoding, range } => format!("version {} {num} {}", place(range), format!("{encoding:?}").to_lowercase()),
        Payload::StartSection { func, range } => format!("start {} {func}", place(range)),
        Payload::DataCountSection { count, range } => format!("datacount {} {count}", place(range)),
        Payload::CodeSectionStart { count, unchecked_range, size } => format!("code {} {count} {size}", place(unchecked_range)),
        Payload::CodeSectionEntry(body) => format!("body {}", place(&body.range())),
        Payload::CustomSection(section) => format!("custom {} {}", place(&section.range()), section.data_offset()),
        Payload::UnknownSection { id, range, .. } => format!("unknown {id} {}", place(range)),
        Payload::End(offset) => format!("end {offset}"),
        counted => {
            let (id, range) = counted.as_section().expect("a section");
            format!("section {id} {} {}", place(&range), count(counted))
        }
    }
}

fn count(payload: &Payload<'_>) -> u32 {
    match payload {
        Payload::TypeSection(section) => section.count(),
        Payload::ImportSection(section) => section.count(),
        Payload::FunctionSection(section) => section.count(),
        Payload::TableSection(section) => section.count(),
        Payload::MemorySection(section) => section.count(),
        Payload::GlobalSection(section) => section.count(),
        Payload::ExportSection(section) => section.count(),
        Payload::ElementSection(section) => section.count(),
        Payload::DataSection(section) => section.count(),
        Payload::TagSection(section) => section.count(),
        _ => panic!("no count"),
    }
}

/// The stream and the lines of a row, which has no escapes.
fn row(line: &str) -> (Vec<u8>, Vec<String>) {
    let digits = line.split("\"hex\": \"").nth(1).and_then(|rest| rest.split('"').next()).expect("a stream");
    let lines = line.split("\"lines\": ").nth(1).expect("lines").split('"').skip(1).step_by(2);
    // Lines of items are indented.
    let events = lines.filter(|line| !line.starts_with(' ')).map(str::to_owned).collect();
    ((0..digits.len()).step_by(2).map(|at| u8::from_str_radix(&digits[at..at + 2], 16).expect("digits")).collect(), events)
}

#[test]
fn golden_streams() {
    let path = Path::new(env!("CARGO_MANIFEST_DIR")).join("tools/golden.jsonl");
    let text = fs::read_to_string(path).expect("the streams");
    assert!(text.lines().count() > 400);
    for line in text.lines() {
        let (stream, wanted) = row(line);
        let payloads = Parser::new(0).parse_all(&stream);
        let found: Vec<String> = payloads.map(|payload| payload.map_or_else(|error| fault(&error), |payload| event(&payload))).collect();
        assert_eq!(found, wanted, "{line}");
    }
}
