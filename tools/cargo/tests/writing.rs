//! Modules that are read and written again, and random ones. `tools/compare writing` compares them with the models.
#[path = "../again.rs"]
mod again;
#[path = "../modules.rs"]
mod modules;

use again::again;
use modules::{Random, made};
use pulleynavy_program::parser::{Parser, Payload};
use std::fs;
use std::path::Path;

/// The streams of `tools/golden.jsonl`.
fn golden() -> Vec<Vec<u8>> {
    let path = Path::new(env!("CARGO_MANIFEST_DIR")).join("tools/golden.jsonl");
    let text = fs::read_to_string(path).expect("the streams");
    let digits = text.lines().map(|line| line.split('"').nth(3).expect("a stream").to_owned());
    digits.map(|digits| (0..digits.len() / 2).map(|at| u8::from_str_radix(&digits[2 * at..2 * at + 2], 16).expect("digits")).collect()).collect()
}

/// The id and the count of each section with a count.
fn sections(stream: &[u8]) -> Vec<(u8, u32)> {
    let payloads = Parser::new(0).parse_all(stream).map(|payload| payload.expect("a payload"));
    let section = |payload| match payload {
        Payload::TypeSection(section) => Some((1, section.count())),
        Payload::ImportSection(section) => Some((2, section.count())),
        Payload::FunctionSection(section) => Some((3, section.count())),
        Payload::TableSection(section) => Some((4, section.count())),
        Payload::MemorySection(section) => Some((5, section.count())),
        Payload::GlobalSection(section) => Some((6, section.count())),
        Payload::ExportSection(section) => Some((7, section.count())),
        Payload::ElementSection(section) => Some((9, section.count())),
        Payload::CodeSectionStart { count, .. } => Some((10, count)),
        Payload::DataSection(section) => Some((11, section.count())),
        Payload::TagSection(section) => Some((13, section.count())),
        _ => None,
    };
    payloads.filter_map(section).collect()
}

/// A module that is written again has the same sections in as many bytes or fewer, and writing that one again changes nothing.
#[test]
fn golden_streams() {
    let (mut written, mut same) = (0, 0);
    for stream in golden() {
        let Ok(bytes) = again(&stream) else { continue };
        assert!(bytes.len() <= stream.len());
        assert_eq!(sections(&bytes), sections(&stream));
        assert_eq!(again(&bytes).as_ref(), Ok(&bytes));
        written += 1;
        same += u32::from(bytes == stream);
    }
    assert!(written > 50 && same > 30, "{written} streams are written, {same} as they are");
}

/// A module that the writer has written has the sections that were added, and is written again as it is.
#[test]
fn random_modules() {
    for seed in 0..500 {
        let made = made(&mut Random::new(seed));
        assert_eq!(sections(&made.bytes), made.sections, "seed {seed}");
        assert_eq!(again(&made.bytes).as_ref(), Ok(&made.bytes), "seed {seed}");
    }
}
