//! What `wasmparser` 0.263.0 says of the streams of `tools/golden.jsonl`, event by event and item by item.
mod common;

use common::customs::known;
use common::{Show, event, fault, golden, hex, text_of};
use pulleynavy::*;

/// The items of a section, each as a line.
fn items<T: Show>(items: impl Iterator<Item = Result<(u64, T)>>) -> Vec<String> {
    items.map(|item| format!("  {}", text_of(item, |(at, item)| format!("{at} {}", item.show())))).collect()
}

/// The lines below that of a payload.
fn below(payload: Payload<'_>) -> Vec<String> {
    match payload {
        Payload::TypeSection(section) => items(section.into_iter_with_offsets()),
        Payload::ImportSection(section) => items(section.into_imports_with_offsets()),
        Payload::FunctionSection(section) => items(section.into_iter_with_offsets()),
        Payload::TableSection(section) => items(section.into_iter_with_offsets()),
        Payload::MemorySection(section) => items(section.into_iter_with_offsets()),
        Payload::TagSection(section) => items(section.into_iter_with_offsets()),
        Payload::GlobalSection(section) => items(section.into_iter_with_offsets()),
        Payload::ExportSection(section) => items(section.into_iter_with_offsets()),
        Payload::ElementSection(section) => items(section.into_iter_with_offsets()),
        Payload::DataSection(section) => items(section.into_iter_with_offsets()),
        Payload::CustomSection(section) => vec![format!("  {} {}", section.name().show(), known(&section))],
        _ => vec![],
    }
}

fn listing(stream: &[u8]) -> Vec<String> {
    let mut lines = vec![];
    for payload in Parser::new(0).parse_all(stream) {
        match payload {
            Ok(payload) => {
                lines.push(event(&payload));
                lines.append(&mut below(payload));
            }
            Err(error) => lines.push(fault(&error)),
        }
    }
    lines
}

#[test]
fn golden_streams() {
    for (stream, lines) in golden() {
        assert_eq!(listing(&stream), lines, "{}", hex(&stream));
    }
}
