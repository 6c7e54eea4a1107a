//! What is read, as the texts of `tools/golden.jsonl`.
#![allow(dead_code)]
pub mod customs;
pub mod items;

use pulleynavy::*;
use std::fmt::Write;
use std::ops::Range;

/// What an item says, as a text.
pub trait Show {
    fn show(&self) -> String;
}

/// The bytes of a hexadecimal text, in which `M` is the header of a module.
pub fn bytes(text: &str) -> Vec<u8> {
    let digits = text.replace('M', "0061736d01000000").replace(char::is_whitespace, "");
    (0..digits.len()).step_by(2).map(|at| u8::from_str_radix(&digits[at..at + 2], 16).unwrap()).collect()
}

pub fn hex(bytes: &[u8]) -> String {
    bytes.iter().fold(String::from("x"), |mut text, byte| {
        write!(text, "{byte:02x}").unwrap();
        text
    })
}

pub fn fault(error: &Error) -> String {
    let number = error.number().map_or(String::new(), |number| format!(": {number}"));
    format!("fault {} {}{number}", error.offset(), error.fault().message())
}

pub fn range(range: Range<u64>) -> String {
    format!("{}..{}", range.start, range.end)
}

pub fn option<T: ToString>(value: Option<T>) -> String {
    value.map_or("-".to_owned(), |value| value.to_string())
}

/// Texts with a space after each.
pub fn joined(texts: impl Iterator<Item = String>) -> String {
    texts.fold(String::new(), |all, text| all + &text + " ")
}

/// A sequence of numbers that look random.
pub struct Random(u64);

impl Random {
    pub fn new() -> Random {
        Random(0x9e37_79b9_7f4a_7c15)
    }

    pub fn below(&mut self, bound: usize) -> usize {
        self.0 ^= self.0 << 13;
        self.0 ^= self.0 >> 7;
        self.0 ^= self.0 << 17;
        (self.0 >> 11) as usize % bound
    }
}

/// How many random inputs a test reads: `PULLEYNAVY_INPUTS` sets it.
pub fn inputs(usual: usize) -> usize {
    std::env::var("PULLEYNAVY_INPUTS").map_or(usual, |count| count.parse().unwrap())
}

/// A result as a text, or its fault.
pub fn text_of<T>(result: Result<T>, show: impl FnOnce(T) -> String) -> String {
    result.map_or_else(|error| fault(&error), show)
}

/// A list that has no fault.
pub fn owned<T: Show>(items: impl IntoIterator<Item = T>) -> String {
    format!("[{}]", joined(items.into_iter().map(|item| item.show())))
}

/// The range, the count and the items of a list, each item after its offset.
pub fn listed<'a, T: FromReader<'a> + Show>(list: SectionLimited<'a, T>) -> String {
    let head = format!("{} #{}", range(list.range()), list.count());
    head + "[" + &joined(list.into_iter_with_offsets().map(|item| text_of(item, |(at, item)| format!("{at}:{}", item.show())))) + "]"
}

/// What an item is read as, and how many bytes it takes.
pub fn item<'a, T: FromReader<'a> + Show>(mut reader: BinaryReader<'a>) -> Result<String> {
    let item: T = reader.read()?;
    Ok(format!("{} used {}", item.show(), reader.current_position()))
}

/// What counted items are read as.
pub fn section<'a, T: FromReader<'a> + Show>(reader: BinaryReader<'a>) -> Result<String> {
    SectionLimited::<T>::new(reader).map(listed)
}

/// What imports are read as, whatever groups they are in.
pub fn flat(reader: BinaryReader<'_>) -> Result<String> {
    let imports = ImportSectionReader::new(reader)?.into_imports_with_offsets();
    Ok(joined(imports.map(|import| text_of(import, |(at, import)| format!("{at}:{}", import.show())))))
}

/// What bytes are read as.
pub type Reader = for<'a> fn(BinaryReader<'a>) -> Result<String>;

/// Asserts what readers make of bytes at an offset: a text, or that of their fault.
pub fn agree_at(rows: &[(Reader, &str, &str)], offset: u64, features: WasmFeatures) {
    for (read, digits, text) in rows {
        let bytes = bytes(digits);
        assert_eq!(text_of(read(BinaryReader::new_features(&bytes, offset, features)), |text| text), *text, "{digits}");
    }
}

/// Like the function above, at offset 0 and with all features.
pub fn agree(rows: &[(Reader, &str, &str)]) {
    agree_at(rows, 0, WasmFeatures::all());
}

/// The line of a payload.
pub fn event(payload: &Payload<'_>) -> String {
    let count = match payload {
        Payload::TypeSection(section) => section.count(),
        Payload::ImportSection(section) => section.count(),
        Payload::FunctionSection(section) => section.count(),
        Payload::TableSection(section) => section.count(),
        Payload::MemorySection(section) => section.count(),
        Payload::GlobalSection(section) => section.count(),
        Payload::ExportSection(section) => section.count(),
        Payload::ElementSection(section) => section.count(),
        Payload::DataSection(section) => section.count(),
        Payload::TagSection(section) => section.count(),
        other => return uncounted(other),
    };
    let (id, range) = payload.as_section().unwrap();
    format!("section {id} {} {} {count}", range.start, range.end)
}

fn uncounted(payload: &Payload<'_>) -> String {
    let place = |range: &Range<u64>| format!("{} {}", range.start, range.end);
    match payload {
        Payload::Version { num, encoding, range } => format!("version {} {num} {}", place(range), format!("{encoding:?}").to_lowercase()),
        Payload::StartSection { func, range } => format!("start {} {func}", place(range)),
        Payload::DataCountSection { count, range } => format!("datacount {} {count}", place(range)),
        Payload::CodeSectionStart { count, unchecked_range, size } => format!("code {} {count} {size}", place(unchecked_range)),
        Payload::CodeSectionEntry(body) => format!("body {}", place(&body.range())),
        Payload::CustomSection(section) => format!("custom {} {}", place(&section.range()), section.data_offset()),
        Payload::UnknownSection { id, range, .. } => format!("unknown {id} {}", place(range)),
        Payload::End(offset) => format!("end {offset}"),
        other => panic!("{other:?}"),
    }
}

/// The lines of the payloads of a whole stream, the last of them its end or its fault.
pub fn events(stream: &[u8]) -> Vec<String> {
    Parser::new(0).parse_all(stream).map(|payload| text_of(payload, |payload| event(&payload))).collect()
}

/// What a call of `parse` returns, as a text.
pub fn outcome(result: Result<Chunk<'_>>) -> String {
    text_of(result, |chunk| match chunk {
        Chunk::NeedMoreData(hint) => format!("need {hint}"),
        Chunk::Parsed { payload, .. } => event(&payload),
    })
}

/// The stream and the lines of a row of `tools/golden.jsonl`, which has no escapes.
fn golden_row(line: &str) -> (Vec<u8>, Vec<String>) {
    let stream = bytes(line.split("\"hex\": \"").nth(1).unwrap().split('"').next().unwrap());
    let lines = line.split("\"lines\": ").nth(1).unwrap().split('"').skip(1).step_by(2).map(str::to_owned).collect();
    (stream, lines)
}

/// The streams of `tools/golden.jsonl`, or of the file that `PULLEYNAVY_GOLDEN` names, with their lines.
pub fn golden() -> Vec<(Vec<u8>, Vec<String>)> {
    let usual = concat!(env!("CARGO_MANIFEST_DIR"), "/../../tools/golden.jsonl").to_owned();
    let text = std::fs::read_to_string(std::env::var("PULLEYNAVY_GOLDEN").unwrap_or(usual)).unwrap();
    let rows: Vec<_> = text.lines().map(golden_row).collect();
    assert!(rows.len() > 400);
    rows
}
