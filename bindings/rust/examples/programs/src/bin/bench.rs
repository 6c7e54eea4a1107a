//! Reads the module on standard input as the benchmark `benches/` does. Each argument is a way: `parse`, `parse_all`, `items` or `indices`. Prints its
//! name, how many events or items there were, a checksum, and the nanoseconds of the fastest of the rounds of a second.
//!
//! `tools/bench tables --original FOLDER` builds it over the source of `wasmparser`, with link-time optimization, and counts its instructions.
#![allow(clippy::unnecessary_cast)]
use std::io::Read;
use std::time::{Duration, Instant};
use wasmparser::{
    Chunk, CustomSectionReader, ElementItems, ElementSectionReader, Import, KnownCustom, Linking, Name, Parser, Payload, Result, SymbolInfo, TypeRef,
};

/// How much was read, and a checksum of what was seen of it.
#[derive(Default)]
struct Tally {
    count: u64,
    sum: u64,
}

impl Tally {
    fn add(&mut self, seen: u64) {
        self.count += 1;
        self.sum = self.sum.wrapping_add(seen);
    }

    fn walk<T>(&mut self, items: impl IntoIterator<Item = Result<T>>, look: impl Fn(T) -> u64) -> Result<()> {
        for item in items {
            self.add(look(item?));
        }
        Ok(())
    }
}

#[inline(never)]
fn see(payload: &Payload<'_>) -> u64 {
    match payload {
        Payload::CodeSectionEntry(body) => body.range().start as u64 ^ body.range().end as u64,
        Payload::CustomSection(section) => section.data_offset() as u64 ^ section.range().end as u64,
        _ => match payload.as_section() {
            Some((id, range)) => u64::from(id) ^ range.start as u64 ^ range.end as u64,
            None => 0,
        },
    }
}

/// Reads a whole stream part by part.
#[unsafe(no_mangle)]
#[inline(never)]
fn original_parse(bytes: &[u8]) -> Result<Tally> {
    let (mut tally, mut parser, mut rest) = (Tally::default(), Parser::new(0), bytes);
    loop {
        let Chunk::Parsed { consumed, payload } = parser.parse(rest, true)? else { unreachable!() };
        tally.add(see(&payload));
        if let Payload::End(_) = payload {
            return Ok(tally);
        }
        rest = &rest[consumed..];
    }
}

/// Walks over all payloads of a whole stream.
#[unsafe(no_mangle)]
#[inline(never)]
fn original_parse_all(bytes: &[u8]) -> Result<Tally> {
    let mut tally = Tally::default();
    for payload in Parser::new(0).parse_all(bytes) {
        tally.add(see(&payload?));
    }
    Ok(tally)
}

/// Walks over the items of each section. Lists in segments are walked too where `lists` says so, in place of the segments.
#[unsafe(no_mangle)]
#[inline(never)]
fn original_items(bytes: &[u8], lists: bool) -> Result<Tally> {
    let mut tally = Tally::default();
    for payload in Parser::new(0).parse_all(bytes) {
        walk_payload(payload?, lists, &mut tally)?;
    }
    Ok(tally)
}

fn walk_payload(payload: Payload<'_>, lists: bool, tally: &mut Tally) -> Result<()> {
    match payload {
        Payload::TypeSection(types) => tally.walk(types, |group| group.types().len() as u64),
        Payload::ImportSection(imports) => tally.walk(imports.into_imports(), see_import),
        Payload::FunctionSection(functions) => tally.walk(functions, u64::from),
        Payload::GlobalSection(globals) => tally.walk(globals, |global| {
            let range = global.init_expr.get_binary_reader().range();
            u64::from(global.ty.mutable) ^ range.start as u64 ^ range.end as u64
        }),
        Payload::ExportSection(exports) => tally.walk(exports, |export| u64::from(export.index) ^ export.name.len() as u64),
        Payload::ElementSection(segments) if lists => walk_lists(segments, tally),
        Payload::ElementSection(segments) => tally.walk(segments, |segment| segment.range.start as u64 ^ segment.range.end as u64),
        Payload::DataSection(segments) => tally.walk(segments, |segment| segment.range.start as u64 ^ segment.range.end as u64),
        Payload::CustomSection(section) => walk_custom(section, tally),
        _ => Ok(()),
    }
}

fn see_import(import: Import<'_>) -> u64 {
    let lengths = import.module.len() as u64 ^ import.name.len() as u64;
    match import.ty {
        TypeRef::Func(index) => lengths ^ u64::from(index),
        _ => lengths,
    }
}

fn walk_lists(segments: ElementSectionReader<'_>, tally: &mut Tally) -> Result<()> {
    for segment in segments {
        match segment?.items {
            ElementItems::Functions(indices) => tally.walk(indices, u64::from)?,
            ElementItems::Expressions(_, list) => tally.walk(list, |expression| {
                let range = expression.get_binary_reader().range();
                range.start as u64 ^ range.end as u64
            })?,
        }
    }
    Ok(())
}

/// Walks over the names of functions, symbols, or relocations.
fn walk_custom(section: CustomSectionReader<'_>, tally: &mut Tally) -> Result<()> {
    match section.as_known() {
        KnownCustom::Name(names) => {
            for name in names {
                if let Name::Function(names) = name? {
                    tally.walk(names, |naming| u64::from(naming.index) ^ naming.name.len() as u64)?;
                }
            }
        }
        KnownCustom::Linking(section) => {
            for subsection in section.subsections() {
                if let Linking::SymbolTable(symbols) = subsection? {
                    tally.walk(symbols, see_symbol)?;
                }
            }
        }
        KnownCustom::Reloc(section) => {
            tally.walk(section.entries(), |entry| u64::from(entry.offset) ^ u64::from(entry.index) ^ entry.ty as u64)?;
        }
        _ => {}
    }
    Ok(())
}

fn see_symbol(symbol: SymbolInfo<'_>) -> u64 {
    match symbol {
        SymbolInfo::Func { flags, index, name } => u64::from(flags.bits() ^ index) ^ name.unwrap_or("").len() as u64,
        _ => 0,
    }
}

fn read(way: &str, bytes: &[u8]) -> Result<Tally> {
    match way {
        "parse" => original_parse(bytes),
        "parse_all" => original_parse_all(bytes),
        _ => original_items(bytes, way == "indices"),
    }
}

fn main() -> std::result::Result<(), Box<dyn std::error::Error>> {
    let mut bytes = Vec::new();
    std::io::stdin().read_to_end(&mut bytes)?;
    for way in std::env::args().skip(1) {
        let (first, mut least, mut tally) = (Instant::now(), Duration::MAX, Tally::default());
        while least == Duration::MAX || first.elapsed() < Duration::from_secs(1) {
            let start = Instant::now();
            tally = read(&way, &bytes).map_err(|error| error.to_string())?;
            least = least.min(start.elapsed());
        }
        println!("{way} {} {} {}", tally.count, tally.sum, least.as_nanos());
    }
    Ok(())
}
