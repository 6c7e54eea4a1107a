// Reads the items of a stream's sections.
use crate::tally::Tally;
use bitflags::Flags;
use std::alloc::Global;
use std::ops::Range;
use wasm_base::Result;
use wasm_custom::{
    CustomSectionReader, KnownCustom, Linking, LinkingSectionReader, Name, NameSectionReader,
    Naming, RelocationEntry, SymbolInfo,
};
use wasm_items::{
    ConstExpr, Data, Element, ElementItems, ElementSectionReader, Export, Global as GlobalItem,
    Import, ImportSection, RecGroup, TypeRef,
};
use wasm_parser::{Parser, Payload};

/// Reads the items of each section. With `lists`, counts the items of element segments instead of the segments.
#[inline(never)]
pub(crate) fn walk_items(alloc: Global, bytes: &[u8], lists: bool) -> Result<Tally> {
    let mut tally = Tally::new();
    for payload in Parser::new(0).parse_all(bytes) {
        walk_payload(alloc, payload?, lists, &mut tally)?;
    }
    Ok(tally)
}

// In place, as a call would move each payload.
#[inline(always)]
fn walk_payload(alloc: Global, payload: Payload<'_>, lists: bool, tally: &mut Tally) -> Result<()> {
    match payload {
        Payload::TypeSection(types) => tally.walk(types.into_iter_in(alloc), see_group),
        Payload::ImportSection(imports) => tally.walk(imports.into_imports(), see_import),
        Payload::FunctionSection(functions) => tally.walk(functions.into_iter(), u64::from),
        Payload::GlobalSection(globals) => tally.walk(globals.into_iter(), see_global),
        Payload::ExportSection(exports) => tally.walk(exports.into_iter(), see_export),
        Payload::ElementSection(segments) => walk_segments(segments, lists, tally),
        Payload::DataSection(segments) => tally.walk(segments.into_iter(), see_data),
        Payload::CustomSection(section) => walk_custom(alloc, section, tally),
        _other => Ok(()),
    }
}

fn see_group(group: RecGroup) -> u64 {
    group.types.len() as u64
}

fn see_global(global: GlobalItem<'_>) -> u64 {
    u64::from(global.ty.mutable) ^ ends(global.init_expr.range())
}

fn see_export(export: Export<'_>) -> u64 {
    u64::from(export.index) ^ export.name.len() as u64
}

fn ends(range: Range<u64>) -> u64 {
    range.start ^ range.end
}

fn see_element(segment: Element<'_>) -> u64 {
    segment.range.start ^ segment.range.end
}

fn see_data(segment: Data<'_>) -> u64 {
    segment.range.start ^ segment.range.end
}

fn see_import(import: Import<'_>) -> u64 {
    let lengths = import.module.len() as u64 ^ import.name.len() as u64;
    match import.ty {
        TypeRef::Func(index) => lengths ^ u64::from(index),
        _other => lengths,
    }
}

fn walk_segments(segments: ElementSectionReader<'_>, lists: bool, tally: &mut Tally) -> Result<()> {
    if lists {
        walk_lists(segments, tally)
    } else {
        tally.walk(segments.into_iter(), see_element)
    }
}

fn walk_lists(segments: ElementSectionReader<'_>, tally: &mut Tally) -> Result<()> {
    for segment in segments {
        walk_list(segment?.items, tally)?;
    }
    Ok(())
}

fn walk_list(items: ElementItems<'_>, tally: &mut Tally) -> Result<()> {
    match items {
        ElementItems::Functions(indices) => tally.walk(indices.into_iter(), u64::from),
        ElementItems::Expressions(_, list) => tally.walk(list.into_iter(), see_expression),
    }
}

fn see_expression(expression: ConstExpr<'_>) -> u64 {
    ends(expression.range())
}

// Reads the names of functions, symbols, or relocations.
fn walk_custom(alloc: Global, section: CustomSectionReader<'_>, tally: &mut Tally) -> Result<()> {
    match section.as_known(alloc)? {
        KnownCustom::Name(names) => walk_names(names, tally),
        KnownCustom::Linking(section) => walk_linking(section, tally),
        KnownCustom::Reloc(section) => tally.walk(section.entries().into_iter(), see_relocation),
        _other => Ok(()),
    }
}

fn walk_names(names: NameSectionReader<'_>, tally: &mut Tally) -> Result<()> {
    for name in names {
        walk_name(name?, tally)?;
    }
    Ok(())
}

fn walk_name(name: Name<'_>, tally: &mut Tally) -> Result<()> {
    match name {
        Name::Function(names) => tally.walk(names.into_iter(), see_naming),
        _other => Ok(()),
    }
}

fn see_naming(naming: Naming<'_>) -> u64 {
    u64::from(naming.index) ^ naming.name.len() as u64
}

fn walk_linking(section: LinkingSectionReader<'_>, tally: &mut Tally) -> Result<()> {
    for subsection in section.subsections() {
        walk_subsection(subsection?, tally)?;
    }
    Ok(())
}

fn walk_subsection(subsection: Linking<'_>, tally: &mut Tally) -> Result<()> {
    match subsection {
        Linking::SymbolTable(symbols) => tally.walk(symbols.into_iter(), see_symbol),
        _other => Ok(()),
    }
}

fn see_relocation(entry: RelocationEntry) -> u64 {
    u64::from(entry.offset ^ entry.index) ^ u64::from(entry.ty as u8)
}

fn see_symbol(symbol: SymbolInfo<'_>) -> u64 {
    match symbol {
        SymbolInfo::Func { flags, index, name } => {
            u64::from(flags.bits() ^ index) ^ name.unwrap_or("").len() as u64
        }
        _other => 0,
    }
}
