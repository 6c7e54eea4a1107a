// SPDX-License-Identifier: Apache-2.0 OR MIT
//! A streaming parser for WebAssembly modules: the module layer of `wasmparser` 0.263.0, over sources with a machine-checked proof.
//!
//! The names are those of `wasmparser`, and so are the ways to use them:
//!
//! ```
//! use pulleynavy::{Parser, Payload};
//!
//! let module = b"\0asm\x01\0\0\0\x03\x02\x01\0\x0a\x04\x01\x02\0\x0b";
//! for payload in Parser::new(0).parse_all(module) {
//!     if let Payload::FunctionSection(functions) = payload? {
//!         assert_eq!(functions.clone().into_iter().len(), 1);
//!         for index in functions {
//!             assert_eq!(index?, 0);
//!         }
//!     }
//! }
//! # Ok::<(), pulleynavy::Error>(())
//! ```
//!
//! The module `proved` has the proved sources as Rust; the others give the results the types of `wasmparser`, and are tested. Offsets are in bytes from the start of
//! the stream. Sections are read lazily: iterate over them to read their items. Nothing is validated beyond the format.
//!
//! The feature `alloc`, which is on by default, makes lists inside items vectors and slices. Without it the crate never allocates: lists
//! are then iterators that borrow from the input.
//!
//! The README has a table of what differs from `wasmparser`, and of what to write instead.
#![no_std]
#![forbid(unsafe_code)]
#![warn(missing_docs)]

#[cfg(feature = "alloc")]
extern crate alloc;

#[rustfmt::skip]
mod codes;
#[cfg_attr(feature = "alloc", path = "owned.rs")]
#[cfg_attr(not(feature = "alloc"), path = "borrowed.rs")]
mod composites;
mod cores;
mod custom;
mod edits;
#[cfg(feature = "alloc")]
pub mod encoder;
mod error;
mod fault;
mod flags;
mod imports;
mod items;
mod kinds;
mod known;
mod limits;
mod linking;
#[cfg(not(feature = "alloc"))]
mod list;
mod names;
mod numbers;
mod operators;
mod parser;
mod payload;
#[allow(dead_code, unused_imports, missing_docs, clippy::all, clippy::pedantic)]
mod proved {
    include!(concat!(env!("OUT_DIR"), "/proved/mod.rs"));
}
mod reader;
mod relocations;
mod section;
#[cfg(feature = "serde")]
mod serial;
mod skipped;
mod strip;
mod types;

pub use composites::{
    CompositeInnerType, CompositeType, CoreDumpInstance, CoreDumpInstancesSection, CoreDumpStackFrame, FuncType, RecGroup, StructType, SubType,
};
pub use cores::{CoreDumpModulesSection, CoreDumpSection, CoreDumpStackSection, CoreDumpValue};
pub use custom::{CustomSectionReader, Subsection, Subsections};
pub use edits::{Edit, NewSection, edit_to, encode_to};
#[cfg(feature = "alloc")]
pub use edits::{edit, encode};
pub use error::{BinaryReaderError, Error, Result};
pub use fault::{CoreStart, Fault, Lead, NumberKind};
pub use flags::{FlagsIter, FlagsIterNames, SegmentFlags, SymbolFlags, WasmFeatures};
pub use imports::{Import, ImportItemCompact, Imports, ImportsIter, IntoImportsWithOffsets, TypeRef};
pub use items::{ConstExpr, Data, DataKind, Element, ElementItems, ElementKind, Export, ExternalKind, Global, Table, TableInit};
pub use kinds::{GlobalType, MemoryType, TableType, TagKind, TagType};
pub use known::{
    BranchHint, BranchHintFunction, BranchHintSectionReader, Dylink0SectionReader, Dylink0Subsection, ExportInfo, ImportInfo, KnownCustom, MemInfo,
    ProducersField, ProducersFieldValue, ProducersSectionReader,
};
pub use limits::*;
pub use linking::{
    Comdat, ComdatMap, ComdatSymbol, ComdatSymbolKind, DefinedDataSymbol, InitFunc, InitFuncMap, Linking, LinkingSectionReader, Segment, SegmentMap,
    SymbolInfo, SymbolInfoMap,
};
#[cfg(not(feature = "alloc"))]
pub use list::List;
pub use names::{IndirectNameMap, IndirectNaming, Name, NameMap, NameSectionReader, Naming};
pub use numbers::{Ieee32, Ieee64};
pub use operators::{Operator, OperatorsIterator, OperatorsIteratorWithOffsets, OperatorsReader, V128};
pub use parser::{Chunk, ParseAll, Parser};
pub use payload::{
    DataSectionReader, ElementSectionReader, Encoding, ExportSectionReader, FunctionBody, FunctionSectionReader, GlobalSectionReader, ImportSectionReader,
    MemorySectionReader, Payload, TableSectionReader, TagSectionReader, TypeSectionReader,
};
pub use reader::BinaryReader;
pub use relocations::{RelocAddendKind, RelocSectionReader, RelocationEntry, RelocationEntryReader, RelocationType};
pub use section::{FromReader, SectionLimited, SectionLimitedIntoIter, SectionLimitedIntoIterWithOffsets};
pub use skipped::{PartHead, SkippedPart};
pub use strip::strip;
pub use types::{AbstractHeapType, ArrayType, ContType, FieldType, HeapType, PackedIndex, RefType, StorageType, UnpackedIndex, ValType};

/// The examples of the README are tests.
#[cfg(doctest)]
#[doc = include_str!("../README.md")]
struct Readme;
