//! Writes modules, with the names of `wasm-encoder`: a program that builds sections changes its `use wasm_encoder::` to `use pulleynavy::encoder::`.
//!
//! Each item is written by a proved function: the bytes are read back as exactly this item. What is around the items is tested. As in
//! `wasm-encoder`, a `Module` has the sections that it is given, in their order: nothing checks that they belong together.
//!
//! ```
//! use pulleynavy::encoder::{CodeSection, ExportKind, ExportSection, FunctionSection, Module, TypeSection, ValType};
//!
//! let mut types = TypeSection::new();
//! types.ty().function([ValType::I32, ValType::I32], [ValType::I32]);
//! let mut functions = FunctionSection::new();
//! functions.function(0);
//! let mut exports = ExportSection::new();
//! exports.export("add", ExportKind::Func, 0);
//! let mut code = CodeSection::new();
//! // No locals, `local.get 0`, `local.get 1`, `i32.add` and `end`.
//! code.raw(&[0, 0x20, 0, 0x20, 1, 0x6a, 0x0b]);
//!
//! let mut module = Module::new();
//! module.section(&types).section(&functions).section(&exports).section(&code);
//! assert_eq!(module.finish().len(), 41);
//! ```
//!
//! # Panics
//!
//! An item that has no bytes: a name of more than 100,000 bytes, an expression that is raw bytes and isn't one, a page size of 2^64 bytes or more, or a heap
//! type that is shared, exact or of continuations.
use crate::proved::encode;
use alloc::borrow::Cow;
use alloc::vec::Vec;

mod code;
mod constants;
mod data;
mod elements;
mod exports;
mod globals;
mod imports;
mod kinds;
mod names;
mod producers;
mod tables;
mod types;

pub use crate::{AbstractHeapType, FieldType, HeapType, RefType, StorageType, TagKind, TagType, ValType};
pub use code::{CodeSection, FunctionSection, StartSection};
pub use constants::ConstExpr;
pub use data::{DataCountSection, DataSection, DataSegment, DataSegmentMode};
pub use elements::{ElementMode, ElementSection, ElementSegment, Elements};
pub use exports::{ExportKind, ExportSection};
pub use globals::GlobalSection;
pub use imports::{EntityType, ImportSection};
pub use kinds::{GlobalType, MemoryType, TableType};
pub use names::{IndirectNameMap, NameMap, NameSection};
pub use producers::{ProducersField, ProducersSection};
pub use tables::{MemorySection, TableSection, TagSection};
pub use types::{CoreTypeEncoder, TypeSection};

/// What has bytes in the binary format.
pub trait Encode {
    /// Appends the bytes.
    fn encode(&self, sink: &mut Vec<u8>);
}

/// A section: its id, and as its bytes its length and its content.
pub trait Section: Encode {
    /// Returns the id of the section.
    fn id(&self) -> u8;

    /// Appends the section, with its id.
    fn append_to(&self, sink: &mut Vec<u8>) {
        sink.push(self.id());
        self.encode(sink);
    }
}

/// The ids of the sections.
///
/// (Core specification, Binary format, Modules, Sections.)
#[derive(Clone, Copy, Debug, PartialEq, Eq, Hash, PartialOrd, Ord)]
#[repr(u8)]
pub enum SectionId {
    /// A custom section.
    Custom = 0,
    /// The type section.
    Type = 1,
    /// The import section.
    Import = 2,
    /// The function section.
    Function = 3,
    /// The table section.
    Table = 4,
    /// The memory section.
    Memory = 5,
    /// The global section.
    Global = 6,
    /// The export section.
    Export = 7,
    /// The start section.
    Start = 8,
    /// The element section.
    Element = 9,
    /// The code section.
    Code = 10,
    /// The data section.
    Data = 11,
    /// The data count section.
    DataCount = 12,
    /// The tag section.
    Tag = 13,
}

impl From<SectionId> for u8 {
    fn from(id: SectionId) -> u8 {
        id as u8
    }
}

/// A module that is built section by section.
#[derive(Clone, Debug, PartialEq, Eq)]
pub struct Module {
    bytes: Vec<u8>,
}

impl Module {
    /// The first eight bytes of every module.
    pub const HEADER: [u8; 8] = *b"\0asm\x01\0\0\0";

    /// Returns a module without sections.
    #[must_use]
    pub fn new() -> Self {
        Module { bytes: Self::HEADER.to_vec() }
    }

    /// Adds a section.
    pub fn section(&mut self, section: &impl Section) -> &mut Self {
        section.append_to(&mut self.bytes);
        self
    }

    /// Returns the bytes so far.
    #[must_use]
    pub fn as_slice(&self) -> &[u8] {
        &self.bytes
    }

    /// Returns how many bytes there are so far. There are at least eight.
    #[must_use]
    #[allow(clippy::len_without_is_empty)]
    pub fn len(&self) -> usize {
        self.bytes.len()
    }

    /// Returns the bytes of the module.
    #[must_use]
    pub fn finish(self) -> Vec<u8> {
        self.bytes
    }
}

impl Default for Module {
    fn default() -> Self {
        Self::new()
    }
}

/// A section with this id and this content, without its length.
#[derive(Clone, Copy, Debug)]
pub struct RawSection<'a> {
    /// The id.
    pub id: u8,
    /// The content.
    pub data: &'a [u8],
}

impl Encode for RawSection<'_> {
    fn encode(&self, sink: &mut Vec<u8>) {
        push_sized(sink, &[], self.data);
    }
}

impl Section for RawSection<'_> {
    fn id(&self) -> u8 {
        self.id
    }
}

/// A custom section.
///
/// (Core specification, Binary format, Modules, Custom Section.)
#[derive(Clone, Debug)]
pub struct CustomSection<'a> {
    /// The name.
    pub name: Cow<'a, str>,
    /// The data after the name.
    pub data: Cow<'a, [u8]>,
}

impl Encode for CustomSection<'_> {
    fn encode(&self, sink: &mut Vec<u8>) {
        let mut name = Vec::new();
        push_name(&mut name, &self.name);
        push_sized(sink, &name, &self.data);
    }
}

impl Section for CustomSection<'_> {
    fn id(&self) -> u8 {
        SectionId::Custom.into()
    }
}

/// Items of a section: how many there are, and their bytes.
#[derive(Clone, Debug, Default, PartialEq, Eq)]
struct Items {
    bytes: Vec<u8>,
    count: u32,
}

impl Items {
    fn add(&mut self, item: &impl encode::Encode) {
        push(&mut self.bytes, item);
        self.count += 1;
    }

    /// Appends the length, the count and the items.
    fn encode(&self, sink: &mut Vec<u8>) {
        let mut count = Vec::new();
        push_number(&mut count, self.count.into());
        push_sized(sink, &count, &self.bytes);
    }
}

/// A section of counted items: its constructor, and what all such sections have.
macro_rules! sections {
    ($($(#[$doc:meta])* $name:ident $id:ident,)*) => {
        $(
            $(#[$doc])*
            #[derive(Clone, Debug, Default, PartialEq, Eq)]
            pub struct $name {
                items: $crate::encoder::Items,
            }

            impl $name {
                /// Returns a section without items.
                #[must_use]
                pub fn new() -> Self {
                    Self::default()
                }

                /// Returns the number of items.
                #[must_use]
                pub fn len(&self) -> u32 {
                    self.items.count
                }

                /// Returns whether there are no items.
                #[must_use]
                pub fn is_empty(&self) -> bool {
                    self.items.count == 0
                }
            }

            impl $crate::encoder::Encode for $name {
                fn encode(&self, sink: &mut alloc::vec::Vec<u8>) {
                    self.items.encode(sink);
                }
            }

            impl $crate::encoder::Section for $name {
                fn id(&self) -> u8 {
                    $crate::encoder::SectionId::$id.into()
                }
            }
        )*
    };
}
use sections;

/// Appends an item.
fn push(sink: &mut Vec<u8>, item: &impl encode::Encode) {
    assert!(item.fits(), "the item has no bytes");
    let at = sink.len();
    sink.resize(at + item.encoded_len(), 0);
    item.encode_at(sink, at);
}

fn push_number(sink: &mut Vec<u8>, number: u64) {
    let at = sink.len();
    sink.resize(at + encode::unsigned_len(number), 0);
    encode::write_unsigned(sink, at, number);
}

fn push_name(sink: &mut Vec<u8>, name: &str) {
    assert!(encode::name_fits(name), "the name has more than 100,000 bytes");
    let at = sink.len();
    sink.resize(at + encode::name_len(name), 0);
    encode::write_name(sink, at, name);
}

/// Appends the length of two parts, and the parts.
fn push_sized(sink: &mut Vec<u8>, first: &[u8], second: &[u8]) {
    let size = u32::try_from(first.len() + second.len()).expect("the content has fewer than 2^32 bytes");
    push_number(sink, size.into());
    sink.extend_from_slice(first);
    sink.extend_from_slice(second);
}
