//! Payloads: the parts of a stream.
use crate::composites::{Func, RecGroups};
use crate::proved::frames::{Frame, FrameKind};
use crate::proved::grammar;
use crate::section::Window;
use crate::{
    BinaryReader, CompositeInnerType, CustomSectionReader, Data, Element, Error, Export, Fault, Global, Imports, MemoryType, Result, SectionLimited, SubType,
    Table, TagType,
};
use core::fmt;
use core::ops::Range;

/// The type section, whose items are groups of types.
///
/// # Examples
///
/// ```
/// use pulleynavy::{BinaryReader, TypeSectionReader};
///
/// // One function type: from an `i32` to an `i64`.
/// for group in TypeSectionReader::new(BinaryReader::new(&[1, 0x60, 1, 0x7f, 1, 0x7e], 0))? {
///     assert_eq!(group?.into_types().count(), 1);
/// }
/// # Ok::<(), pulleynavy::Error>(())
/// ```
pub type TypeSectionReader<'a> = RecGroups<'a>;
/// The import section, whose items are imports or groups of imports. `into_imports` iterates over the imports.
///
/// # Examples
///
/// ```
/// use pulleynavy::{BinaryReader, ImportSectionReader};
///
/// let section = ImportSectionReader::new(BinaryReader::new(b"\x01\x01m\x01f\x00\x05", 0))?;
/// for import in section.into_imports() {
///     assert_eq!(import?.module, "m");
/// }
/// # Ok::<(), pulleynavy::Error>(())
/// ```
pub type ImportSectionReader<'a> = SectionLimited<'a, Imports<'a>>;
/// The function section, whose items are the type indices of the module's functions.
///
/// # Examples
///
/// ```
/// use pulleynavy::{BinaryReader, FunctionSectionReader};
///
/// for type_index in FunctionSectionReader::new(BinaryReader::new(&[1, 7], 0))? {
///     assert_eq!(type_index?, 7);
/// }
/// # Ok::<(), pulleynavy::Error>(())
/// ```
pub type FunctionSectionReader<'a> = SectionLimited<'a, u32>;
/// The table section, whose items are tables.
///
/// # Examples
///
/// ```
/// use pulleynavy::{BinaryReader, TableSectionReader};
///
/// for table in TableSectionReader::new(BinaryReader::new(&[1, 0x70, 0x00, 10], 0))? {
///     assert_eq!(table?.ty.initial, 10);
/// }
/// # Ok::<(), pulleynavy::Error>(())
/// ```
pub type TableSectionReader<'a> = SectionLimited<'a, Table<'a>>;
/// The memory section, whose items are memory types.
///
/// # Examples
///
/// ```
/// use pulleynavy::{BinaryReader, MemorySectionReader};
///
/// for memory in MemorySectionReader::new(BinaryReader::new(&[1, 0x01, 1, 16], 0))? {
///     assert_eq!(memory?.maximum, Some(16));
/// }
/// # Ok::<(), pulleynavy::Error>(())
/// ```
pub type MemorySectionReader<'a> = SectionLimited<'a, MemoryType>;
/// The tag section, whose items are tag types.
///
/// # Examples
///
/// ```
/// use pulleynavy::{BinaryReader, TagSectionReader};
///
/// for tag in TagSectionReader::new(BinaryReader::new(&[1, 0, 4], 0))? {
///     assert_eq!(tag?.func_type_idx, 4);
/// }
/// # Ok::<(), pulleynavy::Error>(())
/// ```
pub type TagSectionReader<'a> = SectionLimited<'a, TagType>;
/// The global section, whose items are globals.
///
/// # Examples
///
/// ```
/// use pulleynavy::{BinaryReader, GlobalSectionReader};
///
/// for global in GlobalSectionReader::new(BinaryReader::new(&[1, 0x7f, 0x01, 0x41, 5, 0x0b], 0))? {
///     assert!(global?.ty.mutable);
/// }
/// # Ok::<(), pulleynavy::Error>(())
/// ```
pub type GlobalSectionReader<'a> = SectionLimited<'a, Global<'a>>;
/// The export section, whose items are exports.
///
/// # Examples
///
/// ```
/// use pulleynavy::{BinaryReader, ExportSectionReader};
///
/// for export in ExportSectionReader::new(BinaryReader::new(b"\x01\x03add\x00\x05", 0))? {
///     assert_eq!(export?.name, "add");
/// }
/// # Ok::<(), pulleynavy::Error>(())
/// ```
pub type ExportSectionReader<'a> = SectionLimited<'a, Export<'a>>;
/// The element section, whose items are element segments.
///
/// # Examples
///
/// ```
/// use pulleynavy::{BinaryReader, ElementSectionReader};
///
/// for segment in ElementSectionReader::new(BinaryReader::new(&[1, 0, 0x41, 0, 0x0b, 1, 5], 0))? {
///     assert_eq!(segment?.range, 1..7);
/// }
/// # Ok::<(), pulleynavy::Error>(())
/// ```
pub type ElementSectionReader<'a> = SectionLimited<'a, Element<'a>>;
/// The data section, whose items are data segments.
///
/// # Examples
///
/// ```
/// use pulleynavy::{BinaryReader, DataSectionReader};
///
/// for segment in DataSectionReader::new(BinaryReader::new(b"\x01\x01\x02hi", 0))? {
///     assert_eq!(segment?.data, b"hi");
/// }
/// # Ok::<(), pulleynavy::Error>(())
/// ```
pub type DataSectionReader<'a> = SectionLimited<'a, Data<'a>>;

impl<'a> TypeSectionReader<'a> {
    /// Returns an iterator over the types of a section that has plain function types only.
    ///
    /// # Errors
    ///
    /// Any other type is `GcTypes` at the offset of its group. The next types follow.
    ///
    /// # Examples
    ///
    /// ```
    /// use pulleynavy::{BinaryReader, Error, Fault, TypeSectionReader};
    ///
    /// let section = TypeSectionReader::new(BinaryReader::new(&[2, 0x60, 0, 0, 0x5f, 0], 0))?;
    /// let mut types = section.into_iter_err_on_gc_types();
    /// assert!(types.next().unwrap().is_ok());
    /// assert_eq!(types.next().unwrap().unwrap_err(), Error::new(Fault::GcTypes, 4));
    /// # Ok::<(), pulleynavy::Error>(())
    /// ```
    pub fn into_iter_err_on_gc_types(self) -> impl Iterator<Item = Result<Func<'a>>> {
        self.into_iter_with_offsets().map(|item| {
            let (offset, group) = item?;
            let mut types = group.into_types();
            match (types.next(), types.next()) {
                (Some(SubType { is_final: true, supertype_idx: None, composite_type }), None) => match composite_type.inner {
                    CompositeInnerType::Func(ty) => Ok(ty),
                    _ => Err(Error::new(Fault::GcTypes, offset)),
                },
                _ => Err(Error::new(Fault::GcTypes, offset)),
            }
        })
    }
}

/// The encoding of a stream, as its header announces it.
///
/// # Examples
///
/// ```
/// use pulleynavy::{Encoding, Parser, Payload};
///
/// let header = Parser::new(0).parse_all(b"\0asm\x0d\0\x01\0").next().unwrap()?;
/// assert!(matches!(header, Payload::Version { encoding: Encoding::Component, .. }));
/// # Ok::<(), pulleynavy::Error>(())
/// ```
#[derive(Clone, Copy, Debug, PartialEq, Eq, Hash)]
pub enum Encoding {
    /// A module.
    Module,
    /// A component.
    Component,
}

impl Encoding {
    /// The encoding that the proved sources have.
    fn of(encoding: grammar::Encoding) -> Self {
        match encoding {
            grammar::Encoding::Module => Encoding::Module,
            grammar::Encoding::Component => Encoding::Component,
        }
    }
}

/// The body of a function: its locals and instructions, which are not decoded.
///
/// # Examples
///
/// ```
/// use pulleynavy::{BinaryReader, FunctionBody};
///
/// let body = FunctionBody::new(BinaryReader::new(&[0x00, 0x0b], 16));
/// assert_eq!(body.as_bytes(), [0x00, 0x0b]);
/// assert_eq!(body.range(), 16..18);
/// ```
#[derive(Clone, Copy, Debug)]
pub struct FunctionBody<'a> {
    window: Window<'a>,
}

impl<'a> FunctionBody<'a> {
    /// The body of a frame.
    #[inline(always)]
    pub(crate) fn of(frame: Frame<'a>) -> Self {
        FunctionBody { window: Window::of(&frame.into_reader()) }
    }

    /// Takes the remaining bytes of a reader as a body, without reading them.
    #[must_use]
    pub fn new(reader: BinaryReader<'a>) -> Self {
        FunctionBody { window: reader.rest }
    }

    /// Returns a reader over the bytes of the body.
    #[must_use]
    pub fn get_binary_reader(&self) -> BinaryReader<'a> {
        BinaryReader::of(self.window)
    }

    /// Returns the offsets of the body, in bytes from the start of the stream.
    #[must_use]
    pub fn range(&self) -> Range<u64> {
        self.window.range()
    }

    /// Returns the bytes of the body.
    #[must_use]
    pub fn as_bytes(&self) -> &'a [u8] {
        self.window.bytes
    }
}

/// A part of a stream: the header, a section, the start of the code section, a function body, or the end.
///
/// [`Parser::parse`](crate::Parser::parse) and [`Parser::parse_all`](crate::Parser::parse_all) return payloads. The items of a
/// section are read lazily.
///
/// # Examples
///
/// ```
/// use pulleynavy::{Parser, Payload};
///
/// let module = b"\0asm\x01\0\0\0\x07\x07\x01\x03add\0\x05";
/// for payload in Parser::new(0).parse_all(module) {
///     match payload? {
///         Payload::ExportSection(exports) => assert_eq!(exports.count(), 1),
///         Payload::End(offset) => assert_eq!(offset, 17),
///         _ => {}
///     }
/// }
/// # Ok::<(), pulleynavy::Error>(())
/// ```
#[derive(Clone)]
#[non_exhaustive]
pub enum Payload<'a> {
    /// The header.
    Version {
        /// The 16-bit version: 1 for a module, 13 for a component.
        num: u16,
        /// The encoding that the header announces.
        encoding: Encoding,
        /// The offsets of the header.
        range: Range<u64>,
    },
    /// The type section.
    TypeSection(TypeSectionReader<'a>),
    /// The import section.
    ImportSection(ImportSectionReader<'a>),
    /// The function section.
    FunctionSection(FunctionSectionReader<'a>),
    /// The table section.
    TableSection(TableSectionReader<'a>),
    /// The memory section.
    MemorySection(MemorySectionReader<'a>),
    /// The tag section.
    TagSection(TagSectionReader<'a>),
    /// The global section.
    GlobalSection(GlobalSectionReader<'a>),
    /// The export section.
    ExportSection(ExportSectionReader<'a>),
    /// The start section.
    StartSection {
        /// The index of the start function.
        func: u32,
        /// The offsets of the section's content.
        range: Range<u64>,
    },
    /// The element section.
    ElementSection(ElementSectionReader<'a>),
    /// The data count section.
    DataCountSection {
        /// The number of data segments.
        count: u32,
        /// The offsets of the section's content.
        range: Range<u64>,
    },
    /// The data section.
    DataSection(DataSectionReader<'a>),
    /// The start of the code section.
    CodeSectionStart {
        /// The number of bodies that follow.
        count: u32,
        /// The offsets of the section's content. The bodies may still end before or after it.
        unchecked_range: Range<u64>,
        /// The size of the content after the count, in bytes.
        size: u32,
    },
    /// The body of a function.
    CodeSectionEntry(FunctionBody<'a>),
    /// A custom section.
    CustomSection(CustomSectionReader<'a>),
    /// A section with an unknown id.
    UnknownSection {
        /// The id of the section.
        id: u8,
        /// The content of the section.
        contents: &'a [u8],
        /// The offsets of its bytes.
        range: Range<u64>,
    },
    /// The end of the stream, with its offset.
    End(u64),
}

impl Payload<'_> {
    /// Returns the id of a section and the offsets of its content.
    ///
    /// A code section is represented by its start. The header, bodies and the end return `None`.
    ///
    /// # Examples
    ///
    /// ```
    /// use pulleynavy::Parser;
    ///
    /// let mut payloads = Parser::new(0).parse_all(b"\0asm\x01\0\0\0\x01\x01\0");
    /// assert_eq!(payloads.next().unwrap()?.as_section(), None);
    /// assert_eq!(payloads.next().unwrap()?.as_section(), Some((1, 10..11)));
    /// # Ok::<(), pulleynavy::Error>(())
    /// ```
    #[must_use]
    pub fn as_section(&self) -> Option<(u8, Range<u64>)> {
        Some(match self {
            Payload::Version { .. } | Payload::CodeSectionEntry(_) | Payload::End(_) => return None,
            Payload::CustomSection(section) => (0, section.range()),
            Payload::TypeSection(section) => (1, section.range()),
            Payload::ImportSection(section) => (2, section.range()),
            Payload::FunctionSection(section) => (3, section.range()),
            Payload::TableSection(section) => (4, section.range()),
            Payload::MemorySection(section) => (5, section.range()),
            Payload::GlobalSection(section) => (6, section.range()),
            Payload::ExportSection(section) => (7, section.range()),
            Payload::StartSection { range, .. } => (8, range.clone()),
            Payload::ElementSection(section) => (9, section.range()),
            Payload::CodeSectionStart { unchecked_range, .. } => (10, unchecked_range.clone()),
            Payload::DataSection(section) => (11, section.range()),
            Payload::DataCountSection { range, .. } => (12, range.clone()),
            Payload::TagSection(section) => (13, section.range()),
            Payload::UnknownSection { id, range, .. } => (*id, range.clone()),
        })
    }

    /// The name of the variant.
    fn word(&self) -> &'static str {
        match self {
            Payload::Version { .. } => "Version",
            Payload::TypeSection(_) => "TypeSection",
            Payload::ImportSection(_) => "ImportSection",
            Payload::FunctionSection(_) => "FunctionSection",
            Payload::TableSection(_) => "TableSection",
            Payload::MemorySection(_) => "MemorySection",
            Payload::TagSection(_) => "TagSection",
            Payload::GlobalSection(_) => "GlobalSection",
            Payload::ExportSection(_) => "ExportSection",
            Payload::StartSection { .. } => "StartSection",
            Payload::ElementSection(_) => "ElementSection",
            Payload::DataCountSection { .. } => "DataCountSection",
            Payload::DataSection(_) => "DataSection",
            Payload::CodeSectionStart { .. } => "CodeSectionStart",
            Payload::CodeSectionEntry(_) => "CodeSectionEntry",
            Payload::CustomSection(_) => "CustomSection",
            Payload::UnknownSection { .. } => "UnknownSection",
            Payload::End(_) => "End",
        }
    }
}

/// Counted sections, bodies and contents are not shown.
impl fmt::Debug for Payload<'_> {
    fn fmt(&self, f: &mut fmt::Formatter<'_>) -> fmt::Result {
        let word = self.word();
        match self {
            Payload::Version { num, encoding, range } => f.debug_struct(word).field("num", num).field("encoding", encoding).field("range", range).finish(),
            Payload::StartSection { func, range } => f.debug_struct(word).field("func", func).field("range", range).finish(),
            Payload::DataCountSection { count, range } => f.debug_struct(word).field("count", count).field("range", range).finish(),
            Payload::CodeSectionStart { count, unchecked_range, size } => {
                f.debug_struct(word).field("count", count).field("unchecked_range", unchecked_range).field("size", size).finish()
            }
            Payload::CustomSection(section) => f.debug_tuple(word).field(section).finish(),
            Payload::UnknownSection { id, range, .. } => f.debug_struct(word).field("id", id).field("range", range).finish(),
            Payload::End(offset) => f.debug_tuple(word).field(offset).finish(),
            _ => f.debug_tuple(word).field(&"...").finish(),
        }
    }
}

/// A section with an unknown id, or of a component.
#[inline(always)]
pub(crate) fn unknown<'a>(frame: Frame<'a>) -> Payload<'a> {
    let (id, range) = (frame.id(), frame.range());
    Payload::UnknownSection { id, contents: frame.into_reader().remaining_buffer(), range }
}

/// The payload of a frame.
pub(crate) fn payload<'a>(frame: Frame<'a>) -> Payload<'a> {
    let (count, range) = (frame.count(), frame.range());
    match frame.kind() {
        FrameKind::Header => Payload::Version { num: frame.version(), encoding: Encoding::of(frame.encoding()), range },
        FrameKind::Items => counted(frame),
        FrameKind::Start => Payload::StartSection { func: count, range },
        FrameKind::DataCount => Payload::DataCountSection { count, range },
        FrameKind::CodeStart => Payload::CodeSectionStart { count, unchecked_range: range, size: frame.size() },
        FrameKind::Body => Payload::CodeSectionEntry(FunctionBody::of(frame)),
        FrameKind::Custom => Payload::CustomSection(CustomSectionReader::of(frame)),
        FrameKind::Unknown => unknown(frame),
        FrameKind::End => Payload::End(range.start),
    }
}

/// The payload of a section that begins with a count of items.
fn counted<'a>(frame: Frame<'a>) -> Payload<'a> {
    match frame.id() {
        1 => Payload::TypeSection(SectionLimited::counted(frame)),
        2 => Payload::ImportSection(SectionLimited::counted(frame)),
        3 => Payload::FunctionSection(SectionLimited::counted(frame)),
        4 => Payload::TableSection(SectionLimited::counted(frame)),
        5 => Payload::MemorySection(SectionLimited::counted(frame)),
        6 => Payload::GlobalSection(SectionLimited::counted(frame)),
        7 => Payload::ExportSection(SectionLimited::counted(frame)),
        9 => Payload::ElementSection(SectionLimited::counted(frame)),
        11 => Payload::DataSection(SectionLimited::counted(frame)),
        13 => Payload::TagSection(SectionLimited::counted(frame)),
        _ => unknown(frame),
    }
}
