//! Sections for linkers.
use crate::proved::base::FromReader as _;
use crate::proved::bitflags::Flags as _;
use crate::proved::custom;
use crate::{BinaryReader, Error, Fault, FromReader, Result, SectionLimited, SegmentFlags, Subsection, Subsections, SymbolFlags};
use core::ops::Range;

/// The section `linking`: a version and subsections.
///
/// # Examples
///
/// ```
/// use pulleynavy::{BinaryReader, Linking, LinkingSectionReader};
///
/// // Version 2, and the function symbol 4 to call at startup.
/// let section = LinkingSectionReader::new(BinaryReader::new(&[2, 6, 3, 1, 10, 4], 0))?;
/// for subsection in section.subsections() {
///     match subsection? {
///         Linking::InitFuncs(functions) => assert_eq!(functions.count(), 1),
///         _ => unreachable!(),
///     }
/// }
/// # Ok::<(), pulleynavy::Error>(())
/// ```
#[derive(Clone, Debug)]
pub struct LinkingSectionReader<'a> {
    version: u32,
    range: Range<u64>,
    subsections: Subsections<'a, Linking<'a>>,
}

impl<'a> LinkingSectionReader<'a> {
    /// Reads the version from the remaining bytes of a reader. The bytes after it are the subsections.
    ///
    /// # Errors
    ///
    /// Those of [`BinaryReader::read_var_u32`]; `LinkingVersion` at the version, which is the number of the error, if it is not
    /// 2.
    pub fn new(mut reader: BinaryReader<'a>) -> Result<Self> {
        let range = reader.remaining_range();
        let offset = reader.original_position();
        let version = reader.read_var_u32()?;
        if version != 2 {
            return Err(Error::new(Fault::LinkingVersion, offset).with_number(version.into()));
        }
        Ok(LinkingSectionReader { version, range, subsections: Subsections::new(reader.shrink()) })
    }

    /// Returns the version, which is always 2.
    #[must_use]
    pub fn version(&self) -> u32 {
        self.version
    }

    /// Returns the offset of the first subsection, in bytes from the start of the stream.
    #[must_use]
    pub fn original_position(&self) -> u64 {
        self.subsections.original_position()
    }

    /// Returns the offsets of the data, including the version, in bytes from the start of the stream.
    #[must_use]
    pub fn range(&self) -> Range<u64> {
        self.range.clone()
    }

    /// Returns an iterator over the subsections.
    #[must_use]
    pub fn subsections(&self) -> Subsections<'a, Linking<'a>> {
        self.subsections.clone()
    }
}

impl<'a> IntoIterator for LinkingSectionReader<'a> {
    type Item = Result<Linking<'a>>;
    type IntoIter = Subsections<'a, Linking<'a>>;

    fn into_iter(self) -> Self::IntoIter {
        self.subsections
    }
}

/// A list of names, alignments and flags of data segments.
///
/// # Examples
///
/// ```
/// use pulleynavy::{BinaryReader, SegmentMap};
///
/// for segment in SegmentMap::new(BinaryReader::new(b"\x01\x05.data\x02\x00", 0))? {
///     assert_eq!(segment?.name, ".data");
/// }
/// # Ok::<(), pulleynavy::Error>(())
/// ```
pub type SegmentMap<'a> = SectionLimited<'a, Segment<'a>>;
/// A list of functions to call at startup.
///
/// # Examples
///
/// ```
/// use pulleynavy::{BinaryReader, InitFuncMap};
///
/// for function in InitFuncMap::new(BinaryReader::new(&[1, 10, 4], 0))? {
///     assert_eq!(function?.symbol_index, 4);
/// }
/// # Ok::<(), pulleynavy::Error>(())
/// ```
pub type InitFuncMap<'a> = SectionLimited<'a, InitFunc>;
/// A list of comdats.
///
/// # Examples
///
/// ```
/// use pulleynavy::{BinaryReader, ComdatMap};
///
/// for comdat in ComdatMap::new(BinaryReader::new(b"\x01\x01c\x00\x01\x01\x05", 0))? {
///     assert_eq!(comdat?.name, "c");
/// }
/// # Ok::<(), pulleynavy::Error>(())
/// ```
pub type ComdatMap<'a> = SectionLimited<'a, Comdat<'a>>;
/// A list of symbols.
///
/// # Examples
///
/// ```
/// use pulleynavy::{BinaryReader, SymbolInfo, SymbolInfoMap};
///
/// // The defined function 3 has the symbol "f".
/// for symbol in SymbolInfoMap::new(BinaryReader::new(b"\x01\0\0\x03\x01f", 0))? {
///     assert!(matches!(symbol?, SymbolInfo::Func { index: 3, name: Some("f"), .. }));
/// }
/// # Ok::<(), pulleynavy::Error>(())
/// ```
pub type SymbolInfoMap<'a> = SectionLimited<'a, SymbolInfo<'a>>;

/// A subsection of the section `linking`.
///
/// # Examples
///
/// ```
/// use pulleynavy::{BinaryReader, Linking, Subsection};
///
/// match Linking::from_reader(6, BinaryReader::new(&[1, 10, 4], 0))? {
///     Linking::InitFuncs(functions) => assert_eq!(functions.count(), 1),
///     _ => unreachable!(),
/// }
/// # Ok::<(), pulleynavy::Error>(())
/// ```
#[derive(Clone, Debug)]
pub enum Linking<'a> {
    /// Names, alignments and flags of data segments (id 5).
    SegmentInfo(SegmentMap<'a>),
    /// The functions to call at startup (id 6).
    InitFuncs(InitFuncMap<'a>),
    /// The comdats (id 7).
    ComdatInfo(ComdatMap<'a>),
    /// The symbol table (id 8).
    SymbolTable(SymbolInfoMap<'a>),
    /// The name of the target architecture (id 9).
    TargetArch(&'a str),
    /// A subsection with another id.
    Unknown {
        /// The id, below 128.
        ty: u8,
        /// The content, without the id and the size.
        data: &'a [u8],
        /// The offsets of the content, in bytes from the start of the stream.
        range: Range<u64>,
    },
}

impl<'a> Subsection<'a> for Linking<'a> {
    fn from_reader(id: u8, mut reader: BinaryReader<'a>) -> Result<Self> {
        Ok(match id {
            5 => Linking::SegmentInfo(SectionLimited::new(reader)?),
            6 => Linking::InitFuncs(SectionLimited::new(reader)?),
            7 => Linking::ComdatInfo(SectionLimited::new(reader)?),
            8 => Linking::SymbolTable(SectionLimited::new(reader)?),
            // Trailing bytes after the name are ignored.
            9 => Linking::TargetArch(reader.read_string()?),
            ty => Linking::Unknown { ty, data: reader.remaining_buffer(), range: reader.remaining_range() },
        })
    }
}

/// The name, the alignment and the flags of a data segment.
///
/// # Examples
///
/// ```
/// use pulleynavy::{BinaryReader, Segment};
///
/// let segment = BinaryReader::new(b"\x05.data\x02\x00", 0).read::<Segment>()?;
/// assert_eq!((segment.name, segment.alignment), (".data", 2));
/// # Ok::<(), pulleynavy::Error>(())
/// ```
#[derive(Clone, Copy, Debug, PartialEq, Eq, Hash)]
pub struct Segment<'a> {
    /// The name of the segment.
    pub name: &'a str,
    /// The alignment of the segment, as the base-2 logarithm of the bytes.
    pub alignment: u32,
    /// The flags of the segment.
    pub flags: SegmentFlags,
}

impl<'a> FromReader<'a> for Segment<'a> {
    fn from_reader(reader: &mut BinaryReader<'a>) -> Result<Self> {
        let custom::Segment { name, alignment, flags } = reader.by(custom::Segment::from_reader)?;
        Ok(Segment { name, alignment, flags: SegmentFlags::from_bits_retain(flags.bits()) })
    }
}

/// A function to call at startup.
///
/// # Examples
///
/// ```
/// use pulleynavy::{BinaryReader, InitFunc};
///
/// let function = BinaryReader::new(&[10, 4], 0).read::<InitFunc>()?;
/// assert_eq!(function, InitFunc { priority: 10, symbol_index: 4 });
/// # Ok::<(), pulleynavy::Error>(())
/// ```
#[derive(Clone, Copy, Debug, PartialEq, Eq, Hash)]
pub struct InitFunc {
    /// The priority: lower numbers are called first.
    pub priority: u32,
    /// The index of the function's symbol in the symbol table.
    pub symbol_index: u32,
}

impl<'a> FromReader<'a> for InitFunc {
    fn from_reader(reader: &mut BinaryReader<'a>) -> Result<Self> {
        let custom::InitFunc { priority, symbol_index } = reader.by(custom::InitFunc::from_reader)?;
        Ok(InitFunc { priority, symbol_index })
    }
}

/// A comdat: a group of symbols, of which the linker keeps one copy if several modules define it.
///
/// # Examples
///
/// ```
/// use pulleynavy::{BinaryReader, Comdat, ComdatSymbol, ComdatSymbolKind};
///
/// // The comdat "c" of function 5.
/// let comdat = BinaryReader::new(b"\x01c\x00\x01\x01\x05", 0).read::<Comdat>()?;
/// for symbol in comdat.symbols {
///     assert_eq!(symbol?, ComdatSymbol { kind: ComdatSymbolKind::Func, index: 5 });
/// }
/// # Ok::<(), pulleynavy::Error>(())
/// ```
#[derive(Clone, Debug)]
pub struct Comdat<'a> {
    /// The name of the comdat.
    pub name: &'a str,
    /// The flags. None is defined; they are not checked.
    pub flags: u32,
    /// The symbols of the comdat. They were checked, so iterating over them yields no error.
    pub symbols: SectionLimited<'a, ComdatSymbol>,
}

impl<'a> FromReader<'a> for Comdat<'a> {
    fn from_reader(reader: &mut BinaryReader<'a>) -> Result<Self> {
        let bytes = reader.rest;
        let custom::Comdat { name, flags, symbols } = reader.by(custom::Comdat::from_reader)?;
        Ok(Comdat { name, flags, symbols: SectionLimited::inside(bytes, &symbols) })
    }
}

/// A symbol of a comdat.
///
/// # Examples
///
/// ```
/// use pulleynavy::{BinaryReader, ComdatSymbol, ComdatSymbolKind};
///
/// let symbol = BinaryReader::new(&[1, 5], 0).read::<ComdatSymbol>()?;
/// assert_eq!(symbol, ComdatSymbol { kind: ComdatSymbolKind::Func, index: 5 });
/// # Ok::<(), pulleynavy::Error>(())
/// ```
#[derive(Clone, Copy, Debug, PartialEq, Eq, Hash)]
pub struct ComdatSymbol {
    /// The kind of the symbol.
    pub kind: ComdatSymbolKind,
    /// The index of the symbol, in the index space of the kind.
    pub index: u32,
}

/// The kind of a symbol of a comdat.
#[derive(Clone, Copy, Debug, PartialEq, Eq, Hash)]
pub enum ComdatSymbolKind {
    /// A data segment.
    Data,
    /// A function.
    Func,
    /// A global.
    Global,
    /// An event.
    Event,
    /// A table.
    Table,
    /// A section.
    Section,
}

impl ComdatSymbolKind {
    /// The kind that the proved sources have.
    fn of(kind: custom::ComdatSymbolKind) -> Self {
        match kind {
            custom::ComdatSymbolKind::Data => ComdatSymbolKind::Data,
            custom::ComdatSymbolKind::Func => ComdatSymbolKind::Func,
            custom::ComdatSymbolKind::Global => ComdatSymbolKind::Global,
            custom::ComdatSymbolKind::Event => ComdatSymbolKind::Event,
            custom::ComdatSymbolKind::Table => ComdatSymbolKind::Table,
            custom::ComdatSymbolKind::Section => ComdatSymbolKind::Section,
        }
    }
}

impl<'a> FromReader<'a> for ComdatSymbolKind {
    fn from_reader(reader: &mut BinaryReader<'a>) -> Result<Self> {
        reader.by(custom::ComdatSymbolKind::from_reader).map(ComdatSymbolKind::of)
    }
}

impl<'a> FromReader<'a> for ComdatSymbol {
    fn from_reader(reader: &mut BinaryReader<'a>) -> Result<Self> {
        let custom::ComdatSymbol { kind, index } = reader.by(custom::ComdatSymbol::from_reader)?;
        Ok(ComdatSymbol { kind: ComdatSymbolKind::of(kind), index })
    }
}

/// A symbol of the symbol table. Each has its flags and, except for sections, its name.
///
/// An undefined symbol without `EXPLICIT_NAME` has no name of its own (`None`) but that of its import.
///
/// # Examples
///
/// ```
/// use pulleynavy::{BinaryReader, SymbolFlags, SymbolInfo};
///
/// // An undefined function, imported as function 0.
/// let symbol = BinaryReader::new(&[0, 0x10, 0], 0).read::<SymbolInfo>()?;
/// assert_eq!(symbol, SymbolInfo::Func { flags: SymbolFlags::UNDEFINED, index: 0, name: None });
/// # Ok::<(), pulleynavy::Error>(())
/// ```
#[derive(Clone, Copy, Debug, PartialEq, Eq, Hash)]
pub enum SymbolInfo<'a> {
    /// A function.
    Func {
        /// The flags of the symbol.
        flags: SymbolFlags,
        /// The index of the function.
        index: u32,
        /// The name of the symbol, if it has one of its own.
        name: Option<&'a str>,
    },
    /// Data in a segment.
    Data {
        /// The flags of the symbol.
        flags: SymbolFlags,
        /// The name of the symbol.
        name: &'a str,
        /// The location of the data, if it is defined in this module.
        symbol: Option<DefinedDataSymbol>,
    },
    /// A global.
    Global {
        /// The flags of the symbol.
        flags: SymbolFlags,
        /// The index of the global.
        index: u32,
        /// The name of the symbol, if it has one of its own.
        name: Option<&'a str>,
    },
    /// A section.
    Section {
        /// The flags of the symbol.
        flags: SymbolFlags,
        /// The index of the section among all sections of the module.
        section: u32,
    },
    /// An event, which the core specification calls a tag.
    Event {
        /// The flags of the symbol.
        flags: SymbolFlags,
        /// The index of the event.
        index: u32,
        /// The name of the symbol, if it has one of its own.
        name: Option<&'a str>,
    },
    /// A table.
    Table {
        /// The flags of the symbol.
        flags: SymbolFlags,
        /// The index of the table.
        index: u32,
        /// The name of the symbol, if it has one of its own.
        name: Option<&'a str>,
    },
}

/// The location of a defined data symbol.
///
/// # Examples
///
/// ```
/// use pulleynavy::{BinaryReader, DefinedDataSymbol};
///
/// let place = BinaryReader::new(&[0, 8, 4], 0).read::<DefinedDataSymbol>()?;
/// assert_eq!(place, DefinedDataSymbol { index: 0, offset: 8, size: 4 });
/// # Ok::<(), pulleynavy::Error>(())
/// ```
#[derive(Clone, Copy, Debug, PartialEq, Eq, Hash)]
pub struct DefinedDataSymbol {
    /// The index of the data segment.
    pub index: u32,
    /// The offset of the data, in bytes from the start of the segment.
    pub offset: u32,
    /// The size of the data, in bytes.
    pub size: u32,
}

impl DefinedDataSymbol {
    /// The location that the proved sources have.
    fn of(place: custom::DefinedDataSymbol) -> Self {
        DefinedDataSymbol { index: place.index, offset: place.offset, size: place.size }
    }
}

impl<'a> FromReader<'a> for DefinedDataSymbol {
    fn from_reader(reader: &mut BinaryReader<'a>) -> Result<Self> {
        reader.by(custom::DefinedDataSymbol::from_reader).map(DefinedDataSymbol::of)
    }
}

/// The flags that the proved sources have.
pub(crate) fn flags_of(flags: custom::SymbolFlags) -> SymbolFlags {
    SymbolFlags::from_bits_retain(flags.bits())
}

impl<'a> FromReader<'a> for SymbolInfo<'a> {
    fn from_reader(reader: &mut BinaryReader<'a>) -> Result<Self> {
        Ok(match reader.by(custom::SymbolInfo::from_reader)? {
            custom::SymbolInfo::Func { flags, index, name } => SymbolInfo::Func { flags: flags_of(flags), index, name },
            custom::SymbolInfo::Data { flags, name, symbol } => SymbolInfo::Data { flags: flags_of(flags), name, symbol: symbol.map(DefinedDataSymbol::of) },
            custom::SymbolInfo::Global { flags, index, name } => SymbolInfo::Global { flags: flags_of(flags), index, name },
            custom::SymbolInfo::Section { flags, section } => SymbolInfo::Section { flags: flags_of(flags), section },
            custom::SymbolInfo::Event { flags, index, name } => SymbolInfo::Event { flags: flags_of(flags), index, name },
            custom::SymbolInfo::Table { flags, index, name } => SymbolInfo::Table { flags: flags_of(flags), index, name },
        })
    }
}
