//! Custom sections that are known by their names.
use crate::composites::{Instances, Items, read_list};
use crate::cores::{CoreDumpModulesSection, CoreDumpSection, CoreDumpStackSection};
use crate::linking::{LinkingSectionReader, flags_of};
use crate::proved::base::FromReader as _;
use crate::proved::custom;
use crate::relocations::RelocSectionReader;
use crate::{BinaryReader, CustomSectionReader, FromReader, NameSectionReader, Result, SectionLimited, Subsection, Subsections, SymbolFlags};
use core::ops::Range;

/// The data of a custom section, read as the name of the section says.
///
/// # Examples
///
/// ```
/// use pulleynavy::{BinaryReader, CustomSectionReader, KnownCustom};
///
/// let section = CustomSectionReader::new(BinaryReader::new(b"\x04core\x00\x03app", 0))?;
/// match section.as_known() {
///     KnownCustom::CoreDump(dump) => assert_eq!(dump.name, "app"),
///     _ => unreachable!(),
/// }
/// # Ok::<(), pulleynavy::Error>(())
/// ```
#[derive(Clone, Debug)]
#[non_exhaustive]
pub enum KnownCustom<'a> {
    /// The section `name`.
    Name(NameSectionReader<'a>),
    /// The section `metadata.code.branch_hint`.
    BranchHints(BranchHintSectionReader<'a>),
    /// The section `producers`.
    Producers(ProducersSectionReader<'a>),
    /// The section `dylink.0`.
    Dylink0(Dylink0SectionReader<'a>),
    /// The section `core`.
    CoreDump(CoreDumpSection<'a>),
    /// The section `corestack`.
    CoreDumpStack(CoreDumpStackSection<'a>),
    /// The section `coreinstances`.
    CoreDumpInstances(Instances<'a>),
    /// The section `coremodules`.
    CoreDumpModules(CoreDumpModulesSection<'a>),
    /// The section `linking`.
    Linking(LinkingSectionReader<'a>),
    /// A section whose name begins with `reloc.`.
    Reloc(RelocSectionReader<'a>),
    /// A section with another name, or one whose data the reader for its name rejects.
    Unknown,
}

impl<'a> CustomSectionReader<'a> {
    /// Returns a reader for the data, selected by the name of the section.
    ///
    /// The result is [`KnownCustom::Unknown`] if the name is not known, or if the `new` of the selected reader returns an error.
    #[must_use]
    pub fn as_known(&self) -> KnownCustom<'a> {
        self.known().unwrap_or(KnownCustom::Unknown)
    }

    fn known(&self) -> Result<KnownCustom<'a>> {
        let (name, data) = (self.name(), self.data_reader());
        Ok(match name {
            "name" => KnownCustom::Name(NameSectionReader::new(data)),
            "metadata.code.branch_hint" => KnownCustom::BranchHints(BranchHintSectionReader::new(data)?),
            "producers" => KnownCustom::Producers(ProducersSectionReader::new(data)?),
            "dylink.0" => KnownCustom::Dylink0(Dylink0SectionReader::new(data)),
            "linking" => KnownCustom::Linking(LinkingSectionReader::new(data)?),
            "core" => KnownCustom::CoreDump(CoreDumpSection::new(data)?),
            "coremodules" => KnownCustom::CoreDumpModules(CoreDumpModulesSection::new(data)?),
            "coreinstances" => KnownCustom::CoreDumpInstances(Instances::new(data)?),
            "corestack" => KnownCustom::CoreDumpStack(CoreDumpStackSection::new(data)?),
            _ if name.starts_with("reloc.") => KnownCustom::Reloc(RelocSectionReader::new(data)?),
            _ => KnownCustom::Unknown,
        })
    }
}

// ---- producers and hints

/// The section `producers`, whose items are fields.
///
/// # Examples
///
/// ```
/// use pulleynavy::{BinaryReader, ProducersSectionReader};
///
/// let bytes = b"\x01\x08language\x01\x04Rust\x00";
/// for field in ProducersSectionReader::new(BinaryReader::new(bytes, 0))? {
///     let field = field?;
///     assert_eq!((field.name, field.values.count()), ("language", 1));
/// }
/// # Ok::<(), pulleynavy::Error>(())
/// ```
pub type ProducersSectionReader<'a> = SectionLimited<'a, ProducersField<'a>>;

/// A field of the section `producers`: the values for one kind of tool.
///
/// # Examples
///
/// ```
/// use pulleynavy::{BinaryReader, ProducersField};
///
/// let field = BinaryReader::new(b"\x03sdk\x01\x01X\x012", 0).read::<ProducersField>()?;
/// for value in field.values {
///     assert_eq!(value?.version, "2");
/// }
/// # Ok::<(), pulleynavy::Error>(())
/// ```
#[derive(Clone, Debug)]
pub struct ProducersField<'a> {
    /// The kind of the values: `language`, `sdk` or `processed-by`.
    pub name: &'a str,
    /// The languages or tools, read lazily.
    pub values: SectionLimited<'a, ProducersFieldValue<'a>>,
}

impl<'a> FromReader<'a> for ProducersField<'a> {
    fn from_reader(reader: &mut BinaryReader<'a>) -> Result<Self> {
        let bytes = reader.rest;
        let custom::ProducersField { name, values } = reader.by(custom::ProducersField::from_reader)?;
        Ok(ProducersField { name, values: SectionLimited::inside(bytes, &values) })
    }
}

/// A language or tool that a module was produced with.
///
/// # Examples
///
/// ```
/// use pulleynavy::{BinaryReader, ProducersFieldValue};
///
/// let value = BinaryReader::new(b"\x01C\x0299", 0).read::<ProducersFieldValue>()?;
/// assert_eq!((value.name, value.version), ("C", "99"));
/// # Ok::<(), pulleynavy::Error>(())
/// ```
#[derive(Clone, Copy, Debug, PartialEq, Eq, Hash)]
pub struct ProducersFieldValue<'a> {
    /// The name of the language or tool.
    pub name: &'a str,
    /// The version of the language or tool, possibly empty.
    pub version: &'a str,
}

impl<'a> FromReader<'a> for ProducersFieldValue<'a> {
    fn from_reader(reader: &mut BinaryReader<'a>) -> Result<Self> {
        let custom::ProducersFieldValue { name, version } = reader.by(custom::ProducersFieldValue::from_reader)?;
        Ok(ProducersFieldValue { name, version })
    }
}

/// The section `metadata.code.branch_hint`, whose items are functions.
///
/// # Examples
///
/// ```
/// use pulleynavy::{BinaryReader, BranchHintSectionReader};
///
/// // In function 3, the branch at offset 9 is likely.
/// for function in BranchHintSectionReader::new(BinaryReader::new(&[1, 3, 1, 9, 1, 1], 0))? {
///     let function = function?;
///     assert_eq!((function.func, function.hints.count()), (3, 1));
/// }
/// # Ok::<(), pulleynavy::Error>(())
/// ```
pub type BranchHintSectionReader<'a> = SectionLimited<'a, BranchHintFunction<'a>>;

/// The branch hints of a function.
///
/// # Examples
///
/// ```
/// use pulleynavy::{BinaryReader, BranchHintFunction};
///
/// let function = BinaryReader::new(&[3, 1, 9, 1, 1], 0).read::<BranchHintFunction>()?;
/// for hint in function.hints {
///     assert_eq!(hint?.func_offset, 9);
/// }
/// # Ok::<(), pulleynavy::Error>(())
/// ```
#[derive(Clone, Debug)]
pub struct BranchHintFunction<'a> {
    /// The index of the function.
    pub func: u32,
    /// The hints of the function. They were checked, so iterating over them yields no error.
    pub hints: SectionLimited<'a, BranchHint>,
}

impl<'a> FromReader<'a> for BranchHintFunction<'a> {
    fn from_reader(reader: &mut BinaryReader<'a>) -> Result<Self> {
        let bytes = reader.rest;
        let custom::BranchHintFunction { func, hints } = reader.by(custom::BranchHintFunction::from_reader)?;
        Ok(BranchHintFunction { func, hints: SectionLimited::inside(bytes, &hints) })
    }
}

/// A branch hint: whether a branch is likely to be taken.
///
/// # Examples
///
/// ```
/// use pulleynavy::{BinaryReader, BranchHint};
///
/// let hint = BinaryReader::new(&[9, 1, 1], 0).read::<BranchHint>()?;
/// assert_eq!(hint, BranchHint { func_offset: 9, taken: true });
/// # Ok::<(), pulleynavy::Error>(())
/// ```
#[derive(Clone, Copy, Debug, PartialEq, Eq, Hash)]
pub struct BranchHint {
    /// The offset of the branch instruction, in bytes from the start of the function's body.
    pub func_offset: u32,
    /// Whether the branch is likely to be taken.
    pub taken: bool,
}

impl<'a> FromReader<'a> for BranchHint {
    fn from_reader(reader: &mut BinaryReader<'a>) -> Result<Self> {
        let custom::BranchHint { func_offset, taken } = reader.by(custom::BranchHint::from_reader)?;
        Ok(BranchHint { func_offset, taken })
    }
}

// ---- dynamic linking

/// The section `dylink.0`, an iterator over subsections.
///
/// # Examples
///
/// ```
/// use pulleynavy::{BinaryReader, Dylink0SectionReader, Dylink0Subsection};
///
/// // The library needs "a.so".
/// for subsection in Dylink0SectionReader::new(BinaryReader::new(b"\x02\x06\x01\x04a.so", 0)) {
///     match subsection? {
///         Dylink0Subsection::Needed(libraries) => assert!(libraries.into_iter().eq(["a.so"])),
///         _ => unreachable!(),
///     }
/// }
/// # Ok::<(), pulleynavy::Error>(())
/// ```
pub type Dylink0SectionReader<'a> = Subsections<'a, Dylink0Subsection<'a>>;

/// A subsection of the section `dylink.0`.
///
/// # Examples
///
/// ```
/// use pulleynavy::{BinaryReader, Dylink0Subsection, Subsection};
///
/// match Dylink0Subsection::from_reader(1, BinaryReader::new(&[16, 2, 1, 0], 0))? {
///     Dylink0Subsection::MemInfo(info) => assert_eq!(info.memory_size, 16),
///     _ => unreachable!(),
/// }
/// # Ok::<(), pulleynavy::Error>(())
/// ```
#[derive(Clone, Debug)]
pub enum Dylink0Subsection<'a> {
    /// The memory and table space that the library needs (id 1).
    MemInfo(MemInfo),
    /// The names of the libraries that the library needs (id 2).
    Needed(Items<'a, &'a str>),
    /// The flags of exported symbols (id 3).
    ExportInfo(Items<'a, ExportInfo<'a>>),
    /// The flags of imported symbols (id 4).
    ImportInfo(Items<'a, ImportInfo<'a>>),
    /// The directories to search for libraries (id 5).
    RuntimePath(Items<'a, &'a str>),
    /// The name of the target architecture (id 6).
    TargetArch(&'a str),
    /// A subsection with another id.
    Unknown {
        /// The id, below 128.
        ty: u8,
        /// The content, without the id and the size.
        data: &'a [u8],
        /// The offsets of the content, in bytes from the start of the stream.
        range: Range<u64>,
    },
}

/// Reads a subsection. Bytes after its last part are ignored.
impl<'a> Subsection<'a> for Dylink0Subsection<'a> {
    fn from_reader(id: u8, mut reader: BinaryReader<'a>) -> Result<Self> {
        let reader = &mut reader;
        Ok(match id {
            1 => Dylink0Subsection::MemInfo(reader.read()?),
            2 => Dylink0Subsection::Needed(texts(reader)?),
            3 => Dylink0Subsection::ExportInfo(read_list(reader, ExportInfo::from_reader)?),
            4 => Dylink0Subsection::ImportInfo(read_list(reader, ImportInfo::from_reader)?),
            5 => Dylink0Subsection::RuntimePath(texts(reader)?),
            6 => Dylink0Subsection::TargetArch(reader.read_unlimited_string()?),
            ty => Dylink0Subsection::Unknown { ty, data: reader.remaining_buffer(), range: reader.remaining_range() },
        })
    }
}

/// A count and this many strings of any size.
fn texts<'a>(reader: &mut BinaryReader<'a>) -> Result<Items<'a, &'a str>> {
    read_list(reader, BinaryReader::read_unlimited_string)
}

/// The memory and table space that a library needs.
///
/// # Examples
///
/// ```
/// use pulleynavy::{BinaryReader, MemInfo};
///
/// let info = BinaryReader::new(&[16, 2, 1, 0], 0).read::<MemInfo>()?;
/// assert_eq!((info.memory_size, info.memory_alignment), (16, 2));
/// # Ok::<(), pulleynavy::Error>(())
/// ```
#[derive(Clone, Copy, Debug, PartialEq, Eq, Hash)]
pub struct MemInfo {
    /// The size of the memory area, in bytes.
    pub memory_size: u32,
    /// The alignment of the memory area, as the base-2 logarithm of the bytes.
    pub memory_alignment: u32,
    /// The size of the table area, in elements.
    pub table_size: u32,
    /// The alignment of the table area, as the base-2 logarithm of the elements.
    pub table_alignment: u32,
}

impl<'a> FromReader<'a> for MemInfo {
    fn from_reader(reader: &mut BinaryReader<'a>) -> Result<Self> {
        let info = reader.by(custom::MemInfo::from_reader)?;
        let custom::MemInfo { memory_size, memory_alignment, table_size, table_alignment } = info;
        Ok(MemInfo { memory_size, memory_alignment, table_size, table_alignment })
    }
}

/// The flags of an export's symbol, for a dynamic linker.
///
/// # Examples
///
/// ```
/// use pulleynavy::{BinaryReader, ExportInfo, SymbolFlags};
///
/// let export = BinaryReader::new(b"\x01f\x80\x02", 0).read::<ExportInfo>()?;
/// assert_eq!((export.name, export.flags), ("f", SymbolFlags::TLS));
/// # Ok::<(), pulleynavy::Error>(())
/// ```
#[derive(Clone, Copy, Debug, PartialEq, Eq, Hash)]
pub struct ExportInfo<'a> {
    /// The name of the export.
    pub name: &'a str,
    /// The flags of the symbol.
    pub flags: SymbolFlags,
}

impl<'a> FromReader<'a> for ExportInfo<'a> {
    fn from_reader(reader: &mut BinaryReader<'a>) -> Result<Self> {
        let custom::ExportInfo { name, flags } = reader.by(custom::ExportInfo::from_reader)?;
        Ok(ExportInfo { name, flags: flags_of(flags) })
    }
}

/// The flags of an import's symbol, for a dynamic linker.
///
/// # Examples
///
/// ```
/// use pulleynavy::{BinaryReader, ImportInfo, SymbolFlags};
///
/// let import = BinaryReader::new(b"\x03env\x01f\x01", 0).read::<ImportInfo>()?;
/// assert_eq!((import.module, import.field), ("env", "f"));
/// assert_eq!(import.flags, SymbolFlags::BINDING_WEAK);
/// # Ok::<(), pulleynavy::Error>(())
/// ```
#[derive(Clone, Copy, Debug, PartialEq, Eq, Hash)]
pub struct ImportInfo<'a> {
    /// The name of the module to import from.
    pub module: &'a str,
    /// The name of the import in that module.
    pub field: &'a str,
    /// The flags of the symbol.
    pub flags: SymbolFlags,
}

impl<'a> FromReader<'a> for ImportInfo<'a> {
    fn from_reader(reader: &mut BinaryReader<'a>) -> Result<Self> {
        let custom::ImportInfo { module, field, flags } = reader.by(custom::ImportInfo::from_reader)?;
        Ok(ImportInfo { module, field, flags: flags_of(flags) })
    }
}
