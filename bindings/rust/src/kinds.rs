//! Types of tables, memories, globals and tags.
use crate::proved::base::FromReader as _;
use crate::proved::items;
use crate::{BinaryReader, FromReader, RefType, Result, ValType};

/// The type of a table.
///
/// # Examples
///
/// ```
/// use pulleynavy::{BinaryReader, RefType, TableType};
///
/// // A table of 10 to 20 function references.
/// let ty = BinaryReader::new(&[0x70, 0x01, 10, 20], 0).read::<TableType>()?;
/// assert_eq!((ty.initial, ty.maximum), (10, Some(20)));
/// assert_eq!(ty.element_type, RefType::FUNCREF);
/// # Ok::<(), pulleynavy::Error>(())
/// ```
#[derive(Clone, Copy, Debug, PartialEq, Eq, Hash)]
pub struct TableType {
    /// The type of the elements.
    pub element_type: RefType,
    /// Whether indices have 64 bits.
    pub table64: bool,
    /// The initial number of elements.
    pub initial: u64,
    /// The maximum number of elements, if limited.
    pub maximum: Option<u64>,
    /// Whether threads share the table.
    pub shared: bool,
}

/// The type of a memory.
///
/// # Examples
///
/// ```
/// use pulleynavy::{BinaryReader, MemoryType, ValType};
///
/// // A memory of 1 to 16 pages.
/// let ty = BinaryReader::new(&[0x01, 1, 16], 0).read::<MemoryType>()?;
/// assert_eq!((ty.initial, ty.maximum), (1, Some(16)));
/// assert_eq!(ty.index_type(), ValType::I32);
/// # Ok::<(), pulleynavy::Error>(())
/// ```
#[derive(Clone, Copy, Debug, PartialEq, Eq, Hash)]
pub struct MemoryType {
    /// Whether addresses have 64 bits.
    pub memory64: bool,
    /// Whether threads share the memory.
    pub shared: bool,
    /// The initial size, in pages.
    pub initial: u64,
    /// The maximum size, in pages, if limited.
    pub maximum: Option<u64>,
    /// The base-2 logarithm of the page size in bytes. If `None`, a page has 65,536 bytes.
    pub page_size_log2: Option<u32>,
}

/// The type of the indices of a table, or the addresses of a memory.
const fn index_type(is_64: bool) -> ValType {
    if is_64 { ValType::I64 } else { ValType::I32 }
}

impl TableType {
    /// Returns the type of the table's indices: `i64` for a 64-bit table, otherwise `i32`.
    #[must_use]
    pub fn index_type(&self) -> ValType {
        index_type(self.table64)
    }
}

impl MemoryType {
    /// Returns the type of the memory's addresses: `i64` for a 64-bit memory, otherwise `i32`.
    #[must_use]
    pub fn index_type(&self) -> ValType {
        index_type(self.memory64)
    }
}

/// The type of a global.
///
/// # Examples
///
/// ```
/// use pulleynavy::{BinaryReader, GlobalType, ValType};
///
/// let ty = BinaryReader::new(&[0x7f, 0x01], 0).read::<GlobalType>()?;
/// assert_eq!(ty, GlobalType { content_type: ValType::I32, mutable: true, shared: false });
/// # Ok::<(), pulleynavy::Error>(())
/// ```
#[derive(Clone, Copy, Debug, PartialEq, Eq, Hash)]
pub struct GlobalType {
    /// The type of the value.
    pub content_type: ValType,
    /// Whether the value is mutable.
    pub mutable: bool,
    /// Whether threads share the global.
    pub shared: bool,
}

/// The use of a tag.
#[derive(Clone, Copy, Debug, PartialEq, Eq, Hash)]
pub enum TagKind {
    /// Exceptions.
    Exception,
}

/// The type of a tag.
///
/// # Examples
///
/// ```
/// use pulleynavy::{BinaryReader, TagKind, TagType};
///
/// let ty = BinaryReader::new(&[0, 4], 0).read::<TagType>()?;
/// assert_eq!(ty, TagType { kind: TagKind::Exception, func_type_idx: 4 });
/// # Ok::<(), pulleynavy::Error>(())
/// ```
#[derive(Clone, Copy, Debug, PartialEq, Eq, Hash)]
pub struct TagType {
    /// The use of the tag.
    pub kind: TagKind,
    /// The index of the function type whose parameters the tag carries.
    pub func_type_idx: u32,
}

/// The type of a tag of exceptions, by its function type.
pub(crate) fn exception_tag(func_type_idx: u32) -> TagType {
    TagType { kind: TagKind::Exception, func_type_idx }
}

impl TableType {
    /// The type that the proved sources have.
    pub(crate) fn of(ty: items::TableType) -> Self {
        let items::TableType { element_type, table64, initial, maximum, shared } = ty;
        TableType { element_type: RefType::of(element_type), table64, initial, maximum, shared }
    }
}

impl MemoryType {
    /// The type that the proved sources have.
    pub(crate) fn of(ty: items::MemoryType) -> Self {
        let items::MemoryType { memory64, shared, initial, maximum, page_size_log2 } = ty;
        MemoryType { memory64, shared, initial, maximum, page_size_log2 }
    }
}

impl GlobalType {
    /// The type that the proved sources have.
    #[inline(always)]
    pub(crate) fn of(ty: items::GlobalType) -> Self {
        GlobalType { content_type: ValType::of(ty.content_type), mutable: ty.mutable, shared: ty.shared }
    }
}

impl<'a> FromReader<'a> for TableType {
    fn from_reader(reader: &mut BinaryReader<'a>) -> Result<Self> {
        reader.by(items::TableType::from_reader).map(TableType::of)
    }
}

impl<'a> FromReader<'a> for GlobalType {
    fn from_reader(reader: &mut BinaryReader<'a>) -> Result<Self> {
        reader.by(items::GlobalType::from_reader).map(GlobalType::of)
    }
}

impl<'a> FromReader<'a> for MemoryType {
    fn from_reader(reader: &mut BinaryReader<'a>) -> Result<Self> {
        reader.by(items::MemoryType::from_reader).map(MemoryType::of)
    }
}

impl<'a> FromReader<'a> for TagType {
    fn from_reader(reader: &mut BinaryReader<'a>) -> Result<Self> {
        let items::TagType { func_type_idx, .. } = reader.by(items::TagType::from_reader)?;
        Ok(exception_tag(func_type_idx))
    }
}
