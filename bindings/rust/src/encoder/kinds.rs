//! Types of tables, memories and globals.
use super::types::{ref_type, val_type};
use crate::proved::items;
use crate::{RefType, TagType, ValType};

/// The type of a table.
#[derive(Clone, Copy, Debug, PartialEq, Eq, Hash)]
pub struct TableType {
    /// The type of the elements.
    pub element_type: RefType,
    /// Whether indices have 64 bits.
    pub table64: bool,
    /// The initial number of elements.
    pub minimum: u64,
    /// The maximum number of elements, if limited.
    pub maximum: Option<u64>,
    /// Whether threads share the table.
    pub shared: bool,
}

/// The type of a memory.
#[derive(Clone, Copy, Debug, PartialEq, Eq, Hash)]
pub struct MemoryType {
    /// The initial size, in pages.
    pub minimum: u64,
    /// The maximum size, in pages, if limited.
    pub maximum: Option<u64>,
    /// Whether addresses have 64 bits.
    pub memory64: bool,
    /// Whether threads share the memory.
    pub shared: bool,
    /// The base-2 logarithm of the page size in bytes. If `None`, a page has 65,536 bytes.
    pub page_size_log2: Option<u32>,
}

/// The type of a global.
#[derive(Clone, Copy, Debug, PartialEq, Eq, Hash)]
pub struct GlobalType {
    /// The type of the value.
    pub val_type: ValType,
    /// Whether the value is mutable.
    pub mutable: bool,
    /// Whether threads share the global.
    pub shared: bool,
}

pub(super) fn table_type(ty: TableType) -> items::TableType {
    let TableType { element_type, table64, minimum, maximum, shared } = ty;
    items::TableType { element_type: ref_type(element_type), table64, initial: minimum, maximum, shared }
}

pub(super) fn memory_type(ty: MemoryType) -> items::MemoryType {
    let MemoryType { minimum, maximum, memory64, shared, page_size_log2 } = ty;
    items::MemoryType { memory64, shared, initial: minimum, maximum, page_size_log2 }
}

pub(super) fn global_type(ty: GlobalType) -> items::GlobalType {
    items::GlobalType { content_type: val_type(ty.val_type), mutable: ty.mutable, shared: ty.shared }
}

pub(super) fn tag_type(ty: TagType) -> items::TagType {
    items::TagType { kind: items::TagKind::Exception, func_type_idx: ty.func_type_idx }
}
