//! The import section.
use super::kinds::{global_type, memory_type, table_type, tag_type};
use super::{GlobalType, MemoryType, TableType, sections};
use crate::TagType;
use crate::proved::items;

/// What is imported.
#[derive(Clone, Copy, Debug, PartialEq, Eq, Hash)]
pub enum EntityType {
    /// A function of the type with this index.
    Function(u32),
    /// A table.
    Table(TableType),
    /// A memory.
    Memory(MemoryType),
    /// A global.
    Global(GlobalType),
    /// A tag.
    Tag(TagType),
    /// A function of exactly the type with this index.
    FunctionExact(u32),
}

macro_rules! entities {
    ($($from:ident $variant:ident,)*) => {
        $(
            impl From<$from> for EntityType {
                fn from(ty: $from) -> Self {
                    EntityType::$variant(ty)
                }
            }
        )*
    };
}

entities! {
    TableType Table,
    MemoryType Memory,
    GlobalType Global,
    TagType Tag,
}

fn type_ref(ty: EntityType) -> items::TypeRef {
    match ty {
        EntityType::Function(index) => items::TypeRef::Func(index),
        EntityType::Table(ty) => items::TypeRef::Table(table_type(ty)),
        EntityType::Memory(ty) => items::TypeRef::Memory(memory_type(ty)),
        EntityType::Global(ty) => items::TypeRef::Global(global_type(ty)),
        EntityType::Tag(ty) => items::TypeRef::Tag(tag_type(ty)),
        EntityType::FunctionExact(index) => items::TypeRef::FuncExact(index),
    }
}

sections! {
    /// The import section.
    ///
    /// (Core specification, Binary format, Modules, Import Section.)
    ImportSection Import,
}

impl ImportSection {
    /// Adds an import.
    pub fn import(&mut self, module: &str, field: &str, ty: impl Into<EntityType>) -> &mut Self {
        self.items.add(&items::Import { module, name: field, ty: type_ref(ty.into()) });
        self
    }
}
