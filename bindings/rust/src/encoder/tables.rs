//! The sections of tables, memories and tags.
use super::kinds::{memory_type, table_type, tag_type};
use super::{ConstExpr, MemoryType, TableType, sections};
use crate::TagType;
use crate::proved::items;

sections! {
    /// The table section.
    ///
    /// (Core specification, Binary format, Modules, Table Section.)
    TableSection Table,
    /// The memory section.
    ///
    /// (Core specification, Binary format, Modules, Memory Section.)
    MemorySection Memory,
    /// The tag section.
    ///
    /// (Core specification, Binary format, Modules, Tag Section.)
    TagSection Tag,
}

impl TableSection {
    /// Adds a table whose elements are null at first.
    pub fn table(&mut self, ty: TableType) -> &mut Self {
        self.items.add(&items::Table { ty: table_type(ty), init: items::TableInit::RefNull });
        self
    }

    /// Adds a table whose elements have this value at first.
    pub fn table_with_init(&mut self, ty: TableType, init: &ConstExpr) -> &mut Self {
        let bytes = init.with_end();
        self.items.add(&items::Table { ty: table_type(ty), init: items::TableInit::Expr(bytes.expression()) });
        self
    }
}

impl MemorySection {
    /// Adds a memory.
    pub fn memory(&mut self, ty: MemoryType) -> &mut Self {
        self.items.add(&memory_type(ty));
        self
    }
}

impl TagSection {
    /// Adds a tag.
    pub fn tag(&mut self, ty: TagType) -> &mut Self {
        self.items.add(&tag_type(ty));
        self
    }
}
