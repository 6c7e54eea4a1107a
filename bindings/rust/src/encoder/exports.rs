//! The export section.
use super::sections;
use crate::proved::items;

/// The kind of an export.
#[derive(Clone, Copy, Debug, PartialEq, Eq, Hash, PartialOrd, Ord)]
pub enum ExportKind {
    /// A function.
    Func,
    /// A table.
    Table,
    /// A memory.
    Memory,
    /// A global.
    Global,
    /// A tag.
    Tag,
}

sections! {
    /// The export section.
    ///
    /// (Core specification, Binary format, Modules, Export Section.)
    ExportSection Export,
}

impl ExportSection {
    /// Adds an export.
    pub fn export(&mut self, name: &str, kind: ExportKind, index: u32) -> &mut Self {
        let kind = match kind {
            ExportKind::Func => items::ExternalKind::Func,
            ExportKind::Table => items::ExternalKind::Table,
            ExportKind::Memory => items::ExternalKind::Memory,
            ExportKind::Global => items::ExternalKind::Global,
            ExportKind::Tag => items::ExternalKind::Tag,
        };
        self.items.add(&items::Export { name, kind, index });
        self
    }
}
