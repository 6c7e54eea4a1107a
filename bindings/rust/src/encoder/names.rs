//! The custom section `name`.
use super::{Encode, Section, SectionId, push, push_name, push_number, push_sized};
use crate::proved::custom::Naming;
use alloc::vec::Vec;

/// Names by indices, which must ascend.
///
/// (Core specification, Appendix, Custom Sections, Name Section, Name Maps.)
#[derive(Clone, Debug, Default, PartialEq, Eq)]
pub struct NameMap {
    bytes: Vec<u8>,
    count: u32,
}

impl NameMap {
    /// Returns a map without names.
    #[must_use]
    pub fn new() -> Self {
        Self::default()
    }

    /// Adds the name of what has this index.
    pub fn append(&mut self, index: u32, name: &str) {
        push(&mut self.bytes, &Naming { index, name });
        self.count += 1;
    }

    /// Returns whether there are no names.
    #[must_use]
    pub fn is_empty(&self) -> bool {
        self.count == 0
    }
}

impl Encode for NameMap {
    fn encode(&self, sink: &mut Vec<u8>) {
        push_number(sink, self.count.into());
        sink.extend_from_slice(&self.bytes);
    }
}

/// Name maps by indices, which must ascend: of the locals of each function, say.
///
/// (Core specification, Appendix, Custom Sections, Name Section, Name Maps.)
#[derive(Clone, Debug, Default, PartialEq, Eq)]
pub struct IndirectNameMap {
    bytes: Vec<u8>,
    count: u32,
}

impl IndirectNameMap {
    /// Returns a map without name maps.
    #[must_use]
    pub fn new() -> Self {
        Self::default()
    }

    /// Adds the names below this index.
    pub fn append(&mut self, index: u32, names: &NameMap) {
        push_number(&mut self.bytes, index.into());
        names.encode(&mut self.bytes);
        self.count += 1;
    }

    /// Returns whether there are no name maps.
    #[must_use]
    pub fn is_empty(&self) -> bool {
        self.count == 0
    }
}

impl Encode for IndirectNameMap {
    fn encode(&self, sink: &mut Vec<u8>) {
        push_number(sink, self.count.into());
        sink.extend_from_slice(&self.bytes);
    }
}

/// The custom section `name`: names for debuggers and profilers. Add its subsections in the order of the methods.
///
/// (Core specification, Appendix, Custom Sections, Name Section.)
#[derive(Clone, Debug, Default, PartialEq, Eq)]
pub struct NameSection {
    bytes: Vec<u8>,
}

/// A method for each subsection: its name, its id and its content.
macro_rules! subsections {
    ($($(#[$doc:meta])* $name:ident $id:literal $map:ident,)*) => {
        impl NameSection {
            $(
                $(#[$doc])*
                pub fn $name(&mut self, names: &$map) -> &mut Self {
                    self.subsection($id, names)
                }
            )*
        }
    };
}

impl NameSection {
    /// Returns a section without names.
    #[must_use]
    pub fn new() -> Self {
        Self::default()
    }

    /// Returns whether there are no subsections.
    #[must_use]
    pub fn is_empty(&self) -> bool {
        self.bytes.is_empty()
    }

    fn subsection(&mut self, id: u8, content: &impl Encode) -> &mut Self {
        let mut bytes = Vec::new();
        content.encode(&mut bytes);
        self.bytes.push(id);
        push_sized(&mut self.bytes, &[], &bytes);
        self
    }

    /// Adds the name of the module.
    pub fn module(&mut self, name: &str) -> &mut Self {
        let mut bytes = Vec::new();
        push_name(&mut bytes, name);
        self.bytes.push(0);
        push_sized(&mut self.bytes, &[], &bytes);
        self
    }
}

subsections! {
    /// Adds the names of functions.
    functions 1 NameMap,
    /// Adds the names of the locals of functions.
    locals 2 IndirectNameMap,
    /// Adds the names of the labels of functions.
    labels 3 IndirectNameMap,
    /// Adds the names of types.
    types 4 NameMap,
    /// Adds the names of tables.
    tables 5 NameMap,
    /// Adds the names of memories.
    memories 6 NameMap,
    /// Adds the names of globals.
    globals 7 NameMap,
    /// Adds the names of element segments.
    elements 8 NameMap,
    /// Adds the names of data segments.
    data 9 NameMap,
    /// Adds the names of the fields of types.
    fields 10 IndirectNameMap,
    /// Adds the names of tags.
    tag 11 NameMap,
}

impl Encode for NameSection {
    fn encode(&self, sink: &mut Vec<u8>) {
        push_sized(sink, b"\x04name", &self.bytes);
    }
}

impl Section for NameSection {
    fn id(&self) -> u8 {
        SectionId::Custom.into()
    }
}
