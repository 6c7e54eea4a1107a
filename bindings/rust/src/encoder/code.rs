//! Functions: the sections of their types and of their bodies, and the start section.
use super::{Encode, Section, SectionId, push_number, sections};
use crate::proved::base::BinaryReader;
use crate::proved::items;
use alloc::vec::Vec;

sections! {
    /// The function section: the type of each function.
    ///
    /// (Core specification, Binary format, Modules, Function Section.)
    FunctionSection Function,
    /// The code section: the body of each function.
    ///
    /// (Core specification, Binary format, Modules, Code Section.)
    CodeSection Code,
}

impl FunctionSection {
    /// Adds a function of the type with this index.
    pub fn function(&mut self, type_index: u32) -> &mut Self {
        self.items.add(&type_index);
        self
    }
}

impl CodeSection {
    /// Adds a body: its locals, its instructions and `end`, without its size.
    pub fn raw(&mut self, data: &[u8]) -> &mut Self {
        self.items.add(&items::FunctionBody::new(BinaryReader::new(data, 0)));
        self
    }

    /// Returns how many bytes the bodies have, with their sizes.
    #[must_use]
    pub fn byte_len(&self) -> usize {
        self.items.bytes.len()
    }
}

/// The start section: the function that is called first.
///
/// (Core specification, Binary format, Modules, Start Section.)
#[derive(Clone, Copy, Debug, PartialEq, Eq)]
pub struct StartSection {
    /// The index of the function.
    pub function_index: u32,
}

impl Encode for StartSection {
    fn encode(&self, sink: &mut Vec<u8>) {
        push_single(sink, self.function_index);
    }
}

impl Section for StartSection {
    fn id(&self) -> u8 {
        SectionId::Start.into()
    }
}

/// Appends the length and the content of a section that is one number.
pub(super) fn push_single(sink: &mut Vec<u8>, number: u32) {
    let mut content = Vec::new();
    push_number(&mut content, number.into());
    super::push_sized(sink, &[], &content);
}
