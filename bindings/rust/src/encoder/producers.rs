//! The custom section `producers`.
use super::{Encode, Items, Section, SectionId, push, push_name, push_number, push_sized};
use crate::proved::custom::ProducersFieldValue;
use alloc::vec::Vec;

/// The custom section `producers`: which tools made the module.
///
/// (Tool conventions, Producers Section.)
#[derive(Clone, Debug, Default, PartialEq, Eq)]
pub struct ProducersSection {
    bytes: Vec<u8>,
    count: u32,
}

/// A field of the section, with the name and the version of each tool.
#[derive(Clone, Debug, Default, PartialEq, Eq)]
pub struct ProducersField {
    values: Items,
}

impl ProducersField {
    /// Returns a field without values.
    #[must_use]
    pub fn new() -> Self {
        Self::default()
    }

    /// Adds a tool.
    pub fn value(&mut self, name: &str, version: &str) -> &mut Self {
        push(&mut self.values.bytes, &ProducersFieldValue { name, version });
        self.values.count += 1;
        self
    }
}

impl ProducersSection {
    /// Returns a section without fields.
    #[must_use]
    pub fn new() -> Self {
        Self::default()
    }

    /// Adds a field: `language`, `processed-by` or `sdk`, each at most once.
    pub fn field(&mut self, name: &str, values: &ProducersField) -> &mut Self {
        push_name(&mut self.bytes, name);
        push_number(&mut self.bytes, values.values.count.into());
        self.bytes.extend_from_slice(&values.values.bytes);
        self.count += 1;
        self
    }
}

impl Encode for ProducersSection {
    fn encode(&self, sink: &mut Vec<u8>) {
        let mut first = b"\x09producers".to_vec();
        push_number(&mut first, self.count.into());
        push_sized(sink, &first, &self.bytes);
    }
}

impl Section for ProducersSection {
    fn id(&self) -> u8 {
        SectionId::Custom.into()
    }
}
