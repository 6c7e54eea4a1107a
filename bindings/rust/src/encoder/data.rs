//! Data: the data section, and the data count section.
use super::code::push_single;
use super::{ConstExpr, Encode, Section, SectionId, sections};
use crate::proved::items;
use alloc::vec::Vec;

sections! {
    /// The data section.
    ///
    /// (Core specification, Binary format, Modules, Data Section.)
    DataSection Data,
}

/// A data segment.
#[derive(Clone, Debug)]
pub struct DataSegment<'a, D> {
    /// Whether the segment is active.
    pub mode: DataSegmentMode<'a>,
    /// The bytes to copy.
    pub data: D,
}

/// Whether a data segment is active.
#[derive(Clone, Debug)]
pub enum DataSegmentMode<'a> {
    /// An active segment, which is copied at instantiation.
    Active {
        /// The index of the memory.
        memory_index: u32,
        /// The address of the first byte.
        offset: &'a ConstExpr,
    },
    /// A passive segment, which instructions copy.
    Passive,
}

impl DataSection {
    /// Adds an active segment.
    pub fn active<D>(&mut self, memory_index: u32, offset: &ConstExpr, data: D) -> &mut Self
    where
        D: IntoIterator<Item = u8>,
        D::IntoIter: ExactSizeIterator,
    {
        self.segment(DataSegment { mode: DataSegmentMode::Active { memory_index, offset }, data })
    }

    /// Adds a passive segment.
    pub fn passive<D>(&mut self, data: D) -> &mut Self
    where
        D: IntoIterator<Item = u8>,
        D::IntoIter: ExactSizeIterator,
    {
        self.segment(DataSegment { mode: DataSegmentMode::Passive, data })
    }

    /// Adds a segment.
    pub fn segment<D>(&mut self, segment: DataSegment<'_, D>) -> &mut Self
    where
        D: IntoIterator<Item = u8>,
        D::IntoIter: ExactSizeIterator,
    {
        let bytes: Vec<u8> = segment.data.into_iter().collect();
        match segment.mode {
            DataSegmentMode::Passive => self.items.add(&items::Data { kind: items::DataKind::Passive, bytes: &bytes, range: 0..0 }),
            DataSegmentMode::Active { memory_index, offset } => {
                let offset = offset.with_end();
                let kind = items::DataKind::Active { memory_index, offset_expr: offset.expression() };
                self.items.add(&items::Data { kind, bytes: &bytes, range: 0..0 });
            }
        }
        self
    }
}

/// The data count section: how many segments the data section has.
///
/// (Core specification, Binary format, Modules, Data Count Section.)
#[derive(Clone, Copy, Debug, PartialEq, Eq)]
pub struct DataCountSection {
    /// The number of segments.
    pub count: u32,
}

impl Encode for DataCountSection {
    fn encode(&self, sink: &mut Vec<u8>) {
        push_single(sink, self.count);
    }
}

impl Section for DataCountSection {
    fn id(&self) -> u8 {
        SectionId::DataCount.into()
    }
}
