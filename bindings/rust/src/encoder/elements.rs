//! The element section.
use super::types::ref_type;
use super::{ConstExpr, push_number, sections};
use crate::RefType;
use crate::proved::base::{BinaryReader, SectionLimited};
use crate::proved::items;
use alloc::borrow::Cow;
use alloc::vec::Vec;

sections! {
    /// The element section.
    ///
    /// (Core specification, Binary format, Modules, Element Section.)
    ElementSection Element,
}

/// The elements of a segment.
#[derive(Clone, Debug)]
pub enum Elements<'a> {
    /// Indices of functions.
    Functions(Cow<'a, [u32]>),
    /// The type of the elements, and an expression for each.
    Expressions(RefType, Cow<'a, [ConstExpr]>),
}

/// The kind of an element segment.
#[derive(Clone, Debug)]
pub enum ElementMode<'a> {
    /// A passive segment, which instructions copy.
    Passive,
    /// An active segment, which is copied at instantiation.
    Active {
        /// The index of the table. `None` is table 0, which is not written where the format needs no index.
        table: Option<u32>,
        /// The index of the first element.
        offset: &'a ConstExpr,
    },
    /// A segment that only declares functions.
    Declared,
}

/// An element segment.
#[derive(Clone, Debug)]
pub struct ElementSegment<'a> {
    /// The kind of the segment.
    pub mode: ElementMode<'a>,
    /// The elements.
    pub elements: Elements<'a>,
}

impl Elements<'_> {
    /// The bytes of the elements, one after the other, and their number.
    fn bytes(&self) -> (Vec<u8>, u32) {
        let mut bytes = Vec::new();
        let count = match self {
            Elements::Functions(functions) => {
                functions.iter().for_each(|index| push_number(&mut bytes, (*index).into()));
                functions.len()
            }
            Elements::Expressions(_, expressions) => {
                expressions.iter().for_each(|expression| bytes.extend_from_slice(expression.with_end().as_slice()));
                expressions.len()
            }
        };
        (bytes, u32::try_from(count).expect("fewer than 2^32 elements"))
    }

    /// Whether an active segment of them needs the index of its table.
    fn need_index(&self) -> bool {
        matches!(self, Elements::Expressions(ty, _) if *ty != RefType::FUNCREF)
    }
}

impl ElementSection {
    /// Adds a passive segment.
    pub fn passive(&mut self, elements: Elements<'_>) -> &mut Self {
        self.segment(ElementSegment { mode: ElementMode::Passive, elements })
    }

    /// Adds an active segment, by default of table 0.
    pub fn active(&mut self, table_index: Option<u32>, offset: &ConstExpr, elements: Elements<'_>) -> &mut Self {
        self.segment(ElementSegment { mode: ElementMode::Active { table: table_index, offset }, elements })
    }

    /// Adds a segment that only declares functions.
    pub fn declared(&mut self, elements: Elements<'_>) -> &mut Self {
        self.segment(ElementSegment { mode: ElementMode::Declared, elements })
    }

    /// Adds a segment.
    pub fn segment(&mut self, segment: ElementSegment<'_>) -> &mut Self {
        let ElementSegment { mode, elements } = segment;
        let (bytes, count) = elements.bytes();
        let offset = match &mode {
            ElementMode::Active { offset, .. } => offset.with_end(),
            ElementMode::Passive | ElementMode::Declared => ConstExpr::empty(),
        };
        let kind = match mode {
            ElementMode::Passive => items::ElementKind::Passive,
            ElementMode::Declared => items::ElementKind::Declared,
            ElementMode::Active { table, .. } => {
                let table_index = if elements.need_index() { table.or(Some(0)) } else { table };
                items::ElementKind::Active { table_index, offset_expr: offset.expression() }
            }
        };
        let window = BinaryReader::new(&bytes, 0);
        let items = match elements {
            Elements::Functions(_) => items::ElementItems::Functions(SectionLimited::after_count(window, count)),
            Elements::Expressions(ty, _) => items::ElementItems::Expressions(ref_type(ty), SectionLimited::after_count(window, count)),
        };
        self.items.add(&items::Element { kind, items, range: 0..0 });
        self
    }
}
