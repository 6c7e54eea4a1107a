//! Parts that a parser skipped.
use core::ops::Range;

use crate::proved::frames;

/// A section or body that [`Parser::skip_part`](crate::Parser::skip_part) skipped.
#[derive(Clone, Debug, PartialEq, Eq)]
pub struct SkippedPart<'a> {
    /// The offsets of its content. If the stream ends before `range.end`, its error is an unexpected end of input at `range.start`.
    pub range: Range<u64>,
    /// The first fields of the content.
    pub head: PartHead<'a>,
}

/// The first fields of a section or body that was skipped.
#[derive(Clone, Copy, Debug, PartialEq, Eq)]
#[non_exhaustive]
pub enum PartHead<'a> {
    /// A custom section.
    Custom {
        /// Its name.
        name: &'a str,
        /// The offset of its data, after the name.
        data_offset: u64,
    },
    /// A section that is a count and its items.
    Items {
        /// The id of the section.
        id: u8,
        /// The number of its items.
        count: u32,
    },
    /// A section with an unknown id.
    Unknown {
        /// The id of the section.
        id: u8,
    },
    /// A function body.
    Body,
}

impl<'a> SkippedPart<'a> {
    /// The part that the proved sources skipped.
    pub(crate) fn of(part: frames::SkippedPart<'a>) -> Self {
        let head = match part.head {
            frames::PartHead::Custom { name, data_offset } => PartHead::Custom { name, data_offset },
            frames::PartHead::Items { id, count } => PartHead::Items { id, count },
            frames::PartHead::Unknown { id } => PartHead::Unknown { id },
            frames::PartHead::Body => PartHead::Body,
        };
        SkippedPart { range: part.range, head }
    }
}
