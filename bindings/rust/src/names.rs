//! The section `name`.
use crate::proved::base::FromReader as _;
use crate::proved::custom;
use crate::{BinaryReader, Error, Fault, FromReader, Result, SectionLimited, SectionLimitedIntoIter, Subsection, Subsections};
use core::ops::Range;

/// An entry of a name map: an index and a name.
///
/// # Examples
///
/// ```
/// use pulleynavy::{BinaryReader, Naming};
///
/// let naming = BinaryReader::new(b"\x05\x01f", 0).read::<Naming>()?;
/// assert_eq!(naming, Naming { index: 5, name: "f" });
/// # Ok::<(), pulleynavy::Error>(())
/// ```
#[derive(Clone, Copy, Debug, PartialEq, Eq, Hash)]
pub struct Naming<'a> {
    /// The index of the named item, in the index space of the map.
    pub index: u32,
    /// The name of the item.
    pub name: &'a str,
}

impl<'a> FromReader<'a> for Naming<'a> {
    fn from_reader(reader: &mut BinaryReader<'a>) -> Result<Self> {
        let custom::Naming { index, name } = reader.by(custom::Naming::from_reader)?;
        Ok(Naming { index, name })
    }
}

/// An entry of an indirect name map: an index and a name map.
///
/// # Examples
///
/// ```
/// use pulleynavy::{BinaryReader, IndirectNaming};
///
/// // Local 0 of function 5 is called "x".
/// let function = BinaryReader::new(b"\x05\x01\x00\x01x", 0).read::<IndirectNaming>()?;
/// assert_eq!(function.index, 5);
/// for local in function.names {
///     assert_eq!(local?.name, "x");
/// }
/// # Ok::<(), pulleynavy::Error>(())
/// ```
#[derive(Clone, Debug)]
pub struct IndirectNaming<'a> {
    /// The index of the item whose parts are named, such as a function.
    pub index: u32,
    /// The names of the parts, such as the locals of the function.
    pub names: NameMap<'a>,
}

impl<'a> FromReader<'a> for IndirectNaming<'a> {
    fn from_reader(reader: &mut BinaryReader<'a>) -> Result<Self> {
        let bytes = reader.rest;
        let custom::IndirectNaming { index, names } = reader.by(custom::IndirectNaming::from_reader)?;
        Ok(IndirectNaming { index, names: NameMap::of(SectionLimited::inside(bytes, &names.names.into())) })
    }
}

/// The last index or id in order. One that is not above it is an error, and the iteration continues.
#[derive(Clone, Debug, Default)]
struct Last(Option<u32>);

impl Last {
    /// Takes the next one, or returns this fault at this offset.
    fn then(&mut self, next: u32, fault: Fault, offset: u64) -> Result<()> {
        if self.0.is_some_and(|last| next <= last) {
            return Err(Error::new(fault, offset));
        }
        self.0 = Some(next);
        Ok(())
    }
}

/// Declares an iterator over entries with ascending indices, with the fault of one that is not above the last.
macro_rules! ascending {
    ($(#[$doc:meta])* $name:ident, $entry:ident, $fault:expr) => {
        $(#[$doc])*
        #[derive(Clone, Debug)]
        pub struct $name<'a> {
            /// An iterator over the remaining entries as encoded, in any order.
            pub names: SectionLimitedIntoIter<'a, $entry<'a>>,
            last: Last,
        }

        impl<'a> $name<'a> {
            /// Takes the remaining bytes of a reader as a map, and reads the count. The entries are read lazily.
            ///
            /// # Errors
            ///
            /// Those of [`BinaryReader::read_var_u32`] for the count.
            pub fn new(reader: BinaryReader<'a>) -> Result<Self> {
                Ok($name::of(SectionLimited::new(reader)?))
            }

            fn of(names: SectionLimited<'a, $entry<'a>>) -> Self {
                $name { names: names.into_iter(), last: Last::default() }
            }

            /// Returns the offset of the next entry, in bytes from the start of the stream.
            pub fn original_position(&self) -> u64 {
                self.names.original_position()
            }
        }

        impl<'a> Iterator for $name<'a> {
            type Item = Result<$entry<'a>>;

            fn next(&mut self) -> Option<Self::Item> {
                let offset = self.names.original_position();
                let entry = self.names.next()?;
                Some(entry.and_then(|entry| self.last.then(entry.index, $fault, offset).map(|()| entry)))
            }

            fn size_hint(&self) -> (usize, Option<usize>) {
                self.names.size_hint()
            }
        }
    };
}

ascending! {
    /// A name map, an iterator over entries whose indices ascend.
    ///
    /// # Errors
    ///
    /// An entry whose index is not above every index returned before is `NamesOrder` at the start of the entry, and the next one follows.
    /// The iterator ends after the error of a malformed entry, or after `SizeMismatch` if bytes follow the last entry.
    ///
    /// # Examples
    ///
    /// ```
    /// use pulleynavy::{BinaryReader, Error, Fault, NameMap, Naming};
    ///
    /// // The indices are 5 and 3.
    /// let mut names = NameMap::new(BinaryReader::new(b"\x02\x05\x01a\x03\x01b", 0))?;
    /// assert_eq!(names.next(), Some(Ok(Naming { index: 5, name: "a" })));
    /// assert_eq!(names.next(), Some(Err(Error::new(Fault::NamesOrder, 4))));
    /// # Ok::<(), pulleynavy::Error>(())
    /// ```
    NameMap, Naming, Fault::NamesOrder
}
ascending! {
    /// An indirect name map, an iterator over entries whose indices ascend.
    ///
    /// # Errors
    ///
    /// Those of [`NameMap`], with `IndirectOrder` for an index that does not ascend.
    ///
    /// # Examples
    ///
    /// ```
    /// use pulleynavy::{BinaryReader, IndirectNameMap};
    ///
    /// // Local 0 of function 5 is called "x".
    /// for function in IndirectNameMap::new(BinaryReader::new(b"\x01\x05\x01\x00\x01x", 0))? {
    ///     assert_eq!(function?.index, 5);
    /// }
    /// # Ok::<(), pulleynavy::Error>(())
    /// ```
    IndirectNameMap, IndirectNaming, Fault::IndirectOrder
}

/// The section `name`, an iterator over subsections whose ids ascend.
///
/// # Errors
///
/// A subsection whose id is not above every id returned before is `NameSectionOrder` at the start of the subsection. After it, or
/// after the error of a malformed subsection, the next one follows.
///
/// # Examples
///
/// ```
/// use pulleynavy::{BinaryReader, Name, NameSectionReader, Naming};
///
/// // The name of the module, then the name "f" for function 5.
/// let bytes = b"\x00\x04\x03app\x01\x04\x01\x05\x01f";
/// for subsection in NameSectionReader::new(BinaryReader::new(bytes, 0)) {
///     match subsection? {
///         Name::Module { name, .. } => assert_eq!(name, "app"),
///         Name::Function(names) => assert!(names.eq([Ok(Naming { index: 5, name: "f" })])),
///         _ => unreachable!(),
///     }
/// }
/// # Ok::<(), pulleynavy::Error>(())
/// ```
#[derive(Clone, Debug)]
pub struct NameSectionReader<'a> {
    /// An iterator over the remaining subsections as encoded, in any order.
    pub sections: Subsections<'a, Name<'a>>,
    last: Last,
}

impl<'a> NameSectionReader<'a> {
    /// Takes the remaining bytes of a reader as subsections. Nothing is read yet.
    #[must_use]
    pub fn new(reader: BinaryReader<'a>) -> Self {
        NameSectionReader { sections: Subsections::new(reader), last: Last::default() }
    }

    /// Returns the offset of the next subsection, in bytes from the start of the stream.
    #[must_use]
    pub fn original_position(&self) -> u64 {
        self.sections.original_position()
    }

    /// Returns the offsets of all bytes, including those that were read, in bytes from the start of the stream.
    #[must_use]
    pub fn range(&self) -> Range<u64> {
        self.sections.range()
    }
}

impl<'a> Iterator for NameSectionReader<'a> {
    type Item = Result<Name<'a>>;

    fn next(&mut self) -> Option<Self::Item> {
        let offset = self.sections.original_position();
        let id = self.sections.next_id()?;
        let name = self.sections.next()?;
        Some(name.and_then(|name| self.last.then(id.into(), Fault::NameSectionOrder, offset).map(|()| name)))
    }
}

/// A subsection of the section `name`.
///
/// # Examples
///
/// ```
/// use pulleynavy::{BinaryReader, Name, Subsection};
///
/// match Name::from_reader(0, BinaryReader::new(b"\x03app", 0))? {
///     Name::Module { name, .. } => assert_eq!(name, "app"),
///     _ => unreachable!(),
/// }
/// # Ok::<(), pulleynavy::Error>(())
/// ```
#[derive(Clone, Debug)]
pub enum Name<'a> {
    /// The name of the module (id 0).
    Module {
        /// The name, of at most 100,000 bytes.
        name: &'a str,
        /// The offsets of the size and the name, in bytes from the start of the stream.
        name_range: Range<u64>,
    },
    /// The names of functions (id 1).
    Function(NameMap<'a>),
    /// The names of locals, by function (id 2).
    Local(IndirectNameMap<'a>),
    /// The names of labels, by function (id 3).
    Label(IndirectNameMap<'a>),
    /// The names of types (id 4).
    Type(NameMap<'a>),
    /// The names of tables (id 5).
    Table(NameMap<'a>),
    /// The names of memories (id 6).
    Memory(NameMap<'a>),
    /// The names of globals (id 7).
    Global(NameMap<'a>),
    /// The names of element segments (id 8).
    Element(NameMap<'a>),
    /// The names of data segments (id 9).
    Data(NameMap<'a>),
    /// The names of fields, by type (id 10).
    Field(IndirectNameMap<'a>),
    /// The names of tags (id 11).
    Tag(NameMap<'a>),
    /// The names of parameters, by type (id 12).
    Parameter(IndirectNameMap<'a>),
    /// The names of the parameters of tags, by tag (id 13).
    TagParameter(IndirectNameMap<'a>),
    /// A subsection with another id.
    Unknown {
        /// The id, below 128.
        ty: u8,
        /// The content, without the id and the size.
        data: &'a [u8],
        /// The offsets of the content, in bytes from the start of the stream.
        range: Range<u64>,
    },
}

impl<'a> Subsection<'a> for Name<'a> {
    fn from_reader(id: u8, reader: BinaryReader<'a>) -> Result<Self> {
        Ok(match id {
            0 => module(reader)?,
            1 => Name::Function(NameMap::new(reader)?),
            2 => Name::Local(IndirectNameMap::new(reader)?),
            3 => Name::Label(IndirectNameMap::new(reader)?),
            4 => Name::Type(NameMap::new(reader)?),
            5 => Name::Table(NameMap::new(reader)?),
            6 => Name::Memory(NameMap::new(reader)?),
            7 => Name::Global(NameMap::new(reader)?),
            8 => Name::Element(NameMap::new(reader)?),
            9 => Name::Data(NameMap::new(reader)?),
            10 => Name::Field(IndirectNameMap::new(reader)?),
            11 => Name::Tag(NameMap::new(reader)?),
            12 => Name::Parameter(IndirectNameMap::new(reader)?),
            13 => Name::TagParameter(IndirectNameMap::new(reader)?),
            ty => Name::Unknown { ty, data: reader.remaining_buffer(), range: reader.remaining_range() },
        })
    }
}

/// The name of the module, without trailing bytes.
fn module(mut reader: BinaryReader<'_>) -> Result<Name<'_>> {
    let name_range = reader.remaining_range();
    let name = reader.read_string()?;
    reader.expect_end(Fault::NameTrailing)?;
    Ok(Name::Module { name, name_range })
}
