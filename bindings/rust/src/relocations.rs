//! Relocations.
use crate::proved::base::FromReader as _;
use crate::proved::custom;
use crate::{BinaryReader, Error, Fault, FromReader, Lead, Result, SectionLimited};
use core::ops::Range;

/// The encoding of the addend of a relocation type.
#[derive(Clone, Copy, Debug, PartialEq, Eq, Hash)]
pub enum RelocAddendKind {
    /// No addend.
    None,
    /// A signed 32-bit number.
    Addend32,
    /// A signed 64-bit number.
    Addend64,
}

/// The types of relocations: number, name, addend, and how many bytes are filled in.
macro_rules! relocation_types {
    ($($number:literal $name:ident $addend:ident $extent:literal,)*) => {
        /// The type of a relocation: what the linker writes, and in which encoding. The names are those of the conventions for
        /// linking.
        ///
        /// # Examples
        ///
        /// ```
        /// use pulleynavy::{RelocAddendKind, RelocationType};
        ///
        /// let ty = RelocationType::MemoryAddrI32;
        /// assert_eq!((ty as u8, ty.extent(), ty.addend_kind()), (5, 4, RelocAddendKind::Addend32));
        /// assert_eq!(RelocationType::try_from(5), Ok(ty));
        /// ```
        #[derive(Clone, Copy, Debug, PartialEq, Eq, Hash)]
        #[repr(u8)]
        pub enum RelocationType {
            $(
                #[doc = concat!("Number ", $number, ": fills in ", $extent, " bytes. Its addend is `RelocAddendKind::", stringify!($addend), "`.")]
                $name = $number,
            )*
        }

        impl TryFrom<u8> for RelocationType {
            type Error = ();

            fn try_from(number: u8) -> Result<Self, ()> {
                match number {
                    $($number => Ok(RelocationType::$name),)*
                    _ => Err(()),
                }
            }
        }

        impl RelocationType {
            /// Returns the encoding of the addend of such relocations.
            pub const fn addend_kind(self) -> RelocAddendKind {
                match self {
                    $(RelocationType::$name => RelocAddendKind::$addend,)*
                }
            }

            /// Returns the number of bytes that such a relocation fills in: 4, 5, 8 or 10.
            pub const fn extent(self) -> usize {
                match self {
                    $(RelocationType::$name => $extent,)*
                }
            }
        }
    };
}

relocation_types! {
    0 FunctionIndexLeb None 5,
    1 TableIndexSleb None 5,
    2 TableIndexI32 None 4,
    3 MemoryAddrLeb Addend32 5,
    4 MemoryAddrSleb Addend32 5,
    5 MemoryAddrI32 Addend32 4,
    6 TypeIndexLeb None 5,
    7 GlobalIndexLeb None 5,
    8 FunctionOffsetI32 Addend32 4,
    9 SectionOffsetI32 Addend32 4,
    10 EventIndexLeb None 5,
    11 MemoryAddrRelSleb Addend32 5,
    12 TableIndexRelSleb None 5,
    13 GlobalIndexI32 None 4,
    14 MemoryAddrLeb64 Addend64 10,
    15 MemoryAddrSleb64 Addend64 10,
    16 MemoryAddrI64 Addend64 8,
    17 MemoryAddrRelSleb64 Addend64 10,
    18 TableIndexSleb64 None 10,
    19 TableIndexI64 None 8,
    20 TableNumberLeb None 5,
    21 MemoryAddrTlsSleb Addend32 5,
    22 FunctionOffsetI64 Addend64 8,
    23 MemoryAddrLocrelI32 Addend32 4,
    24 TableIndexRelSleb64 None 10,
    25 MemoryAddrTlsSleb64 Addend64 10,
    26 FunctionIndexI32 None 4,
}

impl<'a> FromReader<'a> for RelocationType {
    fn from_reader(reader: &mut BinaryReader<'a>) -> Result<Self> {
        reader.read_kind(Lead::Reloc, |byte| RelocationType::try_from(byte).ok())
    }
}

/// A list of relocations.
///
/// # Examples
///
/// ```
/// use pulleynavy::{BinaryReader, RelocationEntryReader};
///
/// for entry in RelocationEntryReader::new(BinaryReader::new(&[1, 0, 6, 2], 0))? {
///     assert_eq!(entry?.offset, 6);
/// }
/// # Ok::<(), pulleynavy::Error>(())
/// ```
pub type RelocationEntryReader<'a> = SectionLimited<'a, RelocationEntry>;

/// A section whose name begins with `reloc.`: the relocations of another section.
///
/// # Examples
///
/// ```
/// use pulleynavy::{BinaryReader, RelocationType, RelocSectionReader};
///
/// // In section 3: the index of function symbol 2, at offset 6.
/// let section = RelocSectionReader::new(BinaryReader::new(&[3, 1, 0, 6, 2], 0))?;
/// assert_eq!(section.section_index(), 3);
/// for entry in section.entries() {
///     assert_eq!(entry?.ty, RelocationType::FunctionIndexLeb);
/// }
/// # Ok::<(), pulleynavy::Error>(())
/// ```
#[derive(Clone, Debug)]
pub struct RelocSectionReader<'a> {
    section: u32,
    range: Range<u64>,
    entries: RelocationEntryReader<'a>,
}

impl<'a> RelocSectionReader<'a> {
    /// Reads the index of the relocated section and the count of relocations from the remaining bytes of a reader.
    ///
    /// # Errors
    ///
    /// Those of [`BinaryReader::read_var_u32`] for the two numbers.
    pub fn new(mut reader: BinaryReader<'a>) -> Result<Self> {
        let range = reader.remaining_range();
        let section = reader.read_var_u32()?;
        Ok(RelocSectionReader { section, range, entries: SectionLimited::new(reader)? })
    }

    /// Returns the index of the relocated section among all sections of the module.
    #[must_use]
    pub fn section_index(&self) -> u32 {
        self.section
    }

    /// Returns the offsets of the data, in bytes from the start of the stream.
    #[must_use]
    pub fn range(&self) -> Range<u64> {
        self.range.clone()
    }

    /// Returns the list of relocations.
    #[must_use]
    pub fn entries(&self) -> RelocationEntryReader<'a> {
        self.entries.clone()
    }
}

/// A relocation: a place in a section that the linker fills in.
///
/// # Examples
///
/// ```
/// use pulleynavy::{BinaryReader, RelocationEntry};
///
/// // The address of symbol 2 plus 8, at offset 6.
/// let entry = BinaryReader::new(&[3, 6, 2, 8], 0).read::<RelocationEntry>()?;
/// assert_eq!((entry.index, entry.addend), (2, 8));
/// assert_eq!(entry.relocation_range()?, 6..11);
/// # Ok::<(), pulleynavy::Error>(())
/// ```
#[derive(Clone, Copy, Debug, PartialEq, Eq, Hash)]
pub struct RelocationEntry {
    /// The type of the relocation.
    pub ty: RelocationType,
    /// The offset of the place, in bytes from the start of the section's content.
    pub offset: u32,
    /// The index of the symbol whose value is written; for `TypeIndexLeb`, the index of a type.
    pub index: u32,
    /// The addend, which is added to the value; 0 if the type has none.
    pub addend: i64,
}

impl RelocationEntry {
    /// Returns the range of the bytes that the relocation fills in, in bytes from the start of the section's content.
    ///
    /// # Errors
    ///
    /// `OffsetRange` if the range ends beyond the largest `usize`, which cannot happen with 64 bits.
    pub fn relocation_range(&self) -> Result<Range<usize>> {
        let start = self.offset as usize;
        let end = start.checked_add(self.ty.extent()).ok_or_else(|| Error::new(Fault::OffsetRange, self.offset.into()))?;
        Ok(start..end)
    }
}

impl<'a> FromReader<'a> for RelocationEntry {
    fn from_reader(reader: &mut BinaryReader<'a>) -> Result<Self> {
        let custom::RelocationEntry { ty, offset, index, addend } = reader.by(custom::RelocationEntry::from_reader)?;
        let ty = RelocationType::try_from(ty as u8).expect("the proved sources refuse other types");
        Ok(RelocationEntry { ty, offset, index, addend })
    }
}
