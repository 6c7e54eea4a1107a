//! Counted items in a window.
use crate::proved::base;
use crate::proved::bitflags::Flags;
use crate::proved::frames::Frame;
use crate::{BinaryReader, Error, Fault, Result};
use core::fmt;
use core::iter::FusedIterator;
use core::marker::PhantomData;
use core::ops::Range;

/// Bytes of a stream, with their offset in the stream and the enabled features. They end at most at offset 2^64 - 1.
#[derive(Clone, Copy, Debug)]
pub(crate) struct Window<'a> {
    pub(crate) bytes: &'a [u8],
    pub(crate) offset: u64,
    pub(crate) features: u32,
}

impl<'a> Window<'a> {
    /// The remaining bytes of a proved reader.
    #[inline(always)]
    pub(crate) fn of(reader: &base::BinaryReader<'a>) -> Self {
        Window { bytes: reader.remaining_buffer(), offset: reader.original_position(), features: reader.features().bits() }
    }

    /// A proved reader of the bytes.
    #[inline(always)]
    pub(crate) fn reader(&self) -> base::BinaryReader<'a> {
        base::BinaryReader::new_features(self.bytes, self.offset, base::WasmFeatures::from_bits_retain(self.features))
    }

    /// Its offsets.
    pub(crate) fn range(&self) -> Range<u64> {
        self.offset..self.offset + self.bytes.len() as u64
    }

    /// The remaining bytes after this many.
    pub(crate) fn after(&self, count: usize) -> Self {
        Window { bytes: &self.bytes[count..], offset: self.offset + count as u64, features: self.features }
    }

    /// The remaining bytes from this offset on, which lies in the window or at its end.
    pub(crate) fn from(&self, offset: u64) -> Self {
        self.after((offset - self.offset) as usize)
    }

    /// Its first bytes, as many as this.
    pub(crate) fn front(&self, size: usize) -> Self {
        Window { bytes: &self.bytes[..size], ..*self }
    }
}

/// A type that can be read from a [`BinaryReader`].
///
/// Implement it to read your own items as a section.
///
/// # Examples
///
/// ```
/// use pulleynavy::{BinaryReader, FromReader, SectionLimited};
///
/// struct Pair(u32, u32);
///
/// impl<'a> FromReader<'a> for Pair {
///     fn from_reader(reader: &mut BinaryReader<'a>) -> pulleynavy::Result<Self> {
///         Ok(Pair(reader.read()?, reader.read()?))
///     }
/// }
///
/// let pairs = SectionLimited::<Pair>::new(BinaryReader::new(&[1, 3, 4], 0))?;
/// for pair in pairs {
///     assert_eq!(pair?.1, 4);
/// }
/// # Ok::<(), pulleynavy::Error>(())
/// ```
pub trait FromReader<'a>: Sized {
    /// Reads an item at the reader's position and moves past it.
    ///
    /// # Errors
    ///
    /// The error of a malformed or truncated item, at the offset that its [`Fault`](crate::Fault) documents. The reader is then
    /// at its previous position or inside the item.
    fn from_reader(reader: &mut BinaryReader<'a>) -> Result<Self>;
}

/// Reads an unsigned 32-bit number in LEB128, with the errors of [`BinaryReader::read_var_u32`].
impl<'a> FromReader<'a> for u32 {
    fn from_reader(reader: &mut BinaryReader<'a>) -> Result<Self> {
        reader.read_var_u32()
    }
}

/// Reads a string of at most 100,000 bytes, with the errors of [`BinaryReader::read_string`].
impl<'a> FromReader<'a> for &'a str {
    fn from_reader(reader: &mut BinaryReader<'a>) -> Result<Self> {
        reader.read_string()
    }
}

/// Reads a byte that is 0 or 1. Any other byte is `InvalidBool` at the byte.
impl<'a> FromReader<'a> for bool {
    fn from_reader(reader: &mut BinaryReader<'a>) -> Result<Self> {
        let offset = reader.original_position();
        match reader.read_u8()? {
            0 => Ok(false),
            1 => Ok(true),
            _ => Err(Error::new(Fault::InvalidBool, offset)),
        }
    }
}

/// Reads an item and the one after it, with the errors of both.
impl<'a, T: FromReader<'a>, U: FromReader<'a>> FromReader<'a> for (T, U) {
    fn from_reader(reader: &mut BinaryReader<'a>) -> Result<Self> {
        Ok((reader.read()?, reader.read()?))
    }
}

/// A section that begins with a count of items, or a list of items inside another item.
///
/// The items are read lazily, when you iterate over them. Cloning it is cheap.
///
/// # Examples
///
/// ```
/// use pulleynavy::{BinaryReader, SectionLimited};
///
/// let section = SectionLimited::<u32>::new(BinaryReader::new(&[2, 5, 7], 100))?;
/// assert_eq!(section.count(), 2);
/// let numbers = section.into_iter().collect::<Result<Vec<_>, _>>()?;
/// assert_eq!(numbers, [5, 7]);
/// # Ok::<(), pulleynavy::Error>(())
/// ```
pub struct SectionLimited<'a, T> {
    whole: Range<u64>,
    rest: Window<'a>,
    count: u32,
    item: PhantomData<fn() -> T>,
}

impl<T> Clone for SectionLimited<'_, T> {
    fn clone(&self) -> Self {
        SectionLimited { whole: self.whole.clone(), ..*self }
    }
}

impl<T> fmt::Debug for SectionLimited<'_, T> {
    fn fmt(&self, f: &mut fmt::Formatter<'_>) -> fmt::Result {
        f.debug_struct("SectionLimited").field("count", &self.count).field("range", &self.range()).finish()
    }
}

impl<'a, T> SectionLimited<'a, T> {
    /// Takes the remaining bytes of a reader as a section, and reads the count. The items are not read.
    ///
    /// # Errors
    ///
    /// Those of [`BinaryReader::read_var_u32`] for the count.
    pub fn new(mut reader: BinaryReader<'a>) -> Result<Self> {
        let whole = reader.remaining_range();
        let count = reader.read_var_u32()?;
        Ok(SectionLimited { whole, rest: reader.rest, count, item: PhantomData })
    }

    /// The section of a frame, whose count was read.
    #[inline(always)]
    pub(crate) fn counted(frame: Frame<'a>) -> Self {
        let (whole, count) = (frame.range(), frame.count());
        SectionLimited { whole, rest: Window::of(&frame.into_reader()), count, item: PhantomData }
    }

    /// The list inside an item that the proved sources have read of these bytes.
    pub(crate) fn inside<P>(bytes: Window<'a>, list: &base::SectionLimited<'a, P>) -> Self {
        let (whole, items) = (list.range(), bytes.from(list.original_position()));
        let rest = items.front((whole.end - items.offset) as usize);
        SectionLimited { whole, rest, count: list.count(), item: PhantomData }
    }

    /// Returns the announced number of items.
    #[must_use]
    pub fn count(&self) -> u32 {
        self.count
    }

    /// Returns the offset of the first item, in bytes from the start of the stream.
    #[must_use]
    pub fn original_position(&self) -> u64 {
        self.rest.offset
    }

    /// Returns the offsets of the section with its count, in bytes from the start of the stream.
    #[must_use]
    pub fn range(&self) -> Range<u64> {
        self.whole.clone()
    }

    /// Returns an iterator over the items, each with its offset in bytes from the start of the stream.
    ///
    /// # Examples
    ///
    /// ```
    /// use pulleynavy::{BinaryReader, SectionLimited};
    ///
    /// let section = SectionLimited::<u32>::new(BinaryReader::new(&[2, 0x85, 0, 7], 100))?;
    /// let items = section.into_iter_with_offsets().collect::<Result<Vec<_>, _>>()?;
    /// assert_eq!(items, [(101, 5), (103, 7)]);
    /// # Ok::<(), pulleynavy::Error>(())
    /// ```
    #[must_use]
    pub fn into_iter_with_offsets(self) -> SectionLimitedIntoIterWithOffsets<'a, T> {
        SectionLimitedIntoIterWithOffsets { items: SectionLimitedIntoIter { left: self.count, section: self, ended: false } }
    }
}

impl<'a, T: FromReader<'a>> IntoIterator for SectionLimited<'a, T> {
    type Item = Result<T>;
    type IntoIter = SectionLimitedIntoIter<'a, T>;

    fn into_iter(self) -> Self::IntoIter {
        self.into_iter_with_offsets().items
    }
}

/// An iterator over the items of a section.
///
/// # Errors
///
/// It yields the error of the first malformed item and then ends. If bytes follow the last item, it ends with `SizeMismatch` at
/// the first of them.
///
/// # Examples
///
/// ```
/// use pulleynavy::{BinaryReader, Error, Fault, SectionLimited};
///
/// let section = SectionLimited::<u32>::new(BinaryReader::new(&[1, 5, 7], 100))?;
/// let mut items = section.into_iter();
/// assert_eq!(items.next(), Some(Ok(5)));
/// assert_eq!(items.next(), Some(Err(Error::new(Fault::SizeMismatch, 102))));
/// assert_eq!(items.next(), None);
/// # Ok::<(), pulleynavy::Error>(())
/// ```
#[derive(Debug)]
pub struct SectionLimitedIntoIter<'a, T> {
    section: SectionLimited<'a, T>,
    left: u32,
    ended: bool,
}

impl<T> Clone for SectionLimitedIntoIter<'_, T> {
    fn clone(&self) -> Self {
        SectionLimitedIntoIter { section: self.section.clone(), ..*self }
    }
}

impl<T> SectionLimitedIntoIter<'_, T> {
    /// Returns the offset of the next item, in bytes from the start of the stream.
    #[must_use]
    pub fn original_position(&self) -> u64 {
        self.section.rest.offset
    }
}

/// Returns the section with the remaining items. Its count stays that of all items.
impl<'a, T> From<SectionLimitedIntoIter<'a, T>> for SectionLimited<'a, T> {
    fn from(items: SectionLimitedIntoIter<'a, T>) -> Self {
        items.section
    }
}

impl<'a, T: FromReader<'a>> Iterator for SectionLimitedIntoIter<'a, T> {
    type Item = Result<T>;

    fn next(&mut self) -> Option<Result<T>> {
        if self.ended {
            return None;
        }
        let mut reader = BinaryReader::of(self.section.rest);
        let Some(left) = self.left.checked_sub(1) else {
            self.ended = true;
            return (!reader.eof()).then(|| Err(reader.error(Fault::SizeMismatch)));
        };
        self.left = left;
        let item = reader.read();
        self.section.rest = reader.rest;
        self.ended = item.is_err();
        Some(item)
    }

    /// The announced number of remaining items, but at most one more than the number of remaining bytes: a malformed count allocates nothing.
    fn size_hint(&self) -> (usize, Option<usize>) {
        let most = self.section.rest.bytes.len().saturating_add(1);
        let left = if self.ended { 0 } else { most.min(self.left as usize) };
        (left, Some(left))
    }
}

/// The length is that of a well-formed section. An error may end the iteration earlier, or follow the last item if there are trailing bytes.
impl<'a, T: FromReader<'a>> ExactSizeIterator for SectionLimitedIntoIter<'a, T> {}

impl<'a, T: FromReader<'a>> FusedIterator for SectionLimitedIntoIter<'a, T> {}

/// An iterator over the items of a section, each with its offset in bytes from the start of the stream.
///
/// It yields the errors of [`SectionLimitedIntoIter`].
///
/// # Examples
///
/// ```
/// use pulleynavy::{BinaryReader, SectionLimited};
///
/// let section = SectionLimited::<u32>::new(BinaryReader::new(&[1, 5], 100))?;
/// assert!(section.into_iter_with_offsets().eq([Ok((101, 5))]));
/// # Ok::<(), pulleynavy::Error>(())
/// ```
#[derive(Debug)]
pub struct SectionLimitedIntoIterWithOffsets<'a, T> {
    items: SectionLimitedIntoIter<'a, T>,
}

impl<T> Clone for SectionLimitedIntoIterWithOffsets<'_, T> {
    fn clone(&self) -> Self {
        SectionLimitedIntoIterWithOffsets { items: self.items.clone() }
    }
}

impl<'a, T: FromReader<'a>> Iterator for SectionLimitedIntoIterWithOffsets<'a, T> {
    type Item = Result<(u64, T)>;

    fn next(&mut self) -> Option<Self::Item> {
        let offset = self.items.original_position();
        Some(self.items.next()?.map(|item| (offset, item)))
    }

    fn size_hint(&self) -> (usize, Option<usize>) {
        self.items.size_hint()
    }
}

/// The length is that of [`SectionLimitedIntoIter`].
impl<'a, T: FromReader<'a>> ExactSizeIterator for SectionLimitedIntoIterWithOffsets<'a, T> {}

impl<'a, T: FromReader<'a>> FusedIterator for SectionLimitedIntoIterWithOffsets<'a, T> {}
