//! Custom sections and subsections.
use crate::proved::base;
use crate::proved::frames::Frame;
use crate::section::Window;
use crate::{BinaryReader, Error, Result};
use core::fmt;
use core::marker::PhantomData;
use core::ops::Range;

/// A custom section: a name and the data after it.
///
/// [`CustomSectionReader::as_known`] returns a reader for the data of a section with a known name.
///
/// # Examples
///
/// ```
/// use pulleynavy::{BinaryReader, CustomSectionReader};
///
/// let section = CustomSectionReader::new(BinaryReader::new(b"\x01a\x07\x08", 100))?;
/// assert_eq!(section.name(), "a");
/// assert_eq!(section.data(), [7, 8]);
/// assert_eq!(section.data_offset(), 102);
/// # Ok::<(), pulleynavy::Error>(())
/// ```
#[derive(Clone, Copy)]
pub struct CustomSectionReader<'a> {
    start: u64,
    name: &'a str,
    data: Window<'a>,
}

impl fmt::Debug for CustomSectionReader<'_> {
    fn fmt(&self, f: &mut fmt::Formatter<'_>) -> fmt::Result {
        let mut parts = f.debug_struct("CustomSectionReader");
        parts.field("name", &self.name).field("data_offset", &self.data_offset()).field("data", &"...").field("range", &self.range()).finish()
    }
}

impl<'a> CustomSectionReader<'a> {
    /// Takes the remaining bytes of a reader as the content of a custom section, and reads the name.
    ///
    /// # Errors
    ///
    /// Those of [`BinaryReader::read_string`] for the name.
    pub fn new(mut reader: BinaryReader<'a>) -> Result<Self> {
        let start = reader.original_position();
        Ok(CustomSectionReader { start, name: reader.read_string()?, data: reader.rest })
    }

    /// The section of a frame, whose name was read.
    #[inline(always)]
    pub(crate) fn of(frame: Frame<'a>) -> Self {
        let (start, name) = (frame.range().start, frame.name());
        CustomSectionReader { start, name, data: Window::of(&frame.into_reader()) }
    }

    /// Returns the name of the section.
    #[must_use]
    pub fn name(&self) -> &'a str {
        self.name
    }

    /// Returns the data, which follows the name.
    #[must_use]
    pub fn data(&self) -> &'a [u8] {
        self.data.bytes
    }

    /// Returns a reader over the data.
    #[must_use]
    pub fn data_reader(&self) -> BinaryReader<'a> {
        BinaryReader::of(self.data)
    }

    /// Returns the offset of the data, in bytes from the start of the stream.
    #[must_use]
    pub fn data_offset(&self) -> u64 {
        self.data.offset
    }

    /// Returns the offsets of the data, in bytes from the start of the stream.
    #[must_use]
    pub fn data_range(&self) -> Range<u64> {
        self.data.range()
    }

    /// Returns the offsets of the content, including the name, in bytes from the start of the stream.
    #[must_use]
    pub fn range(&self) -> Range<u64> {
        self.start..self.data.range().end
    }
}

/// A type that can be read from a subsection, such as [`Name`](crate::Name).
///
/// # Examples
///
/// ```
/// use pulleynavy::{BinaryReader, Subsection, Subsections};
///
/// struct Ids(u8);
///
/// impl<'a> Subsection<'a> for Ids {
///     fn from_reader(id: u8, _reader: BinaryReader<'a>) -> pulleynavy::Result<Self> {
///         Ok(Ids(id))
///     }
/// }
///
/// for subsection in Subsections::<Ids>::new(BinaryReader::new(&[5, 1, 0], 0)) {
///     assert_eq!(subsection?.0, 5);
/// }
/// # Ok::<(), pulleynavy::Error>(())
/// ```
pub trait Subsection<'a>: Sized {
    /// Reads the subsection with this id, whose content is the bytes of the reader.
    ///
    /// # Errors
    ///
    /// The error of malformed content.
    fn from_reader(id: u8, reader: BinaryReader<'a>) -> Result<Self>;
}

/// An iterator over subsections: each is an id below 128, a size and that many bytes.
///
/// # Errors
///
/// It yields the error of a malformed subsection, and continues with the next one. After a malformed id or size it continues
/// after the bytes that were read.
///
/// # Examples
///
/// ```
/// use pulleynavy::{BinaryReader, Name, Subsections};
///
/// // Subsection 1 of names: function 5 is called "f".
/// let bytes = b"\x01\x04\x01\x05\x01f";
/// for subsection in Subsections::<Name>::new(BinaryReader::new(bytes, 0)) {
///     assert!(matches!(subsection?, Name::Function(_)));
/// }
/// # Ok::<(), pulleynavy::Error>(())
/// ```
pub struct Subsections<'a, T> {
    start: u64,
    rest: Window<'a>,
    item: PhantomData<fn() -> T>,
}

impl<T> Clone for Subsections<'_, T> {
    fn clone(&self) -> Self {
        Subsections { ..*self }
    }
}

impl<T> fmt::Debug for Subsections<'_, T> {
    fn fmt(&self, f: &mut fmt::Formatter<'_>) -> fmt::Result {
        f.debug_struct("Subsections").field("range", &self.range()).finish()
    }
}

impl<'a, T> Subsections<'a, T> {
    /// Takes the remaining bytes of a reader as subsections. Nothing is read yet.
    #[must_use]
    pub fn new(reader: BinaryReader<'a>) -> Self {
        Subsections { start: reader.range().start, rest: reader.rest, item: PhantomData }
    }

    /// Returns the offset of the next subsection, in bytes from the start of the stream.
    #[must_use]
    pub fn original_position(&self) -> u64 {
        self.rest.offset
    }

    /// Returns the offsets of all bytes, including those that were read, in bytes from the start of the stream.
    #[must_use]
    pub fn range(&self) -> Range<u64> {
        self.start..self.rest.range().end
    }

    /// The id of the next one, if a byte remains.
    pub(crate) fn next_id(&self) -> Option<u8> {
        self.rest.bytes.first().copied()
    }

    /// The id and the bytes of the next one.
    fn read(&mut self) -> Result<(u8, BinaryReader<'a>)> {
        let mut reader = self.rest.reader();
        let read = base::read_subsection(&mut reader);
        self.rest = Window::of(&reader);
        match read {
            Ok((id, contents)) => Ok((id, BinaryReader::of(Window::of(&contents)))),
            Err(error) => Err(Error::of(error)),
        }
    }
}

impl<'a, T: Subsection<'a>> Iterator for Subsections<'a, T> {
    type Item = Result<T>;

    fn next(&mut self) -> Option<Self::Item> {
        if self.rest.bytes.is_empty() {
            return None;
        }
        Some(self.read().and_then(|(id, reader)| T::from_reader(id, reader)))
    }
}
