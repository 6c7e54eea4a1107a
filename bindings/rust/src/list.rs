//! Lists inside items.
use crate::{BinaryReader, FromReader, Result};
use core::fmt;

/// How an item is read.
type Read<'a, T> = fn(&mut BinaryReader<'a>) -> Result<T>;

/// An iterator over a list inside an item. The items were checked once; each is read again when it is returned.
///
/// # Examples
///
/// ```
/// use pulleynavy::{BinaryReader, CoreDumpModulesSection};
///
/// let dump = CoreDumpModulesSection::new(BinaryReader::new(b"\x01\0\x04test", 0))?;
/// let mut modules = dump.modules;
/// assert_eq!(modules.len(), 1);
/// assert_eq!(modules.next(), Some("test"));
/// # Ok::<(), pulleynavy::Error>(())
/// ```
pub struct List<'a, T> {
    reader: BinaryReader<'a>,
    left: u32,
    read: Read<'a, T>,
}

impl<'a, T> List<'a, T> {
    /// Reads a count and this many items.
    pub(crate) fn counted(reader: &mut BinaryReader<'a>, read: Read<'a, T>) -> Result<Self> {
        let count = reader.read_var_u32()?;
        List::pass(reader, count, read)
    }

    /// Reads this many items.
    pub(crate) fn pass(reader: &mut BinaryReader<'a>, left: u32, read: Read<'a, T>) -> Result<Self> {
        List::checked(reader, left, read, read)
    }

    /// Like `pass`, but `check` reads each item first, and its errors are returned.
    pub(crate) fn checked(reader: &mut BinaryReader<'a>, left: u32, check: impl Fn(&mut BinaryReader<'a>) -> Result<T>, read: Read<'a, T>) -> Result<Self> {
        let items = reader.skip(|reader| (0..left).try_for_each(|_| check(reader).map(drop)))?;
        Ok(List { reader: items, left, read })
    }
}

impl<'a, T: FromReader<'a>> FromReader<'a> for List<'a, T> {
    fn from_reader(reader: &mut BinaryReader<'a>) -> Result<Self> {
        List::counted(reader, T::from_reader)
    }
}

impl<T> Clone for List<'_, T> {
    fn clone(&self) -> Self {
        List { reader: self.reader.clone(), ..*self }
    }
}

impl<T: fmt::Debug> fmt::Debug for List<'_, T> {
    fn fmt(&self, f: &mut fmt::Formatter<'_>) -> fmt::Result {
        f.debug_list().entries(self.clone()).finish()
    }
}

impl<T> Iterator for List<'_, T> {
    type Item = T;

    fn next(&mut self) -> Option<T> {
        self.left = self.left.checked_sub(1)?;
        (self.read)(&mut self.reader).ok()
    }

    fn size_hint(&self) -> (usize, Option<usize>) {
        (self.left as usize, Some(self.left as usize))
    }
}

impl<T> ExactSizeIterator for List<'_, T> {}
