//! A reader of bytes.
use crate::proved::base;
use crate::section::Window;
use crate::{Error, Fault, FromReader, Ieee32, Ieee64, Lead, MAX_WASM_STRING_SIZE, Result, WasmFeatures};
use core::ops::Range;

/// A reader over bytes of a stream, which keeps its position.
///
/// After an error of a number or of missing bytes the position is unchanged. After an error inside an item it is somewhere in
/// that item. Reads never consume bytes beyond the last one.
///
/// # Examples
///
/// ```
/// use pulleynavy::BinaryReader;
///
/// let mut reader = BinaryReader::new(b"\x05\x02hi", 100);
/// assert_eq!(reader.read_var_u32()?, 5);
/// assert_eq!(reader.read_string()?, "hi");
/// assert_eq!(reader.original_position(), 104);
/// assert!(reader.eof());
/// # Ok::<(), pulleynavy::Error>(())
/// ```
#[derive(Clone, Debug)]
pub struct BinaryReader<'a> {
    start: u64,
    pub(crate) rest: Window<'a>,
}

impl<'a> BinaryReader<'a> {
    /// Returns a reader over bytes at this offset of the stream, with all features.
    ///
    /// # Panics
    ///
    /// If the bytes end beyond the offset 2^64 - 1.
    #[must_use]
    pub fn new(bytes: &'a [u8], offset: u64) -> Self {
        BinaryReader::new_features(bytes, offset, WasmFeatures::all())
    }

    /// Returns a reader over bytes at this offset of the stream, with these features.
    ///
    /// # Panics
    ///
    /// If the bytes end beyond the offset 2^64 - 1.
    #[must_use]
    pub fn new_features(bytes: &'a [u8], offset: u64, features: WasmFeatures) -> Self {
        assert!(offset.checked_add(bytes.len() as u64).is_some(), "data passes the offset range");
        BinaryReader::of(Window { bytes, offset, features: features.low_bits() })
    }

    /// A reader of a whole window.
    pub(crate) fn of(rest: Window<'a>) -> Self {
        BinaryReader { start: rest.offset, rest }
    }

    /// Returns the enabled features.
    #[must_use]
    pub fn features(&self) -> WasmFeatures {
        WasmFeatures::of(self.rest.features)
    }

    /// Returns whether limits of memories and tables are read as 64-bit numbers.
    #[must_use]
    pub fn memory64(&self) -> bool {
        self.features().contains(WasmFeatures::MEMORY64)
    }

    /// Returns the offset of the next byte, in bytes from the start of the stream.
    #[must_use]
    pub fn original_position(&self) -> u64 {
        self.rest.offset
    }

    /// Returns the number of bytes that were read.
    #[must_use]
    pub fn current_position(&self) -> usize {
        (self.rest.offset - self.start) as usize
    }

    /// Returns the offsets of all bytes, including those that were read, in bytes from the start of the stream.
    #[must_use]
    pub fn range(&self) -> Range<u64> {
        self.start..self.rest.range().end
    }

    /// Returns the offsets of the remaining bytes, in bytes from the start of the stream.
    #[must_use]
    pub fn remaining_range(&self) -> Range<u64> {
        self.rest.range()
    }

    /// Returns the remaining bytes.
    #[must_use]
    pub fn remaining_buffer(&self) -> &'a [u8] {
        self.rest.bytes
    }

    /// Returns the number of remaining bytes.
    #[must_use]
    pub fn bytes_remaining(&self) -> usize {
        self.rest.bytes.len()
    }

    /// Returns whether no byte remains.
    #[must_use]
    pub fn eof(&self) -> bool {
        self.rest.bytes.is_empty()
    }

    /// Returns a reader over the remaining bytes alone.
    #[must_use]
    pub fn shrink(&self) -> Self {
        BinaryReader::of(self.rest)
    }

    /// Moves past this many bytes, which are there.
    pub(crate) fn pass(&mut self, count: usize) -> Window<'a> {
        let passed = self.rest.front(count);
        self.rest = self.rest.after(count);
        passed
    }

    /// Returns an error if fewer than this many bytes remain.
    fn expect(&self, count: usize) -> Result<()> {
        match count.saturating_sub(self.rest.bytes.len()) {
            0 => Ok(()),
            missing => Err(self.error(Fault::UnexpectedEof).with_hint(missing)),
        }
    }

    /// Moves past this many bytes.
    fn take(&mut self, count: usize) -> Result<Window<'a>> {
        self.expect(count)?;
        Ok(self.pass(count))
    }

    /// The next bytes as an array.
    fn array<const N: usize>(&mut self) -> Result<[u8; N]> {
        Ok(self.take(N)?.bytes.try_into().expect("the bytes are as many as were taken"))
    }

    /// This fault at the current offset.
    pub(crate) fn error(&self, fault: Fault) -> Error {
        Error::new(fault, self.rest.offset)
    }

    /// Returns this fault at the first remaining byte, if there is one.
    pub(crate) fn expect_end(&self, fault: Fault) -> Result<()> {
        if self.eof() { Ok(()) } else { Err(self.error(fault)) }
    }

    /// Reads with the proved reader, and moves past what it read. After an error the reader is unchanged.
    #[inline(always)]
    pub(crate) fn by<T>(&mut self, read: impl FnOnce(&mut base::BinaryReader<'a>) -> base::Result<T>) -> Result<T> {
        let mut reader = self.rest.reader();
        match read(&mut reader) {
            Ok(item) => {
                self.rest = Window::of(&reader);
                Ok(item)
            }
            Err(error) => Err(Error::of(error)),
        }
    }

    /// Returns the next byte without consuming it.
    ///
    /// # Errors
    ///
    /// `UnexpectedEof` at the current offset if no byte remains.
    pub fn peek(&self) -> Result<u8> {
        Ok(self.peek_bytes(1)?[0])
    }

    /// Returns the next `size` bytes without consuming them.
    ///
    /// # Errors
    ///
    /// `UnexpectedEof` at the current offset if fewer bytes remain, with the number of missing bytes as a hint.
    pub fn peek_bytes(&self, size: usize) -> Result<&'a [u8]> {
        self.expect(size)?;
        Ok(&self.rest.bytes[..size])
    }

    /// Reads a byte.
    ///
    /// # Errors
    ///
    /// `UnexpectedEof` at the current offset if no byte remains.
    pub fn read_u8(&mut self) -> Result<u8> {
        Ok(self.take(1)?.bytes[0])
    }

    /// Reads a byte that is below 128.
    ///
    /// # Errors
    ///
    /// `UnexpectedEof` at the current offset if no byte remains; `InvalidU7` at any other byte, which is consumed.
    pub fn read_u7(&mut self) -> Result<u8> {
        let error = self.error(Fault::InvalidU7);
        let byte = self.read_u8()?;
        if byte < 128 { Ok(byte) } else { Err(error) }
    }

    /// Reads a byte as what it is a kind of.
    pub(crate) fn read_kind<T>(&mut self, lead: Lead, of: impl FnOnce(u8) -> Option<T>) -> Result<T> {
        let offset = self.original_position();
        let byte = self.read_u8()?;
        of(byte).ok_or_else(|| Error::leading_byte(lead, byte, offset))
    }

    /// Reads `size` bytes.
    ///
    /// # Errors
    ///
    /// `UnexpectedEof` at the current offset if fewer bytes remain, with the number of missing bytes as a hint.
    pub fn read_bytes(&mut self, size: usize) -> Result<&'a [u8]> {
        Ok(self.take(size)?.bytes)
    }

    /// Reads a little-endian number of 4 bytes.
    ///
    /// # Errors
    ///
    /// `UnexpectedEof` at the current offset if fewer bytes remain, with the number of missing bytes as a hint.
    pub fn read_u32(&mut self) -> Result<u32> {
        self.array().map(u32::from_le_bytes)
    }

    /// Reads a little-endian number of 8 bytes.
    ///
    /// # Errors
    ///
    /// `UnexpectedEof` at the current offset if fewer bytes remain, with the number of missing bytes as a hint.
    pub fn read_u64(&mut self) -> Result<u64> {
        self.array().map(u64::from_le_bytes)
    }

    /// Reads the magic number and the 4 bytes after it: the version in the lower 16 bits, and the kind above them.
    ///
    /// # Errors
    ///
    /// `BadMagic` at the current offset if the first 4 bytes are not the magic number; `UnexpectedEof` where the magic number or
    /// the version is truncated.
    ///
    /// # Examples
    ///
    /// ```
    /// use pulleynavy::BinaryReader;
    ///
    /// assert_eq!(BinaryReader::new(b"\0asm\x01\0\0\0", 0).read_header_version()?, 1);
    /// # Ok::<(), pulleynavy::Error>(())
    /// ```
    pub fn read_header_version(&mut self) -> Result<u32> {
        let magic = self.peek_bytes(4)?;
        if magic != b"\0asm" {
            return Err(self.error(Fault::BadMagic));
        }
        self.pass(4);
        self.read_u32()
    }

    /// Reads an unsigned 32-bit number in LEB128.
    ///
    /// # Errors
    ///
    /// `UnexpectedEof` at the end of the bytes if the number is truncated; `NumberTooLong` or `NumberTooLarge` at its fifth byte.
    ///
    /// # Examples
    ///
    /// ```
    /// use pulleynavy::{BinaryReader, Error, Fault};
    ///
    /// let mut reader = BinaryReader::new(&[0x80, 0x01, 0x80], 0);
    /// assert_eq!(reader.read_var_u32()?, 128);
    /// assert_eq!(reader.read_var_u32(), Err(Error::new(Fault::UnexpectedEof, 3)));
    /// # Ok::<(), pulleynavy::Error>(())
    /// ```
    pub fn read_var_u32(&mut self) -> Result<u32> {
        self.by(base::BinaryReader::read_var_u32)
    }

    /// Reads a signed 32-bit number in LEB128.
    ///
    /// # Errors
    ///
    /// `UnexpectedEof` at the end of the bytes if the number is truncated; `NumberTooLong` or `NumberTooLarge` at its fifth byte.
    pub fn read_var_i32(&mut self) -> Result<i32> {
        self.by(base::BinaryReader::read_var_i32)
    }

    /// Reads an unsigned 64-bit number in LEB128.
    ///
    /// # Errors
    ///
    /// `UnexpectedEof` at the end of the bytes if the number is truncated; `NumberTooLong` or `NumberTooLarge` at its tenth byte.
    pub fn read_var_u64(&mut self) -> Result<u64> {
        self.by(base::BinaryReader::read_var_u64)
    }

    /// Reads a signed 64-bit number in LEB128.
    ///
    /// # Errors
    ///
    /// `UnexpectedEof` at the end of the bytes if the number is truncated; `NumberTooLong` or `NumberTooLarge` at its tenth byte.
    pub fn read_var_i64(&mut self) -> Result<i64> {
        self.by(base::BinaryReader::read_var_i64)
    }

    /// Reads a signed 33-bit number in LEB128.
    ///
    /// # Errors
    ///
    /// `UnexpectedEof` at the end of the bytes if the number is truncated; `NumberTooLong` or `NumberTooLarge` at its fifth byte.
    pub fn read_var_s33(&mut self) -> Result<i64> {
        self.by(base::BinaryReader::read_var_s33)
    }

    /// Reads the bits of a 32-bit float.
    ///
    /// # Errors
    ///
    /// `UnexpectedEof` at the current offset if fewer than 4 bytes remain.
    pub fn read_f32(&mut self) -> Result<Ieee32> {
        self.read_u32().map(Ieee32)
    }

    /// Reads the bits of a 64-bit float.
    ///
    /// # Errors
    ///
    /// `UnexpectedEof` at the current offset if fewer than 8 bytes remain.
    pub fn read_f64(&mut self) -> Result<Ieee64> {
        self.read_u64().map(Ieee64)
    }

    /// Reads a size and that many bytes, and returns a reader over them.
    ///
    /// # Errors
    ///
    /// Those of [`BinaryReader::read_var_u32`] for the size; `UnexpectedEof` after the size if bytes are missing.
    ///
    /// # Examples
    ///
    /// ```
    /// use pulleynavy::BinaryReader;
    ///
    /// let mut reader = BinaryReader::new(&[2, 5, 7, 9], 100);
    /// let inner = reader.read_reader()?;
    /// assert_eq!(inner.range(), 101..103);
    /// assert_eq!(reader.remaining_buffer(), [9]);
    /// # Ok::<(), pulleynavy::Error>(())
    /// ```
    pub fn read_reader(&mut self) -> Result<Self> {
        let size = self.read_var_u32()? as usize;
        Ok(BinaryReader::of(self.take(size)?))
    }

    /// Reads a string of at most 100,000 bytes.
    ///
    /// # Errors
    ///
    /// * Those of [`BinaryReader::read_var_u32`] for the size.
    /// * `StringSize` at the last byte of a size above 100,000.
    /// * `UnexpectedEof` after the size if bytes are missing.
    /// * `MalformedUtf8` at the last byte of the string.
    pub fn read_string(&mut self) -> Result<&'a str> {
        self.by(base::BinaryReader::read_string)
    }

    /// Reads a string of any length.
    ///
    /// # Errors
    ///
    /// Those of [`BinaryReader::read_string`], except `StringSize`.
    pub fn read_unlimited_string(&mut self) -> Result<&'a str> {
        self.by(base::BinaryReader::read_unlimited_string)
    }

    /// Skips a string of at most 100,000 bytes, which may be invalid UTF-8.
    ///
    /// # Errors
    ///
    /// Those of [`BinaryReader::read_string`], except `MalformedUtf8`.
    pub fn skip_string(&mut self) -> Result<()> {
        let size = self.read_var_u32()? as usize;
        if size > MAX_WASM_STRING_SIZE {
            return Err(Error::new(Fault::StringSize, self.rest.offset - 1));
        }
        self.take(size).map(drop)
    }

    /// Reads an item.
    ///
    /// # Errors
    ///
    /// The error of the item.
    ///
    /// # Examples
    ///
    /// ```
    /// use pulleynavy::{BinaryReader, Export};
    ///
    /// let export = BinaryReader::new(b"\x03add\x00\x05", 0).read::<Export>()?;
    /// assert_eq!(export.index, 5);
    /// # Ok::<(), pulleynavy::Error>(())
    /// ```
    pub fn read<T: FromReader<'a>>(&mut self) -> Result<T> {
        T::from_reader(self)
    }

    /// Returns a reader over the bytes that a function consumes.
    ///
    /// # Errors
    ///
    /// The error of the function.
    ///
    /// # Panics
    ///
    /// If the function replaces the reader by a reader over other bytes.
    ///
    /// # Examples
    ///
    /// ```
    /// use pulleynavy::BinaryReader;
    ///
    /// let mut reader = BinaryReader::new(b"\x01a\x05", 100);
    /// let name = reader.skip(|reader| reader.skip_string())?;
    /// assert_eq!(name.range(), 100..102);
    /// # Ok::<(), pulleynavy::Error>(())
    /// ```
    pub fn skip(&mut self, pass: impl FnOnce(&mut Self) -> Result<()>) -> Result<Self> {
        let before = self.rest;
        pass(self)?;
        let size = self.rest.offset.checked_sub(before.offset).expect("the function moves forwards");
        Ok(BinaryReader::of(before.front(size as usize)))
    }
}
