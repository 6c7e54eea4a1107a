//! The parser.
use crate::payload::{payload, unknown};
use crate::proved::frames::{FrameKind, NextFrame, Outcome, StoredParser};
use crate::skipped::SkippedPart;
use crate::{BinaryReader, CustomSectionReader, Error, FunctionBody, Payload, Result, WasmFeatures};

/// The result of [`Parser::parse`]: a payload, or a request for more input.
///
/// # Examples
///
/// ```
/// use pulleynavy::{Chunk, Parser};
///
/// match Parser::new(0).parse(b"\0asm", false)? {
///     Chunk::NeedMoreData(hint) => assert_eq!(hint, 4),
///     Chunk::Parsed { .. } => unreachable!(),
/// }
/// # Ok::<(), pulleynavy::Error>(())
/// ```
#[derive(Debug)]
pub enum Chunk<'a> {
    /// The bytes so far do not determine the next payload. The hint is how many bytes to read next, at least 1: fewer can be enough,
    /// and a payload may need more.
    NeedMoreData(usize),
    /// The next payload.
    Parsed {
        /// The number of bytes that the payload consumed: 0 for `End`, otherwise at least 1.
        consumed: usize,
        /// The payload, which borrows from the input.
        payload: Payload<'a>,
    },
}

/// A streaming parser. A clone of it is a checkpoint.
///
/// With chunked input you buffer the bytes until they are consumed:
///
/// ```
/// use pulleynavy::{Chunk, Parser, Payload};
///
/// let mut chunks = b"\0asm\x01\0\0\0\x03\x02\x01\0\x0a\x04\x01\x02\0\x0b".chunks(5);
/// let (mut parser, mut buffer, mut eof) = (Parser::new(0), Vec::new(), false);
/// loop {
///     match parser.parse(&buffer, eof)? {
///         Chunk::Parsed { payload: Payload::End(offset), .. } => break assert_eq!(offset, 18),
///         Chunk::Parsed { consumed, .. } => drop(buffer.drain(..consumed)),
///         Chunk::NeedMoreData(_) => match chunks.next() {
///             Some(chunk) => buffer.extend_from_slice(chunk),
///             None => eof = true,
///         },
///     }
/// }
/// # Ok::<(), pulleynavy::Error>(())
/// ```
#[derive(Clone, Debug)]
pub struct Parser(StoredParser);

impl<'a> Outcome<'a> for Parser {
    type Out = Result<Chunk<'a>>;

    #[inline(always)]
    fn of(next: NextFrame<'a>) -> Result<Chunk<'a>> {
        match next {
            // Each of the frequent kinds on its own, so that its fields go straight to the caller's memory.
            NextFrame::Parsed { frame, consumed } => match frame.kind() {
                FrameKind::Custom => Ok(Chunk::Parsed { consumed, payload: Payload::CustomSection(CustomSectionReader::of(frame)) }),
                FrameKind::Body => Ok(Chunk::Parsed { consumed, payload: Payload::CodeSectionEntry(FunctionBody::of(frame)) }),
                FrameKind::Unknown => Ok(Chunk::Parsed { consumed, payload: unknown(frame) }),
                _ => Ok(Chunk::Parsed { consumed, payload: payload(frame) }),
            },
            NextFrame::NeedMoreData(hint) => Ok(Chunk::NeedMoreData(hint)),
            NextFrame::Fault(error) => Err(Error::of(error)),
        }
    }
}

impl Default for Parser {
    fn default() -> Self {
        Parser::new(0)
    }
}

impl Parser {
    /// Returns a parser for a stream that begins at this offset, with all features.
    #[must_use]
    pub fn new(offset: u64) -> Self {
        Parser(StoredParser { features: WasmFeatures::all().low_bits(), ..StoredParser::new(offset) })
    }

    /// Returns whether bytes begin with the 8 bytes of a module's header.
    #[must_use]
    pub fn is_core_wasm(bytes: &[u8]) -> bool {
        bytes.starts_with(b"\0asm\x01\0\0\0")
    }

    /// Returns whether bytes begin with the 8 bytes of a component's header.
    #[must_use]
    pub fn is_component(bytes: &[u8]) -> bool {
        bytes.starts_with(b"\0asm\x0d\0\x01\0")
    }

    /// Returns a reader over bytes at this offset of the stream, with the features of the parser.
    ///
    /// # Panics
    ///
    /// If the bytes end beyond the offset 2^64 - 1.
    #[must_use]
    pub fn binary_reader<'a>(&self, bytes: &'a [u8], offset: u64) -> BinaryReader<'a> {
        BinaryReader::new_features(bytes, offset, self.features())
    }

    /// Returns the offset of the next payload, in bytes from the start of the stream.
    #[must_use]
    pub fn offset(&self) -> u64 {
        self.0.offset
    }

    /// Returns the features that the next payloads are read with.
    #[must_use]
    pub fn features(&self) -> WasmFeatures {
        WasmFeatures::of(self.0.features)
    }

    /// Sets the features that the next payloads are read with.
    ///
    /// # Examples
    ///
    /// ```
    /// use pulleynavy::{Parser, WasmFeatures};
    ///
    /// // Without 64-bit memories, a limit is a 32-bit number.
    /// let mut parser = Parser::new(0);
    /// let mut features = parser.features();
    /// features.remove(WasmFeatures::MEMORY64);
    /// parser.set_features(features);
    /// assert!(!parser.features().contains(WasmFeatures::MEMORY64));
    /// ```
    pub fn set_features(&mut self, features: WasmFeatures) {
        self.0.features = features.low_bits();
    }

    /// Parses the next payload.
    ///
    /// `data` is a prefix of the remaining input, or with `eof` all of it. Pass the bytes after the consumed ones in the next
    /// call. After [`Chunk::NeedMoreData`], pass the same bytes followed by more, or the same bytes with `eof` at the end of
    /// input.
    ///
    /// # Errors
    ///
    /// The error of malformed input, at the offset that its [`Fault`](crate::Fault) documents. With `eof`, truncated input is
    /// `UnexpectedEof`. The parser is then unchanged, so that the same call returns the same error.
    pub fn parse<'a>(&mut self, data: &'a [u8], eof: bool) -> Result<Chunk<'a>> {
        self.0.settle();
        self.0.next_as::<Parser, true>(data, eof)
    }

    /// Returns the number of remaining bytes of a code section, from its start until the next payload that is not a body;
    /// otherwise `None`.
    #[must_use]
    pub fn skippable(&self) -> Option<u32> {
        (self.0.in_code != 0).then_some(self.0.code_bytes)
    }

    /// Skips the remaining bytes of a code section. Pass the bytes after them in the next call of [`Parser::parse`].
    ///
    /// Outside a code section it does nothing.
    ///
    /// # Examples
    ///
    /// ```
    /// use pulleynavy::{Chunk, Parser, Payload};
    ///
    /// let module = b"\0asm\x01\0\0\0\x03\x02\x01\0\x0a\x04\x01\x02\0\x0b";
    /// let (mut parser, mut rest) = (Parser::new(0), &module[..]);
    /// while let Chunk::Parsed { consumed, payload } = parser.parse(rest, true)? {
    ///     rest = &rest[consumed..];
    ///     match payload {
    ///         Payload::CodeSectionStart { size, .. } => {
    ///             parser.skip_section();
    ///             rest = &rest[size as usize..];
    ///         }
    ///         Payload::CodeSectionEntry(_) => unreachable!(),
    ///         Payload::End(_) => break,
    ///         _ => {}
    ///     }
    /// }
    /// # Ok::<(), pulleynavy::Error>(())
    /// ```
    pub fn skip_section(&mut self) {
        self.0.skip_section();
    }

    /// Skips the next section or body if its first fields are in `data`, but not all of it. Pass the bytes from `range.end` on in the
    /// next call, whatever the skipped bytes are. So a section needs no buffer of its size.
    ///
    /// It returns `None`, and leaves the parser unchanged, if [`Parser::parse`] has to look: if all of the part is in `data`, if its
    /// first fields are not, at an error, at a header and at the end, and at the start of a code section, a start section or a data
    /// count section. The first fields are the name of a custom section, or the count of a section that begins with one.
    ///
    /// # Examples
    ///
    /// ```
    /// use pulleynavy::{Parser, PartHead};
    ///
    /// let mut parser = Parser::new(0);
    /// parser.parse(b"\0asm\x01\0\0\0", false)?;
    /// // A custom section "a" of 100 bytes, of which the first 4 are here.
    /// let part = parser.skip_part(b"\0\x64\x01a").expect("its name is here");
    /// assert_eq!(part.range, 10..110);
    /// assert_eq!(part.head, PartHead::Custom { name: "a", data_offset: 12 });
    /// assert_eq!(parser.offset(), 110);
    /// # Ok::<(), pulleynavy::Error>(())
    /// ```
    pub fn skip_part<'a>(&mut self, data: &'a [u8]) -> Option<SkippedPart<'a>> {
        self.0.skip_next(data).map(SkippedPart::of)
    }

    /// Returns an iterator over the payloads of a complete stream.
    #[must_use]
    pub fn parse_all(self, data: &[u8]) -> ParseAll<'_> {
        ParseAll { parser: self, rest: data, ended: false }
    }
}

/// An iterator over the payloads of a complete stream, up to `End` or the first error.
///
/// # Examples
///
/// ```
/// use pulleynavy::{Parser, Payload};
///
/// let mut payloads = Parser::new(0).parse_all(b"\0asm\x01\0\0\0");
/// assert!(matches!(payloads.next(), Some(Ok(Payload::Version { num: 1, .. }))));
/// assert!(matches!(payloads.next(), Some(Ok(Payload::End(8)))));
/// assert!(payloads.next().is_none());
/// ```
#[derive(Clone, Debug)]
pub struct ParseAll<'a> {
    parser: Parser,
    rest: &'a [u8],
    ended: bool,
}

impl<'a> Iterator for ParseAll<'a> {
    type Item = Result<Payload<'a>>;

    fn next(&mut self) -> Option<Self::Item> {
        if self.ended {
            return None;
        }
        match self.parser.parse(self.rest, true) {
            Ok(Chunk::Parsed { consumed, payload }) => {
                self.rest = &self.rest[consumed..];
                self.ended = matches!(payload, Payload::End(_));
                Some(Ok(payload))
            }
            // All bytes were passed, so none are missing.
            Ok(Chunk::NeedMoreData(_)) => None,
            Err(error) => {
                self.ended = true;
                Some(Err(error))
            }
        }
    }
}
