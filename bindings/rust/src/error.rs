//! Errors.
use crate::proved::base;
use crate::{Fault, Lead};
use core::fmt;
use core::num::NonZeroUsize;

/// The result of a read, with [`Error`] as its error.
pub type Result<T, E = Error> = core::result::Result<T, E>;

/// An older name of [`Error`], as in `wasmparser`.
pub type BinaryReaderError = Error;

/// An error in the input: its fault, and the offset in bytes from the start of the stream.
///
/// Two errors are equal if their faults, offsets and numbers are. The hint is not compared.
///
/// # Examples
///
/// ```
/// use pulleynavy::{BinaryReader, Error, Fault};
///
/// let error = BinaryReader::new(&[0x80], 16).read_var_u32().unwrap_err();
/// assert_eq!(error, Error::new(Fault::UnexpectedEof, 17));
/// assert_eq!(error.to_string(), "unexpected end-of-file (at offset 0x11)");
/// ```
#[derive(Clone, Copy)]
pub struct Error {
    offset: u64,
    number: u64,
    needed_hint: Option<NonZeroUsize>,
    fault: Fault,
    has_number: bool,
}

impl Error {
    /// Returns an error with this fault and offset, without a number or a hint.
    #[must_use]
    pub fn new(fault: Fault, offset: u64) -> Self {
        Error { offset, number: 0, needed_hint: None, fault, has_number: false }
    }

    /// Returns the error with this number, which `Display` then adds to the message.
    #[must_use]
    pub fn with_number(self, number: u64) -> Self {
        Error { number, has_number: true, ..self }
    }

    /// The error of the proved sources.
    #[cold]
    #[inline(never)]
    pub(crate) fn of(error: base::Error) -> Self {
        let same = Error::new(Fault::of(error.fault()), error.offset());
        let same = error.number().map_or(same, |number| same.with_number(number));
        error.needed_hint().map_or(same, |hint| same.with_hint(hint))
    }

    /// A byte at this offset begins nothing of this sort.
    pub(crate) fn leading_byte(lead: Lead, byte: u8, offset: u64) -> Self {
        Error::new(Fault::LeadingByte(lead), offset).with_number(byte.into())
    }

    /// The same error with this hint, if it is that of missing bytes.
    pub(crate) fn with_hint(self, hint: usize) -> Self {
        Error { needed_hint: NonZeroUsize::new(hint).filter(|_| self.fault == Fault::UnexpectedEof), ..self }
    }

    /// Returns the error without a hint.
    #[must_use]
    pub fn without_needed_hint(self) -> Self {
        Error { needed_hint: None, ..self }
    }

    /// Returns the fault.
    #[must_use]
    pub fn fault(&self) -> Fault {
        self.fault
    }

    /// Returns the message of the fault, without the number and the offset, which `Display` adds.
    #[must_use]
    pub fn message(&self) -> &'static str {
        self.fault.message()
    }

    /// Returns the offset, in bytes from the start of the stream.
    #[must_use]
    pub fn offset(&self) -> u64 {
        self.offset
    }

    /// Returns the number of the fault, if it has one: a version, a length, or the byte that was read.
    #[must_use]
    pub fn number(&self) -> Option<u64> {
        self.has_number.then_some(self.number)
    }

    /// Returns how many bytes are missing, if a read of a [`BinaryReader`](crate::BinaryReader) failed at the end of its input.
    ///
    /// It is at least 1. Reads of whole items have no hint.
    pub fn needed_hint(&self) -> Option<usize> {
        self.needed_hint.map(NonZeroUsize::get)
    }

    /// Returns the number of the fault in the C library: its kind in the lowest 8 bits, and its detail above them.
    #[must_use]
    pub fn code(&self) -> u32 {
        self.fault.code()
    }
}

impl PartialEq for Error {
    fn eq(&self, other: &Self) -> bool {
        (self.fault, self.offset, self.number()) == (other.fault, other.offset, other.number())
    }
}

impl Eq for Error {}

impl fmt::Debug for Error {
    fn fmt(&self, f: &mut fmt::Formatter<'_>) -> fmt::Result {
        f.debug_struct("Error").field("message", &format_args!("\"{}\"", Message(self))).field("offset", &self.offset).finish()
    }
}

impl fmt::Display for Error {
    fn fmt(&self, f: &mut fmt::Formatter<'_>) -> fmt::Result {
        write!(f, "{} (at offset 0x{:x})", Message(self), self.offset)
    }
}

/// The message of an error with its number.
struct Message<'a>(&'a Error);

impl fmt::Display for Message<'_> {
    fn fmt(&self, f: &mut fmt::Formatter<'_>) -> fmt::Result {
        let (message, number) = (self.0.message(), self.0.number);
        match self.0.fault {
            _ if !self.0.has_number => f.write_str(message),
            Fault::UnknownVersion => write!(f, "{message}: {number:#10x}"),
            Fault::LeadingByte(_) => {
                let kind = "invalid leading byte";
                write!(f, "{kind} (0x{number:x}){}", message.strip_prefix(kind).unwrap_or_default())
            }
            _ => write!(f, "{message}: {number}"),
        }
    }
}

impl core::error::Error for Error {}
