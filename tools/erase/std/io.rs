//! Standard streams, and kinds of errors.
use super::alloc::{AllocError, AllocFailed, Allocator};
use super::prelude::{String, Vec};
pub use ::std::io::*;

/// Standard input.
#[derive(Debug)]
pub struct Stdin(::std::io::Stdin);

impl Stdin {
    pub(crate) fn new() -> Self {
        Stdin(::std::io::stdin())
    }

    /// Appends all bytes to a text, which must be UTF-8.
    pub fn read_to_string<A: Allocator>(&mut self, text: &mut String<A>) -> Result<usize> {
        let all = read_to_string(&mut self.0)?;
        text.push_str(&all)?;
        Ok(all.len())
    }
}

impl Read for Stdin {
    fn read(&mut self, buffer: &mut [u8]) -> Result<usize> {
        self.0.read(buffer)
    }
}

/// Whether a path has too many symbolic links, for which Rust 1.85 has no name.
pub fn is_filesystem_loop(kind: ErrorKind) -> bool {
    format!("{kind:?}") == "FilesystemLoop"
}

/// Whether a name of a file is too long or has characters that it may not have, for which Rust 1.85 has no name.
pub fn is_invalid_filename(kind: ErrorKind) -> bool {
    format!("{kind:?}") == "InvalidFilename"
}

impl From<AllocError> for Error {
    fn from(_: AllocError) -> Self {
        Error::from(ErrorKind::OutOfMemory)
    }
}

impl<T> From<AllocFailed<T>> for Error {
    fn from(_: AllocFailed<T>) -> Self {
        Error::from(ErrorKind::OutOfMemory)
    }
}

impl<A: Allocator> Write for Vec<u8, A> {
    fn write(&mut self, bytes: &[u8]) -> Result<usize> {
        self.extend_from_slice(bytes)?;
        Ok(bytes.len())
    }

    fn flush(&mut self) -> Result<()> {
        Ok(())
    }
}
