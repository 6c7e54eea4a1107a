//! Allocators: memory is the global allocator's, and a failed allocation is an error.
use core::fmt;

/// The global allocator.
#[derive(Clone, Copy, Debug, Default, PartialEq, Eq, PartialOrd, Ord, Hash)]
pub struct Global;

/// An allocation failed.
#[derive(Clone, Copy, Debug, PartialEq, Eq)]
pub struct AllocError;

/// An allocation failed that was to hold this value.
pub struct AllocFailed<T>(pub T);

impl<T> fmt::Debug for AllocFailed<T> {
    fn fmt(&self, f: &mut fmt::Formatter<'_>) -> fmt::Result {
        f.write_str("AllocFailed")
    }
}

impl<T> From<AllocFailed<T>> for AllocError {
    fn from(_: AllocFailed<T>) -> Self {
        AllocError
    }
}

/// What gives leave to allocate. It returns no memory, and may refuse: the collections take theirs from the global allocator.
pub trait Allocator {
    /// Asks for leave to allocate a block.
    fn allocate(&self, size: usize, align: usize) -> Result<(), AllocError>;
}

impl Allocator for Global {
    #[inline(always)]
    fn allocate(&self, _size: usize, _align: usize) -> Result<(), AllocError> {
        Ok(())
    }
}

impl<A: Allocator> Allocator for &A {
    fn allocate(&self, size: usize, align: usize) -> Result<(), AllocError> {
        (**self).allocate(size, align)
    }
}
