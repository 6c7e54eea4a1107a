//! Conversions.
pub use core::convert::*;

/// What has its items in a slice.
pub trait AsSlice<T> {
    fn as_slice(&self) -> &[T];
}

impl<T, const N: usize> AsSlice<T> for [T; N] {
    #[inline(always)]
    fn as_slice(&self) -> &[T] {
        self
    }
}
