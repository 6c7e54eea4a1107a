//! What the erased sources take for `std`: lanes, and a conversion.
pub(crate) use core::{fmt, hash, iter, marker, ops, result, slice, str};

pub(crate) mod convert;
pub(crate) mod simd;
