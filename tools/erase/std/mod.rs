//! What the erased sources take for `std`: collections and texts whose calls return a `Result`, allocators, lanes, and the system.
pub use core::{cell, cmp, fmt, hash, iter, marker, mem, ops, option, result, slice, str};

pub mod alloc;
pub mod collections;
pub mod convert;
pub mod env;
pub mod fs;
mod host;
pub mod io;
mod methods;
pub mod os;
pub mod path;
pub mod process;
pub mod simd;
mod string;
pub mod test;
mod vec;

/// What every file sees.
pub mod prelude {
    pub use super::host::HostRuntime;
    pub use super::methods::{ConcatWith, RepeatWith, ToStringWith, ToVecWith};
    pub use super::string::String;
    pub use super::vec::Vec;
}
