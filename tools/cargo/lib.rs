//! The proved sources of pulleynavy, written as Rust by `tools/erase`: the parser, the readers of its items, and the commands of the program
//! `pulleynavy`. Each crate of Rattle is a module.
//!
//! Programs should use the crate `pulleynavy` instead, which has the names of `wasmparser`.
#![forbid(unsafe_code)]
// What other crates of Rattle use is public there, and here one crate.
#![allow(dead_code)]
// Forms that the prover reads better, and that rustc and its readers do not mind.
#![allow(clippy::style, clippy::complexity, clippy::drop_non_drop, clippy::octal_escapes)]
// `Read`, for a method that the module `std` has on the type.
#![allow(unused_imports)]
extern crate alloc as rust_alloc;

include!(concat!(env!("OUT_DIR"), "/modules.rs"));
