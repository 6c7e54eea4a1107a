//! The programs in `examples/programs` compile against this crate, which they know as `wasmparser`, and read every golden stream.
#![cfg(feature = "alloc")]
#![allow(dead_code)]
extern crate pulleynavy as wasmparser;

mod common;
#[path = "../examples/programs/src/bin/interface.rs"]
mod interface;
#[path = "../examples/programs/src/bin/relocations.rs"]
mod relocations;
#[path = "../examples/programs/src/bin/sizes.rs"]
mod sizes;

use common::{bytes, golden};

/// An object file of one function, `(i32) -> (i32)`, with one relocation in its body.
const OBJECT: &str = "M 01 06 01 60 01 7f 01 7f 03 02 01 00 07 05 01 01 66 00 00 0a 0c 01 0a 00 20 00 10 80 80 80 80 00 0b
    00 11 07 6c 69 6e 6b 69 6e 67 02 08 06 01 00 00 00 01 66
    00 10 0a 72 65 6c 6f 63 2e 43 4f 44 45 03 01 00 06 00";

#[test]
fn programs_read_golden_streams() {
    for (stream, lines) in golden() {
        let is_accepted = lines.iter().any(|line| line.starts_with("end "));
        assert_eq!(sizes::sections(&stream).is_ok(), is_accepted);
        assert!(is_accepted || interface::show(&stream).is_err() && relocations::show(&stream).is_err());
        let _ = (interface::show(&stream), relocations::show(&stream));
    }
}

#[test]
fn programs_read_an_object_file() {
    let object = bytes(OBJECT);
    let sizes: Vec<_> = sizes::sections(&object).unwrap().into_iter().map(|section| format!("{} {}", section.name, section.size)).collect();
    assert_eq!(sizes, ["type 6", "function 2", "export 5", "code 12", "custom \"linking\" 17", "custom \"reloc.CODE\" 16"]);
    assert!(interface::show(&object).is_ok() && relocations::show(&object).is_ok());
}
