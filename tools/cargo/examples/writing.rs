//! Writes one item many times, for `tools/bench writing`: whether it fits, how many bytes it has, and its bytes.
//!
//!     writing KIND COUNT   KIND is import, export, type or name
use pulleynavy_program::encode::{Encode, name_fits, name_len, write_name};
use pulleynavy_program::parser::{BinaryReader, Export, ExternalKind, FromReaderIn, Import, RecGroup, TypeRef};
use pulleynavy_program::std::alloc::Global;
use std::hint::black_box;

fn write(item: &impl Encode, bytes: &mut [u8]) -> usize {
    assert!(item.fits() && item.encoded_len() <= bytes.len());
    item.encode_at(bytes, 0)
}

fn write_text(name: &str, bytes: &mut [u8]) -> usize {
    assert!(name_fits(name) && name_len(name) <= bytes.len());
    write_name(bytes, 0, name)
}

fn main() {
    let words: Vec<String> = std::env::args().collect();
    let count: u32 = words[2].parse().expect("a number");
    let import = Import { module: "env_module", name: "function", ty: TypeRef::Func(3) };
    let export = Export { name: "a_function_name", kind: ExternalKind::Func, index: 3 };
    // Two parameters and a result.
    let ty = RecGroup::from_reader(Global, &mut BinaryReader::new(b"\x60\x02\x7f\x7e\x01\x7f", 0)).expect("a type");
    let mut bytes = [0; 64];
    let mut size = 0;
    for _ in 0..count {
        size = match words[1].as_bytes()[0] {
            b'i' => write(black_box(&import), &mut bytes),
            b'e' => write(black_box(&export), &mut bytes),
            b't' => write(black_box(&ty), &mut bytes),
            _ => write_text(black_box("a_function_name"), &mut bytes),
        };
        black_box(&bytes);
    }
    println!("{size}");
}
