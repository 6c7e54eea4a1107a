//! Items over worked bytes: what they are read as, or their fault.
mod common;

use common::*;
use pulleynavy::*;

/// A single item of a type.
macro_rules! item {
    ($ty:ty) => {
        |reader| item::<$ty>(reader)
    };
}

/// Counted items of a type.
macro_rules! section {
    ($ty:ty) => {
        |reader| section::<$ty>(reader)
    };
}

#[test]
fn counted_items() {
    let rows: &[(Reader, &str, &str)] = &[
        (section!(bool), "03 01 00 01", "0..4 #3[1:true 2:false 3:true ]"),
        (section!((u32, bool)), "01 05 02", "0..3 #1[fault 2 invalid boolean value ]"),
        (section!(&str), "01 02 c3 28", "0..4 #1[fault 3 malformed UTF-8 encoding ]"),
        (section!(bool), "ff ff ff ff 0f", "0..5 #4294967295[fault 5 unexpected end-of-file ]"),
        (section!(u32), "", "fault 0 unexpected end-of-file"),
        (section!(u32), "80", "fault 1 unexpected end-of-file"),
        (section!(u32), "82 00 05 ff", "0..4 #2[2:5 fault 4 unexpected end-of-file ]"),
    ];
    agree(rows);
    let mismatch = "100..105 #2[101:5 102:128 fault 104 section size mismatch: unexpected data at the end of the section ]";
    agree_at(&[(section!(u32), "02 05 80 01 07", mismatch)], 100, WasmFeatures::all());
}

#[test]
fn imports() {
    let rows: &[(Reader, &str, &str)] = &[
        (flat, "01 01 6d 00 7f 02 01 61 00 03 01 62 00 04", "6:import(x6d x61 func 3 ) 10:import(x6d x62 func 4 ) "),
        (flat, "01 01 6d 00 7e 00 05 02 01 61 01 62", "8:import(x6d x61 func 5 ) 10:import(x6d x62 func 5 ) "),
        // A fault inside a group, after which the next group follows.
        (flat, "02 01 6d 00 7f 01 01 ff 00 00 01 6e 01 78 00 01", "fault 7 malformed UTF-8 encoding 10:import(x6e x78 func 1 ) "),
        (item!(Imports), "01 6d 00 7e 00 05 ff ff ff ff 0f", "fault 11 unexpected end-of-file"),
        (item!(Imports), "01 6d 00 7f 01 01 61 00 03", "compact1 x6d 4..9 #1[5:item(x61 func 3 ) ] used 9"),
        (item!(Imports), "01 6d 00 7e 00 05 01 01 61", "compact2 x6d func 5 6..9 #1[7:x61 ] used 9"),
    ];
    agree(rows);
    let disabled = |byte| format!("fault 4 invalid leading byte 0x{byte} with compact imports proposal disabled ");
    for (byte, features) in [("7F", WasmFeatures::MEMORY64), ("7E", WasmFeatures::empty())] {
        let digits = format!("01 01 6d 00 {byte} 02 01 61 00 03 01 62 00 04");
        agree_at(&[(flat, &digits, &disabled(byte))], 0, features);
    }
}

#[test]
fn groups_give_their_imports() {
    let bytes = bytes("01 6d 00 7e 00 05 02 01 61 01 62");
    let mut imports = BinaryReader::new(&bytes, 20).read::<Imports>().unwrap().into_iter();
    for (at, name) in [(27, "a"), (29, "b")] {
        assert_eq!(imports.next(), Some(Ok((at, Import { module: "m", name, ty: TypeRef::Func(5) }))));
    }
    assert_eq!(imports.next(), None);
}

#[test]
fn tables_memories_globals_exports_and_tags() {
    let rows: &[(Reader, &str, &str)] = &[
        (item!(Table), "40 00 70 00 01 d0 70 0b", "table(table(null:func false 1 - false ) 5..8 ) used 8"),
        (item!(Table), "40 01", "fault 1 invalid table encoding"),
        (item!(Table), "70 08 00", "fault 1 invalid table resizable limits flags"),
        (item!(MemoryType), "09 01 02 10", "memory(false false 1 2 16 ) used 4"),
        (item!(MemoryType), "08 00 40", "fault 0 invalid custom page size"),
        (item!(MemoryType), "10", "fault 0 invalid memory limits flags"),
        (item!(MemoryType), "00 ff ff ff ff 1f", "memory(false false 8589934591 - - ) used 6"),
        (item!(Global), "7f 01 41 05 0b", "global(global(i32 true false ) 2..5 ) used 5"),
        (item!(Global), "7f 04", "fault 1 malformed global flags"),
        (item!(Export), "01 61 20 00", "fault 3 Exact type is not allowed in the exports"),
        (item!(Export), "01 61 05", "fault 2 invalid leading byte for external kind: 5"),
        (item!(TagType), "01 00", "fault 0 invalid tag attributes"),
    ];
    agree(rows);
    let large = "fault 5 invalid var_u32: integer too large";
    agree_at(&[(item!(MemoryType), "00 ff ff ff ff 1f", large)], 0, WasmFeatures::COMPACT_IMPORTS);
}

#[test]
fn parts_of_types_and_imports() {
    let rows: &[(Reader, &str, &str)] = &[
        (item!(RefType), "70", "null:func used 1"),
        (item!(RefType), "64 05", "ref:5 used 2"),
        (item!(RefType), "7f", "fault 0 invalid leading byte for reference type: 127"),
        (item!(RefType), "05", "fault 0 invalid leading byte for reference type: 5"),
        (item!(RefType), "63 40", "fault 1 invalid leading byte for heap type: 64"),
        (item!(RefType), "64", "fault 1 unexpected end-of-file"),
        (item!(RefType), "", "fault 0 unexpected end-of-file"),
        (item!(HeapType), "6b", "struct used 1"),
        (item!(HeapType), "85 00", "5 used 2"),
        (item!(HeapType), "ff ff ff ff 0f ff", "4294967295 used 5"),
        (item!(HeapType), "7f", "fault 0 invalid leading byte for heap type: 127"),
        (item!(HeapType), "80 80 80 80 80", "fault 4 invalid var_s33: integer representation too long"),
        (item!(HeapType), "80 80 80 80 20", "fault 4 invalid var_s33: integer too large"),
        (item!(HeapType), "80 80", "fault 2 unexpected end-of-file"),
        (item!(HeapType), "", "fault 0 unexpected end-of-file"),
        (item!(ExternalKind), "20", "funcexact used 1"),
        (item!(ExternalKind), "06", "fault 0 invalid leading byte for external kind: 6"),
        (item!(TypeRef), "00 05", "func 5 used 2"),
        (item!(TypeRef), "01 70 01 02 03", "table(null:func false 2 3 false ) used 5"),
        (item!(TypeRef), "01 40 00 70 00 01 d0 70 0b", "fault 1 invalid leading byte for reference type: 64"),
        (item!(TypeRef), "02 07 02 03", "memory(true true 2 3 - ) used 4"),
        (item!(TypeRef), "03 7e 03", "global(i64 true true ) used 3"),
        (item!(TypeRef), "03 7e 04", "fault 2 malformed global flags"),
        (item!(TypeRef), "04 01 05", "fault 1 invalid tag attributes"),
        (item!(TypeRef), "20 07", "funcexact 7 used 2"),
        (item!(Import), "01 6d 00 00 05", "import(x6d x func 5 ) used 5"),
        (item!(Import), "01 6d 00 7f 01 01 61 00 03", "fault 3 invalid leading byte for external kind: 127"),
    ];
    agree(rows);
    let high = u64::MAX - 9;
    agree_at(&[(item!(HeapType), "63", &format!("fault {high} invalid leading byte for heap type: 99"))], high, WasmFeatures::all());
}

#[test]
fn constant_expressions() {
    let rows: &[(Reader, &str, &str)] = &[
        (item!(ConstExpr), "41 ff ff ff ff 7f 0b", "0..7 used 7"),
        (item!(ConstExpr), "41 80 80 80 80 10 0b", "fault 5 invalid var_i32: integer too large"),
        (item!(ConstExpr), "20 00 0b", "fault 0 not a constant instruction"),
    ];
    agree(rows);
}

#[test]
fn segments() {
    let rows: &[(Reader, &str, &str)] = &[
        (item!(Data), "80 00 41 00 0b 01 ff", "data(active 0 2..5 xff 0..7 ) used 7"),
        (item!(Data), "01 01 aa", "data(passive xaa 0..3 ) used 3"),
        (item!(Data), "03", "fault 0 invalid flags byte in data segment"),
        (item!(Element), "00 41 00 0b 02 00 01", "element(active - 1..4 4..7 #2[5:0 6:1 ] 0..7 ) used 7"),
        (item!(Element), "04 41 00 0b 01 d0 70 0b", "element(active - 1..4 null:func 4..8 #1[5:5..8 ] 0..8 ) used 8"),
        (item!(Element), "06 00 41 00 0b 6f 00", "element(active 0 2..5 null:extern 6..7 #0[] 0..7 ) used 7"),
        (item!(Element), "07 70 00", "element(declared null:func 2..3 #0[] 0..3 ) used 3"),
        (item!(Element), "01 01 00", "fault 1 only the function external type is supported in elem segment"),
        (item!(Element), "08", "fault 0 invalid flags byte in element segment"),
        (item!(Element), "88 00", "fault 1 invalid flags byte in element segment"),
        // A count that is written longer than it must be is a part of its list.
        (item!(Element), "01 00 81 80 00 05", "element(passive 2..6 #1[5:5 ] 0..6 ) used 6"),
    ];
    agree(rows);
}

/// The same item at consecutive offsets.
fn many(from: u64, count: u64, text: &str) -> String {
    joined((from..from + count).map(|at| format!("{at}:{text}")))
}

#[test]
fn long_lists_of_indices() {
    let (zeros, most) = ("00".repeat(31), "7f".repeat(32));
    let rows: &[(Reader, String, String)] = &[
        (item!(Element), format!("01 00 21 {zeros} 80 01 05"), format!("element(passive 2..37 #33[{}34:128 36:5 ] 0..37 ) used 37", many(3, 31, "0"))),
        (item!(Element), format!("01 00 20 {most}"), format!("element(passive 2..35 #32[{}] 0..35 ) used 35", many(3, 32, "127"))),
        (item!(Element), format!("01 00 01 05 {}", "00".repeat(40)), "element(passive 2..4 #1[3:5 ] 0..4 ) used 4".to_owned()),
        (item!(Element), format!("01 00 20 {zeros}"), "fault 34 unexpected end-of-file".to_owned()),
        (item!(Element), format!("01 00 20 {zeros} ff ff ff ff 10"), "fault 38 invalid var_u32: integer too large".to_owned()),
    ];
    for (read, digits, text) in rows {
        agree(&[(*read, digits, text)]);
    }
}

#[test]
fn types() {
    let rows: &[(Reader, &str, &str)] = &[
        (item!(RecGroup), "60 01 7f 01 7e", "rec(false [sub(true - func([i32 ] [i64 ] ) ) ] ) used 5"),
        (item!(RecGroup), "4f 01 00 5f 00", "rec(false [sub(true 0 struct [] ) ] ) used 5"),
        (item!(RecGroup), "4e 00", "rec(true [] ) used 2"),
        (item!(RecGroup), "50 02 00 00", "fault 1 more than one supertype"),
        (item!(RecGroup), "5f 01 7f 02", "fault 3 invalid leading byte for field mutability: 2"),
        (item!(RecGroup), "40", "fault 0 invalid leading byte for composite type: 64"),
        // A count alone allocates nothing.
        (item!(RecGroup), "4e ff ff ff ff 0f", "fault 6 unexpected end-of-file"),
        (item!(ValType), "64 6e", "ref:any used 2"),
        (item!(ValType), "63 05", "null:5 used 2"),
    ];
    agree(rows);
}
