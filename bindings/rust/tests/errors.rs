//! Every kind of fault: its number, its text, its offset, and the number that belongs to it.
mod common;

use common::*;
use pulleynavy::*;

type Read = fn(&[u8]) -> Error;

fn stream(bytes: &[u8]) -> Error {
    Parser::new(0).parse_all(bytes).find_map(Result::err).unwrap()
}

/// The fault of an item, wherever in it.
fn of<'a, T: FromReader<'a>>(bytes: &'a [u8]) -> Error {
    BinaryReader::new(bytes, 0).read::<T>().err().unwrap()
}

/// The fault of an item of a type.
macro_rules! of {
    ($ty:ty) => {
        |bytes| of::<$ty>(bytes)
    };
}

/// The first fault among items.
fn among<T>(items: impl Iterator<Item = Result<T>>) -> Error {
    items.filter_map(Result::err).next().unwrap()
}

fn features_off(bytes: &[u8]) -> Error {
    among(ImportSectionReader::new(BinaryReader::new_features(bytes, 0, WasmFeatures::empty())).unwrap().into_imports())
}

fn offset_range(bytes: &[u8]) -> Error {
    Parser::new(u64::MAX).parse(bytes, true).unwrap_err()
}

fn too_large(bytes: &[u8]) -> Error {
    Parser::new(u64::MAX - 15).parse_all(bytes).find_map(Result::err).unwrap()
}

/// The faults of one number: of each a reader, bytes, the number and the text of the fault, and its offset.
fn agree(rows: &[(Read, &str, u32, &str, u64)]) {
    for (read, digits, code, text, offset) in rows {
        let error = read(&bytes(digits));
        assert_eq!((error.code(), error.message(), error.offset(), error.number()), (*code, *text, *offset, None), "{digits}");
        assert_eq!(error.to_string(), format!("{text} (at offset 0x{offset:x})"));
    }
}

/// The faults that have a number of their own, in the same columns with that number before the offset.
fn numbered(rows: &[(Read, &str, u32, &str, u64, u64)]) {
    for (read, digits, code, text, number, offset) in rows {
        let error = read(&bytes(digits));
        assert_eq!((error.code(), error.fault().message(), error.offset(), error.number()), (*code, *text, *offset, Some(*number)), "{digits}");
        let message = match text.strip_prefix("invalid leading byte ") {
            Some(what) => format!("invalid leading byte (0x{number:x}) {what}"),
            None if *code == 5 => format!("{text}: {number:#10x}"),
            None => format!("{text}: {number}"),
        };
        assert_eq!((error.message(), error.to_string()), (*text, format!("{message} (at offset 0x{offset:x})")));
        assert_eq!(format!("{error:?}"), format!("Error {{ message: {message:?}, offset: {offset} }}"));
    }
}

#[test]
fn an_error_is_small() {
    assert_eq!(size_of::<Error>(), 32);
    assert_eq!(size_of::<pulleynavy::Result<u64>>(), 32);
}

#[test]
fn faults_of_streams() {
    agree(&[
        (stream, "M 00 00", 2, "unexpected end-of-file", 10),
        (offset_range, "00", 3, "data passes the offset range", u64::MAX),
        (stream, "01 61 73 6d", 4, "magic header not detected: bad magic number", 0),
        (stream, "M 00 61 73 6d", 6, "expected section, got wasm magic number", 8),
        (stream, "M 80", 7, "malformed section id", 8),
        (stream, "M 02 01 00 01 01 00", 9, "section out of order", 13),
        (stream, "M 08 02 00 00", 10, "unexpected content in the start section", 11),
        (stream, "M 0c 02 00 00", 11, "unexpected content in the data count section", 11),
        (stream, "M 03 02 01 00 0a 01 00", 12, "function and code section have inconsistent lengths", 14),
        (stream, "M 03 02 01 00", 13, "function section has non-zero count but code section is absent", 12),
        (stream, "M 0a 02 01 00", 14, "function section is absent but code section has non-zero count", 10),
        (stream, "M 0c 01 01 0b 02 02 00", 15, "data count and data section have inconsistent lengths", 15),
        (stream, "M 0c 01 01", 16, "data count is non-zero but data section is absent", 11),
        (stream, "M 0a 02 00 ff", 17, "trailing bytes at end of section", 11),
    ]);
    numbered(&[(stream, "00 61 73 6d 02 00 00 00", 5, "unknown binary version", 2, 4), (too_large, "M 00 06", 8, "section too large", 6, u64::MAX - 6)]);
}

/// A fault of a number names its type above its own number.
#[test]
fn faults_of_numbers() {
    let (long, large): (u32, u32) = (18, 19);
    agree(&[
        (of!(u32), "80 80 80 80 80", long, "invalid var_u32: integer representation too long", 4),
        (of!(ConstExpr), "41 80 80 80 80 80 0b", long | 1 << 8, "invalid var_i32: integer representation too long", 5),
        (of!(MemoryType), "00 80 80 80 80 80 80 80 80 80 80", long | 2 << 8, "invalid var_u64: integer representation too long", 10),
        (of!(ConstExpr), "42 80 80 80 80 80 80 80 80 80 80", long | 3 << 8, "invalid var_i64: integer representation too long", 10),
        (of!(ValType), "63 80 80 80 80 80", long | 4 << 8, "invalid var_s33: integer representation too long", 5),
        (of!(u32), "ff ff ff ff 1f", large, "invalid var_u32: integer too large", 4),
        (of!(ConstExpr), "41 80 80 80 80 10", large | 1 << 8, "invalid var_i32: integer too large", 5),
        (of!(MemoryType), "00 80 80 80 80 80 80 80 80 80 02", large | 2 << 8, "invalid var_u64: integer too large", 10),
        (of!(ConstExpr), "42 80 80 80 80 80 80 80 80 80 01", large | 3 << 8, "invalid var_i64: integer too large", 10),
        (of!(ValType), "63 80 80 80 80 20", large | 4 << 8, "invalid var_s33: integer too large", 5),
    ]);
}

#[test]
fn faults_of_texts_bytes_and_counts() {
    agree(&[
        (of!(&str), "a1 8d 06", 20, "string size out of bounds", 2),
        (of!(&str), "02 c3 28", 21, "malformed UTF-8 encoding", 2),
        (|bytes| among(NameSectionReader::new(BinaryReader::new(bytes, 0))), "80 00", 22, "invalid u7", 0),
        (of!(bool), "02", 23, "invalid boolean value", 0),
        (
            |bytes| among(FunctionSectionReader::new(BinaryReader::new(bytes, 0)).unwrap().into_iter()),
            "01 05 06",
            24,
            "section size mismatch: unexpected data at the end of the section",
            2,
        ),
    ]);
}

/// A fault of a leading byte names what the byte begins above its own number.
#[test]
fn faults_of_leading_bytes() {
    let code = |what: u32| 25 | what << 8;
    numbered(&[
        (of!(BranchHint), "05 02 01", code(0), "invalid leading byte for invalid branch hint byte", 2, 1),
        (of!(BranchHint), "05 01 02", code(1), "invalid leading byte for invalid branch hint taken byte", 2, 2),
        (of!(ComdatSymbol), "06 00", code(2), "invalid leading byte for comdat symbol kind", 6, 0),
        (of!(ComdatSymbolKind), "06", code(2), "invalid leading byte for comdat symbol kind", 6, 0),
        (of!(SymbolInfo), "06 00", code(3), "invalid leading byte for symbol kind", 6, 0),
        (of!(RelocationEntry), "1b", code(4), "invalid leading byte for RelocEntryType", 27, 0),
        (of!(RelocationType), "1b", code(4), "invalid leading byte for RelocEntryType", 27, 0),
        (of!(Export), "01 61 05", code(5), "invalid leading byte for external kind", 5, 2),
        (of!(ExternalKind), "05", code(5), "invalid leading byte for external kind", 5, 0),
        (of!(ValType), "7a", code(6), "invalid leading byte for value type", 122, 0),
        (of!(Table), "7f 00 00", code(7), "invalid leading byte for reference type", 127, 0),
        (of!(ValType), "63 7f", code(8), "invalid leading byte for heap type", 127, 1),
        (of!(RecGroup), "40", code(9), "invalid leading byte for composite type", 64, 0),
        (of!(RecGroup), "5f 01 7f 02", code(10), "invalid leading byte for field mutability", 2, 3),
    ]);
}

#[test]
fn faults_of_items() {
    agree(&[
        (of!(Data), "03", 26, "invalid flags byte in data segment", 0),
        (of!(Element), "88 00", 27, "invalid flags byte in element segment", 1),
        (of!(Element), "01 01 00", 28, "only the function external type is supported in elem segment", 1),
        (of!(Export), "01 61 20 00", 29, "Exact type is not allowed in the exports", 3),
        (of!(Global), "7f 04", 30, "malformed global flags", 1),
        (features_off, "01 01 6d 00 7f", 31, "invalid leading byte 0x7F with compact imports proposal disabled", 4),
        (features_off, "01 01 6d 00 7e", 32, "invalid leading byte 0x7E with compact imports proposal disabled", 4),
        (of!(MemoryType), "10", 33, "invalid memory limits flags", 0),
        (of!(MemoryType), "08 00 40", 34, "invalid custom page size", 0),
        (of!(Table), "40 01", 35, "invalid table encoding", 1),
        (of!(Table), "70 08 00", 36, "invalid table resizable limits flags", 1),
        (of!(TagType), "01 00", 37, "invalid tag attributes", 0),
        (of!(ConstExpr), "20 00 0b", 47, "not a constant instruction", 0),
        (of!(RecGroup), "50 02 00 00", 48, "more than one supertype", 1),
    ]);
}

/// A fault of the byte with which a part of a core dump begins names that part above its own number.
#[test]
fn faults_of_custom_sections() {
    let start = |part: u32| 44 | part << 8;
    agree(&[
        (|bytes| among(NameMap::new(BinaryReader::new(bytes, 0)).unwrap()), "02 01 00 01 00", 38, "names out of order", 3),
        (|bytes| among(IndirectNameMap::new(BinaryReader::new(bytes, 0)).unwrap()), "02 01 00 00 00", 39, "indirect names out of order", 3),
        (|bytes| among(NameSectionReader::new(BinaryReader::new(bytes, 0))), "04 01 00 01 01 00", 40, "name subsection out of order", 3),
        (|bytes| among(NameSectionReader::new(BinaryReader::new(bytes, 0))), "00 02 00 ff", 41, "trailing data at the end of a name", 3),
        (of!(ProducersField), "01 78 00", 42, "invalid producers field name", 0),
        (|bytes| CoreDumpSection::new(BinaryReader::new(bytes, 0)).unwrap_err(), "01", start(0), "invalid start byte for core dump name", 0),
        (|bytes| CoreDumpModulesSection::new(BinaryReader::new(bytes, 0)).unwrap_err(), "01 01", start(1), "invalid start byte for coremodule", 0),
        (of!(CoreDumpInstance), "01", start(2), "invalid start byte for core dump instance", 0),
        (|bytes| CoreDumpStackSection::new(BinaryReader::new(bytes, 0)).unwrap_err(), "01", start(3), "invalid start byte for core dump stack name", 0),
        (of!(CoreDumpStackFrame), "01", start(4), "invalid start byte for core dump stack frame", 0),
        (of!(CoreDumpValue), "02", 45, "invalid CoreDumpValue type", 0),
        (|bytes| CoreDumpSection::new(BinaryReader::new(bytes, 0)).unwrap_err(), "00 00 ff", 46, "trailing bytes at end of custom section", 2),
    ]);
    let linking: Read = |bytes| LinkingSectionReader::new(BinaryReader::new(bytes, 0)).unwrap_err();
    numbered(&[(linking, "03", 43, "unsupported linking section version", 3, 0)]);
}

/// Faults are equal if their kinds, offsets and numbers are.
#[test]
fn equal_faults() {
    let fault = |number: u8, offset| BinaryReader::new(&[number], offset).read::<ExternalKind>().unwrap_err();
    assert_eq!(fault(5, 3), fault(5, 3));
    for other in [fault(6, 3), fault(5, 4), BinaryReader::new(&[], 3).read_u8().unwrap_err()] {
        assert_ne!(fault(5, 3), other);
    }
    assert_eq!(format!("{:?}", fault(5, 3)), "Error { message: \"invalid leading byte (0x5) for external kind\", offset: 3 }");
}
