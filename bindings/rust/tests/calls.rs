//! Faults, features and streams without custom sections.
mod common;

use pulleynavy::{Parser, Payload, WasmFeatures, strip};

/// A stream of a function section and a code section with one body.
const BODY: &str = "M 03 02 01 00 0a 04 01 02 00 0b";

#[test]
fn a_fault_has_a_text_an_offset_and_a_number() {
    let error = Parser::new(5).parse(b"\0asm\x01\x01\x01\x01", true).unwrap_err();
    assert_eq!((error.message(), error.offset(), error.number()), ("unknown binary version", 9, Some(16843009)));
    assert_eq!(error.to_string(), "unknown binary version:  0x1010101 (at offset 0x9)");
    let here = Parser::new(0).parse(b"\0asm\x01\x01\x01\x01", true).unwrap_err();
    assert_eq!(here.to_string(), "unknown binary version:  0x1010101 (at offset 0x4)");
    assert!(here != error);
}

#[test]
fn features_say_what_a_limit_may_be() {
    // A memory of 2^32 pages, which only a 64-bit limit can say.
    let module = b"\0asm\x01\0\0\0\x05\x07\x01\x04\x80\x80\x80\x80\x10";
    for (features, pages) in [(WasmFeatures::all(), Some(1 << 32)), (WasmFeatures::empty(), None)] {
        let mut parser = Parser::new(0);
        parser.set_features(features);
        assert_eq!(parser.features(), features);
        let Ok(Payload::MemorySection(memories)) = parser.parse_all(module).nth(1).unwrap() else { panic!() };
        assert_eq!(memories.into_iter().next().unwrap().ok().map(|memory| memory.initial), pages);
    }
}

/// A stream, whether names are kept, and the remaining bytes or the fault.
#[test]
fn streams_are_stripped_in_their_own_bytes() {
    const COMPONENT: &str = "00 61 73 6d 0d 00 01 00 01 01 00";
    let absent = Err("function section has non-zero count but code section is absent (at offset 0xc)");
    for (stream, keep_names, left) in [
        ("M 00 01 00 01 01 00 00 02 01 61", false, Ok("M 01 01 00")),
        ("M 00 05 04 6e 61 6d 65 00 02 01 61", true, Ok("M 00 05 04 6e 61 6d 65")),
        ("M 00 05 04 6e 61 6d 65 00 02 01 61", false, Ok("M")),
        ("M 00 85 80 00 04 6e 61 6d 65", true, Ok("M 00 85 80 00 04 6e 61 6d 65")),
        ("00 61 73 6d 0d 00 01 00 01 01 00 00 01 00", false, Ok(COMPONENT)),
        (BODY, false, Ok(BODY)),
        (BODY, true, Ok(BODY)),
        ("M 03 02 01 00", false, absent),
        ("M 03 02 01 00", true, absent),
        ("", false, Err("unexpected end-of-file (at offset 0x0)")),
        ("", true, Err("unexpected end-of-file (at offset 0x0)")),
    ] {
        let mut bytes = common::bytes(stream);
        let stripped = strip(&mut bytes, keep_names).map(|left| left.to_vec()).map_err(|error| error.to_string());
        assert_eq!(stripped, left.map(common::bytes).map_err(str::to_owned), "{stream}");
        assert!(stripped.is_ok() || bytes == common::bytes(stream));
    }
}
