//! What values look like as JSON, written by hand from the fields that they have.
use pulleynavy::{BinaryReader, Export, FuncType, Import, ImportItemCompact, Naming, Parser, SegmentFlags, SymbolFlags, ValType, WasmFeatures};
use serde_json::{from_str, json, to_value};

fn reader(bytes: &[u8]) -> BinaryReader<'_> {
    BinaryReader::new(bytes, 0)
}

#[test]
fn imports_have_a_type_by_their_kind() {
    let types = [
        (&b"\x00\x05"[..], json!({ "func": 5 })),
        (b"\x01\x70\x00\x01", json!({ "table": { "element_type": "funcref", "table64": false, "initial": 1, "maximum": null, "shared": false } })),
        (b"\x02\x01\x01\x02", json!({ "memory": { "memory64": false, "shared": false, "initial": 1, "maximum": 2, "page_size_log2": null } })),
        (b"\x03\x7e\x01", json!({ "global": { "content_type": "i64", "mutable": true, "shared": false } })),
        (b"\x04\x00\x07", json!({ "tag": { "kind": "exception", "func_type_idx": 7 } })),
    ];
    for (bytes, ty) in types {
        let import = [b"\x01m\x01f", bytes].concat();
        assert_eq!(to_value(reader(&import).read::<Import>().unwrap()).unwrap(), json!({ "module": "m", "name": "f", "ty": ty }));
        let item = reader(&import[2..]).read::<ImportItemCompact>().unwrap();
        assert_eq!(to_value(item).unwrap(), json!({ "name": "f", "ty": ty }));
    }
}

#[test]
fn exports_have_a_kind() {
    for (kind, name) in ["func", "table", "memory", "global", "tag"].into_iter().enumerate() {
        let export = [1, b'e', kind as u8, 3];
        assert_eq!(to_value(reader(&export).read::<Export>().unwrap()).unwrap(), json!({ "name": "e", "kind": name, "index": 3 }));
    }
    assert_eq!(to_value(reader(b"\x09\x01x").read::<Naming>().unwrap()).unwrap(), json!({ "index": 9, "name": "x" }));
}

#[test]
fn types_are_texts() {
    for (bytes, text) in [(&b"\x7f"[..], "i32"), (b"\x7b", "v128"), (b"\x6f", "externref"), (b"\x64\x03", "(ref (module 3))")] {
        assert_eq!(to_value(reader(bytes).read::<ValType>().unwrap()).unwrap(), json!(text));
    }
    let function = reader(b"\x02\x7f\x7e\x01\x7c").read::<FuncType>().unwrap();
    assert_eq!(to_value(&function).unwrap(), json!({ "params": ["i32", "i64"], "results": ["f64"] }));
}

#[test]
fn an_error_has_a_message_a_code_an_offset_and_a_number() {
    let error = Parser::new(0).parse(b"\0asm\x02\0\0\0", true).unwrap_err();
    assert_eq!(to_value(error).unwrap(), json!({ "message": "unknown binary version", "code": 5, "offset": 4, "number": 2 }));
    let error = Parser::new(0).parse(b"\0as", true).unwrap_err();
    assert_eq!(to_value(error).unwrap(), json!({ "message": "unexpected end-of-file", "code": 2, "offset": 0, "number": null }));
}

#[test]
fn sets_are_names_and_come_back() {
    for (set, text) in [(WasmFeatures::all(), "MEMORY64 | COMPACT_IMPORTS"), (WasmFeatures::MEMORY64, "MEMORY64"), (WasmFeatures::empty(), "")] {
        assert_eq!(to_value(set).unwrap(), json!(text));
        assert_eq!(from_str::<WasmFeatures>(&format!("{text:?}")).unwrap(), set);
    }
    let symbol = SymbolFlags::BINDING_WEAK | SymbolFlags::from_bits_retain(1 << 31);
    assert_eq!(to_value(symbol).unwrap(), json!("BINDING_WEAK | 0x80000000"));
    assert_eq!(from_str::<SymbolFlags>("\"BINDING_WEAK | 0x80000000\"").unwrap(), symbol);
    assert_eq!(to_value(SegmentFlags::from_bits_retain(1 << 31)).unwrap(), json!("0x80000000"));
    for wrong in ["\"MEMORY65\"", "\"0x\"", "1", "null"] {
        assert!(from_str::<WasmFeatures>(wrong).is_err(), "{wrong}");
    }
}
