//! The value of each constant, as wasmparser and the standard have it.
use pulleynavy::*;

#[test]
fn limits() {
    assert_eq!([MAX_WASM_TYPES, MAX_WASM_FUNCTIONS, MAX_WASM_IMPORTS, MAX_WASM_EXPORTS, MAX_WASM_GLOBALS, MAX_WASM_TAGS], [1_000_000; 6]);
    assert_eq!([MAX_WASM_ELEMENT_SEGMENTS, MAX_WASM_DATA_SEGMENTS, MAX_WASM_STRING_SIZE, MAX_WASM_TABLES], [100_000; 4]);
    assert_eq!([MAX_WASM_FUNCTION_SIZE, MAX_WASM_BR_TABLE_SIZE], [7_654_321; 2]);
    assert_eq!([MAX_WASM_FUNCTION_PARAMS, MAX_WASM_FUNCTION_RETURNS, MAX_WASM_MODULES_AND_COMPONENTS], [1_000; 3]);
    assert_eq!([_MAX_WASM_TABLE_SIZE, MAX_WASM_TABLE_ENTRIES], [10_000_000; 2]);
    assert_eq!([MAX_WASM_STRUCT_FIELDS, MAX_WASM_CATCHES, MAX_WASM_HANDLERS], [10_000; 3]);
    assert_eq!((MAX_WASM_FUNCTION_LOCALS, MAX_WASM_TYPE_SIZE), (50_000_u32, 1_000_000_u32));
    assert_eq!((MAX_WASM_SUPERTYPES, MAX_WASM_MEMORIES, MAX_WASM_SUBTYPING_DEPTH, MAX_WASM_SELECT_RESULT_SIZE), (5, 100, 63, 10));
    assert_eq!(DEFAULT_WASM_PAGE_SIZE, 65_536_u64);
}

#[test]
fn no_limit_is_left_out() {
    let names = include_str!("../src/limits.rs").split("pub const ").skip(1).filter_map(|rest| rest.split(':').next());
    let tested = include_str!("constants.rs");
    assert_eq!(names.clone().find(|name| !tested.contains(name)), None);
    assert_eq!(names.count(), 27);
}

#[test]
fn pages() {
    assert_eq!([0, 1, 2, 3, 65_535, 65_536, 131_072].map(is_page_size), [false, true, true, false, false, true, false]);
    assert_eq!([1, 2, 65_536].map(max_wasm_memory32_pages), [u64::from(u32::MAX), 1 << 31, 1 << 16]);
    assert_eq!([1, 2, 65_536].map(max_wasm_memory64_pages), [u64::MAX, 1 << 63, 1 << 48]);
}

#[test]
fn features() {
    assert_eq!([WasmFeatures::MEMORY64, WasmFeatures::COMPACT_IMPORTS, WasmFeatures::all()].map(|set| set.bits()), [1, 2, 3]);
}

/// Each abstract heap type with its name in the text format, and both references to it with the short name of the nullable one.
const HEAPS: [(HeapType, &str, RefType, RefType, &str); 14] = [
    (HeapType::FUNC, "func", RefType::FUNC, RefType::FUNCREF, "funcref"),
    (HeapType::EXTERN, "extern", RefType::EXTERN, RefType::EXTERNREF, "externref"),
    (HeapType::ANY, "any", RefType::ANY, RefType::ANYREF, "anyref"),
    (HeapType::NONE, "none", RefType::NONE, RefType::NULLREF, "nullref"),
    (HeapType::NOEXTERN, "noextern", RefType::NOEXTERN, RefType::NULLEXTERNREF, "nullexternref"),
    (HeapType::NOFUNC, "nofunc", RefType::NOFUNC, RefType::NULLFUNCREF, "nullfuncref"),
    (HeapType::EQ, "eq", RefType::EQ, RefType::EQREF, "eqref"),
    (HeapType::STRUCT, "struct", RefType::STRUCT, RefType::STRUCTREF, "structref"),
    (HeapType::ARRAY, "array", RefType::ARRAY, RefType::ARRAYREF, "arrayref"),
    (HeapType::I31, "i31", RefType::I31, RefType::I31REF, "i31ref"),
    (HeapType::EXN, "exn", RefType::EXN, RefType::EXNREF, "exnref"),
    (HeapType::NOEXN, "noexn", RefType::NOEXN, RefType::NULLEXNREF, "nullexnref"),
    (HeapType::CONT, "cont", RefType::CONT, RefType::CONTREF, "contref"),
    (HeapType::NOCONT, "nocont", RefType::NOCONT, RefType::NULLCONTREF, "nullcontref"),
];

#[test]
fn references() {
    for (heap, name, reference, nullable, short) in HEAPS {
        assert_eq!((heap.to_string(), nullable.to_string(), reference.to_string()), (name.into(), short.into(), format!("(ref {name})")));
        assert_eq!((reference.heap_type(), nullable.heap_type()), (heap, heap));
        assert_eq!((reference.is_nullable(), nullable.is_nullable()), (false, true));
    }
    let references = [ValType::FUNCREF, ValType::EXTERNREF, ValType::EXNREF].map(|ty| ty.as_reference_type());
    assert_eq!(references, [RefType::FUNCREF, RefType::EXTERNREF, RefType::EXNREF].map(Some));
}
