//! Modules that are built with the calls of `wasm-encoder`. The bytes were worked out by hand from the standard's grammar.
#![cfg(feature = "alloc")]
mod common;

use common::bytes;
use pulleynavy::encoder::{
    CodeSection, ConstExpr, CustomSection, DataCountSection, DataSection, ElementSection, Elements, Encode, EntityType, ExportKind, ExportSection, FieldType,
    FunctionSection, GlobalSection, GlobalType, HeapType, ImportSection, IndirectNameMap, MemorySection, MemoryType, Module, NameMap, NameSection,
    ProducersField, ProducersSection, RawSection, RefType, Section, StartSection, StorageType, TableSection, TableType, TagKind, TagSection, TagType,
    TypeSection, ValType,
};
use pulleynavy::{BinaryReaderError, FuncType, Ieee32, Ieee64, Parser, Payload, UnpackedIndex};

/// A section is these bytes, with its id and its length.
fn is(section: &impl Section, wanted: &str) {
    let mut sink = Vec::new();
    section.append_to(&mut sink);
    assert_eq!(sink, bytes(wanted));
}

const MEMORY: MemoryType = MemoryType { minimum: 1, maximum: None, memory64: false, shared: false, page_size_log2: None };
const TABLE: TableType = TableType { element_type: RefType::FUNCREF, table64: false, minimum: 3, maximum: Some(300), shared: false };
const GLOBAL: GlobalType = GlobalType { val_type: ValType::I64, mutable: true, shared: false };
const TAG: TagType = TagType { kind: TagKind::Exception, func_type_idx: 2 };

#[test]
fn types() {
    let mut types = TypeSection::new();
    assert!(types.is_empty());
    types.ty().function([ValType::I32, ValType::F64], [ValType::V128]);
    types.ty().array(&StorageType::I8, true);
    types.ty().struct_([FieldType { element_type: StorageType::Val(ValType::EXTERNREF), mutable: false }]);
    let concrete = RefType::new(false, HeapType::Concrete(UnpackedIndex::Module(64))).unwrap();
    types.ty().function([ValType::Ref(concrete)], []);
    assert_eq!(types.len(), 4);
    // The index of a type is signed: 64 has two bytes.
    is(&types, "01 14 04 60 02 7f 7c 01 7b 5e 78 01 5f 01 6f 00 60 01 64 c0 00 00");
}

#[test]
fn imports_and_exports() {
    let mut imports = ImportSection::new();
    imports.import("env", "f", EntityType::Function(300)).import("", "m", MEMORY).import("a", "g", GLOBAL).import("a", "t", TAG).import("a", "u", TABLE);
    is(&imports, "02 28 05 03 65 6e 76 01 66 00 ac 02 00 01 6d 02 00 01 01 61 01 67 03 7e 01 01 61 01 74 04 00 02 01 61 01 75 01 70 01 03 ac 02");
    let mut exports = ExportSection::new();
    exports.export("run", ExportKind::Func, 2).export("t", ExportKind::Table, 0).export("x", ExportKind::Tag, 128);
    is(&exports, "07 10 03 03 72 75 6e 00 02 01 74 01 00 01 78 04 80 01");
}

#[test]
fn tables_memories_and_tags() {
    let mut tables = TableSection::new();
    tables.table(TABLE).table_with_init(TABLE, &ConstExpr::ref_func(5));
    is(&tables, "04 10 02 70 01 03 ac 02 40 00 70 01 03 ac 02 d2 05 0b");
    let mut memories = MemorySection::new();
    memories.memory(MEMORY).memory(MemoryType { maximum: Some(2), memory64: true, shared: true, page_size_log2: Some(0), ..MEMORY });
    is(&memories, "05 07 02 00 01 0f 01 02 00");
    let mut tags = TagSection::new();
    tags.tag(TAG);
    is(&tags, "0d 03 01 00 02");
}

#[test]
fn functions_and_code() {
    let mut functions = FunctionSection::new();
    functions.function(0).function(7).function(300);
    is(&functions, "03 05 03 00 07 ac 02");
    let mut code = CodeSection::new();
    code.raw(&[0, 0x0b]).raw(&[0, 1, 0x0b]);
    assert_eq!((code.len(), code.byte_len()), (2, 7));
    is(&code, "0a 08 02 02 00 0b 03 00 01 0b");
    is(&StartSection { function_index: 300 }, "08 02 ac 02");
}

#[test]
fn constants() {
    let mut sink = Vec::new();
    ConstExpr::global_get(3).with_i32_const(-1).with_i32_add().encode(&mut sink);
    ConstExpr::i64_const(128).encode(&mut sink);
    ConstExpr::ref_null(HeapType::EXTERN).encode(&mut sink);
    ConstExpr::f32_const(Ieee32::from(1.0)).encode(&mut sink);
    ConstExpr::f64_const(Ieee64::from(-2.0)).encode(&mut sink);
    ConstExpr::v128_const(7).encode(&mut sink);
    let numbers = "42 80 01 0b d0 6f 0b 43 00 00 80 3f 0b 44 00 00 00 00 00 00 00 c0 0b";
    assert_eq!(sink, bytes(&format!("23 03 41 7f 6a 0b {numbers} fd 0c 07 {} 0b", "00 ".repeat(15).trim())));
    let mut globals = GlobalSection::new();
    globals.global(GLOBAL, &ConstExpr::i64_const(5));
    is(&globals, "06 06 01 7e 01 42 05 0b");
}

#[test]
fn elements() {
    let functions = || Elements::Functions((&[5, 6][..]).into());
    let expressions = |ty| Elements::Expressions(ty, vec![ConstExpr::ref_func(1), ConstExpr::ref_null(HeapType::FUNC)].into());
    let offset = ConstExpr::i32_const(0);
    let mut elements = ElementSection::new();
    elements.active(None, &offset, functions()).passive(functions()).active(Some(1), &offset, functions()).declared(functions());
    elements.active(None, &offset, expressions(RefType::FUNCREF)).passive(expressions(RefType::FUNCREF));
    is(
        &elements,
        "09 2f 06 00 41 00 0b 02 05 06 01 00 02 05 06 02 01 41 00 0b 00 02 05 06 03 00 02 05 06 04 41 00 0b 02 d2 01 0b d0 70 0b 05 70 02 d2 01 0b d0 70 0b",
    );
    // Expressions of another type have a table.
    let mut typed = ElementSection::new();
    typed.active(None, &offset, Elements::Expressions(RefType::EXTERNREF, vec![ConstExpr::ref_null(HeapType::EXTERN)].into()));
    is(&typed, "09 0b 01 06 00 41 00 0b 6f 01 d0 6f 0b");
}

#[test]
fn data() {
    let mut data = DataSection::new();
    data.active(0, &ConstExpr::i32_const(8), *b"ab").active(1, &ConstExpr::i32_const(0), []).passive([0xff; 3]);
    is(&data, "0b 13 03 00 41 08 0b 02 61 62 02 01 41 00 0b 00 01 03 ff ff ff");
    is(&DataCountSection { count: 3 }, "0c 01 03");
}

#[test]
fn names() {
    let (mut functions, mut locals) = (NameMap::new(), IndirectNameMap::new());
    functions.append(1, "f");
    functions.append(300, "é");
    locals.append(1, &functions);
    let mut names = NameSection::new();
    names.module("app").functions(&functions).locals(&locals);
    is(&names, "00 23 04 6e 61 6d 65 00 04 03 61 70 70 01 09 02 01 01 66 ac 02 02 c3 a9 02 0b 01 01 02 01 01 66 ac 02 02 c3 a9");
}

#[test]
fn producers() {
    let (mut language, mut producers) = (ProducersField::new(), ProducersSection::new());
    language.value("Rust", "1.85").value("C", "");
    producers.field("language", &language);
    is(&producers, "00 22 09 70 72 6f 64 75 63 65 72 73 01 08 6c 61 6e 67 75 61 67 65 02 04 52 75 73 74 04 31 2e 38 35 01 43 00");
}

#[test]
fn other_sections() {
    is(&CustomSection { name: "ab".into(), data: (&[1, 2][..]).into() }, "00 05 02 61 62 01 02");
    is(&RawSection { id: 11, data: &[0] }, "0b 01 00");
}

#[test]
#[should_panic(expected = "no bytes")]
fn an_expression_that_ends_twice() {
    GlobalSection::new().global(GLOBAL, &ConstExpr::raw([0x42, 0, 0x0b]));
}

#[test]
#[should_panic(expected = "is not written")]
fn a_shared_type() {
    let ty = pulleynavy::AbstractHeapType::Any;
    GlobalSection::new().global(GLOBAL, &ConstExpr::ref_null(HeapType::Abstract { shared: true, ty }));
}

#[test]
fn a_module_is_read() -> Result<(), BinaryReaderError> {
    let (mut types, mut functions, mut code) = (TypeSection::new(), FunctionSection::new(), CodeSection::new());
    types.ty().function([ValType::I32], [ValType::I32]);
    functions.function(0);
    code.raw(&[0, 0x20, 0, 0x0b]);
    let mut module = Module::new();
    module.section(&types).section(&functions).section(&code);
    assert_eq!(module.len(), module.as_slice().len());
    let stream = module.finish();
    let mut found = 0;
    for payload in Parser::new(0).parse_all(&stream) {
        if let Payload::TypeSection(section) = payload? {
            for group in section {
                let ty = group?.into_types().next().unwrap();
                assert_eq!(ty.unwrap_func(), &FuncType::new([ValType::I32], [ValType::I32]));
                found += 1;
            }
        }
    }
    assert_eq!(found, 1);
    Ok(())
}
