// SPDX-License-Identifier: Apache-2.0 OR MIT
// The declarations of the library, written by tools/generate header from its sources.

export const VERSION = "0.16.0";

// The kind of an event.
export const EventKind = Object.freeze({
    NEED_MORE: 0,
    VERSION: 1,
    SECTION: 2,
    START: 3,
    DATA_COUNT: 4,
    CODE: 5,
    BODY: 6,
    CUSTOM: 7,
    UNKNOWN: 8,
    END: 9,
    FAULT: 10,
});

// The kind of a fault.
export const FaultKind = Object.freeze({
    OUT_OF_MEMORY: 1,
    UNEXPECTED_EOF: 2,
    OFFSET_RANGE: 3,
    BAD_MAGIC: 4,
    UNKNOWN_VERSION: 5,
    MAGIC_AT_SECTION: 6,
    MALFORMED_SECTION_ID: 7,
    SECTION_TOO_LARGE: 8,
    OUT_OF_ORDER: 9,
    START_CONTENT: 10,
    DATA_COUNT_CONTENT: 11,
    FUNCTION_CODE_DIFFER: 12,
    FUNCTION_WITHOUT_CODE: 13,
    CODE_WITHOUT_FUNCTION: 14,
    DATA_COUNT_DIFFER: 15,
    DATA_COUNT_WITHOUT_DATA: 16,
    TRAILING_CODE: 17,
    NUMBER_TOO_LONG: 18,
    NUMBER_TOO_LARGE: 19,
    STRING_SIZE: 20,
    MALFORMED_UTF8: 21,
    INVALID_U7: 22,
    INVALID_BOOL: 23,
    SIZE_MISMATCH: 24,
    LEADING_BYTE: 25,
    DATA_FLAGS: 26,
    ELEMENT_FLAGS: 27,
    ELEMENT_FUNCTION_ONLY: 28,
    EXACT_EXPORT: 29,
    GLOBAL_FLAGS: 30,
    COMPACT_7F: 31,
    COMPACT_7E: 32,
    MEMORY_FLAGS: 33,
    PAGE_SIZE: 34,
    TABLE_ENCODING: 35,
    TABLE_FLAGS: 36,
    TAG_ATTRIBUTES: 37,
    NAMES_ORDER: 38,
    INDIRECT_ORDER: 39,
    NAME_SECTION_ORDER: 40,
    NAME_TRAILING: 41,
    PRODUCERS_FIELD: 42,
    LINKING_VERSION: 43,
    CORE_START_BYTE: 44,
    CORE_VALUE: 45,
    CUSTOM_TRAILING: 46,
    NOT_CONSTANT: 47,
    SUPERTYPES: 48,
});

// The kind of the number of NUMBER_TOO_LONG and NUMBER_TOO_LARGE.
export const NumberKind = Object.freeze({
    VAR_U32: 0,
    VAR_I32: 1,
    VAR_U64: 2,
    VAR_I64: 3,
    VAR_S33: 4,
});

// What the byte of LEADING_BYTE should have begun.
export const Lead = Object.freeze({
    BRANCH_HINT: 0,
    BRANCH_TAKEN: 1,
    COMDAT_SYMBOL: 2,
    SYMBOL: 3,
    RELOC: 4,
    EXTERNAL: 5,
    VALUE: 6,
    REFERENCE: 7,
    HEAP: 8,
    COMPOSITE: 9,
    MUTABILITY: 10,
});

// The part of a core dump that the byte of CORE_START_BYTE should have begun.
export const CoreStart = Object.freeze({
    NAME: 0,
    MODULE: 1,
    INSTANCE: 2,
    STACK_NAME: 3,
    FRAME: 4,
});

// The id of a section of a module.
export const SectionId = Object.freeze({
    CUSTOM: 0,
    TYPE: 1,
    IMPORT: 2,
    FUNCTION: 3,
    TABLE: 4,
    MEMORY: 5,
    GLOBAL: 6,
    EXPORT: 7,
    START: 8,
    ELEMENT: 9,
    CODE: 10,
    DATA: 11,
    DATA_COUNT: 12,
    TAG: 13,
});

// The kind of a type.
export const TypeKind = Object.freeze({
    I32: 0,
    I64: 1,
    F32: 2,
    F64: 3,
    V128: 4,
    REF: 5,
    I8: 6,
    I16: 7,
});

// The type of what a reference refers to.
export const HeapKind = Object.freeze({
    FUNC: 0,
    EXTERN: 1,
    ANY: 2,
    EQ: 3,
    I31: 4,
    STRUCT: 5,
    ARRAY: 6,
    EXN: 7,
    NONE: 8,
    NO_EXTERN: 9,
    NO_FUNC: 10,
    NO_EXN: 11,
    CONCRETE: 12,
});

// The kind of a composite type.
export const CompositeKind = Object.freeze({
    FUNC: 0,
    ARRAY: 1,
    STRUCT: 2,
});

// The kind of an import or export.
export const ExternalKind = Object.freeze({
    FUNC: 0,
    TABLE: 1,
    MEMORY: 2,
    GLOBAL: 3,
    TAG: 4,
    FUNC_EXACT: 5,
});

// The kind of an item of an import section.
export const ImportKind = Object.freeze({
    SINGLE: 0,
    BUNDLE: 1,
    BUNDLE_OF_TYPE: 2,
});

// The kind of an element segment.
export const ElementKind = Object.freeze({
    PASSIVE: 0,
    ACTIVE: 1,
    DECLARED: 2,
});

// The kind of a data segment.
export const DataKind = Object.freeze({
    PASSIVE: 0,
    ACTIVE: 1,
});

// The kind of a custom section, by its name.
export const CustomKind = Object.freeze({
    UNKNOWN: 0,
    NAME: 1,
    BRANCH_HINTS: 2,
    PRODUCERS: 3,
    DYLINK0: 4,
    LINKING: 5,
    RELOC: 6,
    CORE: 7,
    CORE_MODULES: 8,
    CORE_INSTANCES: 9,
    CORE_STACK: 10,
});

// The kind of a symbol.
export const SymbolKind = Object.freeze({
    FUNC: 0,
    DATA: 1,
    GLOBAL: 2,
    SECTION: 3,
    EVENT: 4,
    TABLE: 5,
});

// The kind of a symbol of a comdat.
export const ComdatKind = Object.freeze({
    DATA: 0,
    FUNC: 1,
    GLOBAL: 2,
    EVENT: 3,
    TABLE: 4,
    SECTION: 5,
});

// The type of a relocation.
export const RelocationKind = Object.freeze({
    FUNCTION_INDEX_LEB: 0,
    TABLE_INDEX_SLEB: 1,
    TABLE_INDEX_I32: 2,
    MEMORY_ADDR_LEB: 3,
    MEMORY_ADDR_SLEB: 4,
    MEMORY_ADDR_I32: 5,
    TYPE_INDEX_LEB: 6,
    GLOBAL_INDEX_LEB: 7,
    FUNCTION_OFFSET_I32: 8,
    SECTION_OFFSET_I32: 9,
    EVENT_INDEX_LEB: 10,
    MEMORY_ADDR_REL_SLEB: 11,
    TABLE_INDEX_REL_SLEB: 12,
    GLOBAL_INDEX_I32: 13,
    MEMORY_ADDR_LEB64: 14,
    MEMORY_ADDR_SLEB64: 15,
    MEMORY_ADDR_I64: 16,
    MEMORY_ADDR_REL_SLEB64: 17,
    TABLE_INDEX_SLEB64: 18,
    TABLE_INDEX_I64: 19,
    TABLE_NUMBER_LEB: 20,
    MEMORY_ADDR_TLS_SLEB: 21,
    FUNCTION_OFFSET_I64: 22,
    MEMORY_ADDR_LOCREL_I32: 23,
    TABLE_INDEX_REL_SLEB64: 24,
    MEMORY_ADDR_TLS_SLEB64: 25,
    FUNCTION_INDEX_I32: 26,
});

// The kind of a value of a core dump.
export const CoreValueKind = Object.freeze({
    MISSING: 0,
    I32: 1,
    I64: 2,
    F32: 3,
    F64: 4,
});

// The kind of an edit.
export const EditKind = Object.freeze({
    APPEND: 0,
    REPLACE: 1,
    REMOVE: 2,
    KEEP: 3,
});

// Whether an edited stream was written, and why not.
export const EditStatus = Object.freeze({
    DONE: 0,
    NO_ROOM: 1,
    MALFORMED: 2,
    UNKNOWN_KIND: 3,
    NAME_NOT_UTF8: 4,
    SECTION_TOO_LARGE: 5,
});

// The id of a subsection of `name`.
export const NameId = Object.freeze({
    MODULE: 0,
    FUNCTION: 1,
    LOCAL: 2,
    LABEL: 3,
    TYPE: 4,
    TABLE: 5,
    MEMORY: 6,
    GLOBAL: 7,
    ELEMENT: 8,
    DATA: 9,
    FIELD: 10,
    TAG: 11,
    PARAMETER: 12,
    TAG_PARAMETER: 13,
});

// The id of a subsection of `linking`.
export const LinkingId = Object.freeze({
    SEGMENT_INFO: 5,
    INIT_FUNCS: 6,
    COMDAT_INFO: 7,
    SYMBOL_TABLE: 8,
    TARGET_ARCH: 9,
});

// The id of a subsection of `dylink.0`.
export const DylinkId = Object.freeze({
    MEM_INFO: 1,
    NEEDED: 2,
    EXPORT_INFO: 3,
    IMPORT_INFO: 4,
    RUNTIME_PATH: 5,
    TARGET_ARCH: 6,
});

// The opcode of an instruction of a constant expression. An opcode of two parts is 256 times the first plus the second.
export const Opcode = Object.freeze({
    END: 11,
    GLOBAL_GET: 35,
    I32_CONST: 65,
    I64_CONST: 66,
    F32_CONST: 67,
    F64_CONST: 68,
    I32_ADD: 106,
    I32_SUB: 107,
    I32_MUL: 108,
    I64_ADD: 124,
    I64_SUB: 125,
    I64_MUL: 126,
    REF_NULL: 208,
    REF_FUNC: 210,
    STRUCT_NEW: 64256,
    STRUCT_NEW_DEFAULT: 64257,
    ARRAY_NEW: 64262,
    ARRAY_NEW_DEFAULT: 64263,
    ARRAY_NEW_FIXED: 64264,
    ANY_CONVERT_EXTERN: 64282,
    EXTERN_CONVERT_ANY: 64283,
    REF_I31: 64284,
    V128_CONST: 64780,
});

// The flags of a symbol, as bits.
export const SymbolFlags = Object.freeze({
    BINDING_WEAK: 1,
    BINDING_LOCAL: 2,
    VISIBILITY_HIDDEN: 4,
    UNDEFINED: 16,
    EXPORTED: 32,
    EXPLICIT_NAME: 64,
    NO_STRIP: 128,
    TLS: 256,
    ABSOLUTE: 512,
});

// The flags of a segment for linkers, as bits.
export const SegmentFlags = Object.freeze({
    STRINGS: 1,
    TLS: 2,
});

// The layout of each struct: its size as SIZE, and the offset of each field, in bytes. Pointers and sizes take 8 bytes, also in the
// module whose memory has 32-bit addresses.
export const FaultLayout = Object.freeze({
    SIZE: 24,
    kind: 0,
    hasNumber: 4,
    number: 8,
    offset: 16,
});
export const EventLayout = Object.freeze({
    SIZE: 96,
    kind: 0,
    id: 4,
    count: 8,
    size: 12,
    start: 16,
    end: 24,
    dataOffset: 32,
    at: 40,
    consumed: 48,
    hint: 56,
    nameSize: 64,
    fault: 72,
});
export const ParserLayout = Object.freeze({
    SIZE: 48,
    offset: 0,
    features: 8,
    functions: 12,
    codes: 16,
    datas: 20,
    dataCounts: 24,
    bodies: 28,
    codeBytes: 32,
    isBegun: 36,
    isComponent: 37,
    rank: 38,
    hasFunctions: 39,
    hasCodes: 40,
    hasDatas: 41,
    hasDataCounts: 42,
    inCode: 43,
});
export const FeedLayout = Object.freeze({
    SIZE: 72,
    parser: 0,
    mark: 48,
    end: 56,
    isFinished: 64,
});
export const ItemsLayout = Object.freeze({
    SIZE: 32,
    offset: 0,
    position: 8,
    remaining: 16,
    features: 20,
    last: 24,
    hasLast: 28,
    isEnded: 29,
});
export const SpanLayout = Object.freeze({
    SIZE: 16,
    at: 0,
    size: 8,
});
export const NumberLayout = Object.freeze({
    SIZE: 40,
    fault: 0,
    consumed: 24,
    value: 32,
});
export const SignedLayout = Object.freeze({
    SIZE: 40,
    fault: 0,
    consumed: 24,
    value: 32,
});
export const TypeLayout = Object.freeze({
    SIZE: 16,
    kind: 0,
    nullable: 4,
    heap: 8,
    index: 12,
});
export const ValueLayout = Object.freeze({
    SIZE: 48,
    fault: 0,
    consumed: 24,
    ty: 32,
});
export const FieldLayout = Object.freeze({
    SIZE: 56,
    fault: 0,
    consumed: 24,
    ty: 32,
    isMutable: 48,
});
export const TypeGroupLayout = Object.freeze({
    SIZE: 40,
    fault: 0,
    consumed: 24,
    isExplicit: 32,
    count: 36,
});
export const SubtypeLayout = Object.freeze({
    SIZE: 56,
    fault: 0,
    consumed: 24,
    isFinal: 32,
    hasSupertype: 36,
    supertype: 40,
    kind: 44,
    count: 48,
});
export const TableTypeLayout = Object.freeze({
    SIZE: 48,
    element: 0,
    table64: 16,
    shared: 20,
    hasMaximum: 24,
    initial: 32,
    maximum: 40,
});
export const MemoryTypeLayout = Object.freeze({
    SIZE: 40,
    memory64: 0,
    shared: 4,
    hasMaximum: 8,
    hasPageSize: 12,
    pageSizeLog2: 16,
    initial: 24,
    maximum: 32,
});
export const GlobalTypeLayout = Object.freeze({
    SIZE: 24,
    content: 0,
    isMutable: 16,
    shared: 20,
});
export const TableLayout = Object.freeze({
    SIZE: 104,
    fault: 0,
    consumed: 24,
    ty: 32,
    init: 80,
    hasInit: 96,
});
export const MemoryLayout = Object.freeze({
    SIZE: 72,
    fault: 0,
    consumed: 24,
    ty: 32,
});
export const TagLayout = Object.freeze({
    SIZE: 40,
    fault: 0,
    consumed: 24,
    funcTypeIndex: 32,
});
export const GlobalLayout = Object.freeze({
    SIZE: 72,
    fault: 0,
    consumed: 24,
    ty: 32,
    init: 56,
});
export const ImportTypeLayout = Object.freeze({
    SIZE: 120,
    kind: 0,
    index: 4,
    table: 8,
    memory: 56,
    global: 96,
});
export const ImportLayout = Object.freeze({
    SIZE: 208,
    fault: 0,
    consumed: 24,
    moduleName: 32,
    name: 48,
    ty: 64,
    items: 184,
    kind: 200,
    count: 204,
});
export const ImportItemLayout = Object.freeze({
    SIZE: 168,
    fault: 0,
    consumed: 24,
    name: 32,
    ty: 48,
});
export const NameLayout = Object.freeze({
    SIZE: 48,
    fault: 0,
    consumed: 24,
    name: 32,
});
export const ImportsLayout = Object.freeze({
    SIZE: 272,
    items: 0,
    bundled: 32,
    bundle: 64,
});
export const ExportLayout = Object.freeze({
    SIZE: 56,
    fault: 0,
    consumed: 24,
    name: 32,
    kind: 48,
    index: 52,
});
export const InstructionLayout = Object.freeze({
    SIZE: 80,
    fault: 0,
    consumed: 24,
    opcode: 32,
    index: 36,
    heap: 40,
    count: 44,
    integer: 48,
    bits: 56,
    bytes: 64,
});
export const ExpressionLayout = Object.freeze({
    SIZE: 32,
    fault: 0,
    consumed: 24,
});
export const ElementLayout = Object.freeze({
    SIZE: 104,
    fault: 0,
    consumed: 24,
    kind: 32,
    hasTable: 36,
    table: 40,
    hasExpressions: 44,
    offsetExpression: 48,
    ty: 64,
    items: 80,
    count: 96,
});
export const DataLayout = Object.freeze({
    SIZE: 72,
    fault: 0,
    consumed: 24,
    kind: 32,
    memory: 36,
    offsetExpression: 40,
    bytes: 56,
});
export const SubsectionLayout = Object.freeze({
    SIZE: 56,
    fault: 0,
    consumed: 24,
    id: 32,
    contents: 40,
});
export const NamingLayout = Object.freeze({
    SIZE: 56,
    fault: 0,
    consumed: 24,
    index: 32,
    name: 40,
});
export const IndirectNamingLayout = Object.freeze({
    SIZE: 56,
    fault: 0,
    consumed: 24,
    index: 32,
    count: 36,
    names: 40,
});
export const ProducersFieldLayout = Object.freeze({
    SIZE: 72,
    fault: 0,
    consumed: 24,
    name: 32,
    count: 48,
    values: 56,
});
export const ProducersValueLayout = Object.freeze({
    SIZE: 64,
    fault: 0,
    consumed: 24,
    name: 32,
    version: 48,
});
export const HintedFunctionLayout = Object.freeze({
    SIZE: 56,
    fault: 0,
    consumed: 24,
    func: 32,
    count: 36,
    hints: 40,
});
export const BranchHintLayout = Object.freeze({
    SIZE: 40,
    fault: 0,
    consumed: 24,
    funcOffset: 32,
    taken: 36,
});
export const DylinkMemoryLayout = Object.freeze({
    SIZE: 48,
    fault: 0,
    consumed: 24,
    memorySize: 32,
    memoryAlignment: 36,
    tableSize: 40,
    tableAlignment: 44,
});
export const DylinkExportLayout = Object.freeze({
    SIZE: 56,
    fault: 0,
    consumed: 24,
    name: 32,
    flags: 48,
});
export const DylinkImportLayout = Object.freeze({
    SIZE: 72,
    fault: 0,
    consumed: 24,
    moduleName: 32,
    field: 48,
    flags: 64,
});
export const LinkingSegmentLayout = Object.freeze({
    SIZE: 56,
    fault: 0,
    consumed: 24,
    name: 32,
    alignment: 48,
    flags: 52,
});
export const InitFunctionLayout = Object.freeze({
    SIZE: 40,
    fault: 0,
    consumed: 24,
    priority: 32,
    symbol: 36,
});
export const ComdatLayout = Object.freeze({
    SIZE: 72,
    fault: 0,
    consumed: 24,
    name: 32,
    flags: 48,
    count: 52,
    symbols: 56,
});
export const ComdatSymbolLayout = Object.freeze({
    SIZE: 40,
    fault: 0,
    consumed: 24,
    kind: 32,
    index: 36,
});
export const SymbolLayout = Object.freeze({
    SIZE: 80,
    fault: 0,
    consumed: 24,
    name: 32,
    kind: 48,
    flags: 52,
    index: 56,
    hasName: 60,
    isDefined: 64,
    dataOffset: 68,
    dataSize: 72,
});
export const TargetFeatureLayout = Object.freeze({
    SIZE: 56,
    fault: 0,
    consumed: 24,
    name: 32,
    prefix: 48,
});
export const RelocationLayout = Object.freeze({
    SIZE: 56,
    fault: 0,
    consumed: 24,
    kind: 32,
    extent: 36,
    offset: 40,
    index: 44,
    addend: 48,
});
export const CoreProcessLayout = Object.freeze({
    SIZE: 48,
    fault: 0,
    consumed: 24,
    name: 32,
});
export const CoreModuleLayout = Object.freeze({
    SIZE: 48,
    fault: 0,
    consumed: 24,
    name: 32,
});
export const CoreInstanceLayout = Object.freeze({
    SIZE: 40,
    fault: 0,
    consumed: 24,
    moduleIndex: 32,
});
export const CoreThreadLayout = Object.freeze({
    SIZE: 48,
    fault: 0,
    consumed: 24,
    name: 32,
});
export const CoreFrameLayout = Object.freeze({
    SIZE: 48,
    fault: 0,
    consumed: 24,
    instance: 32,
    func: 36,
    codeOffset: 40,
});
export const CoreValueLayout = Object.freeze({
    SIZE: 56,
    fault: 0,
    consumed: 24,
    kind: 32,
    integer: 40,
    bits: 48,
});
export const StrippedLayout = Object.freeze({
    SIZE: 32,
    fault: 0,
    size: 24,
});
export const EditedLayout = Object.freeze({
    SIZE: 40,
    fault: 0,
    size: 24,
    status: 32,
});

// The calls that the module exports.
export const CALLS = Object.freeze([
    "pulleynavy_version",
    "pulleynavy_format_message",
    "pulleynavy_parser_init",
    "pulleynavy_parse",
    "pulleynavy_skip",
    "pulleynavy_skip_section",
    "pulleynavy_format_fault",
    "pulleynavy_next_events",
    "pulleynavy_feed_init",
    "pulleynavy_feed_step",
    "pulleynavy_feed_finish",
    "pulleynavy_feed_push",
    "pulleynavy_items_init",
    "pulleynavy_list_init",
    "pulleynavy_read_number",
    "pulleynavy_next_numbers",
    "pulleynavy_read_u64",
    "pulleynavy_read_s32",
    "pulleynavy_read_s33",
    "pulleynavy_read_s64",
    "pulleynavy_read_value_type",
    "pulleynavy_next_value_types",
    "pulleynavy_read_heap_type",
    "pulleynavy_read_reference_type",
    "pulleynavy_read_field_type",
    "pulleynavy_next_field_types",
    "pulleynavy_read_type_group",
    "pulleynavy_read_subtype",
    "pulleynavy_read_table",
    "pulleynavy_next_tables",
    "pulleynavy_read_memory",
    "pulleynavy_next_memories",
    "pulleynavy_read_tag",
    "pulleynavy_next_tags",
    "pulleynavy_read_global",
    "pulleynavy_next_globals",
    "pulleynavy_read_table_type",
    "pulleynavy_read_global_type",
    "pulleynavy_read_import",
    "pulleynavy_next_imports",
    "pulleynavy_read_import_item",
    "pulleynavy_read_name",
    "pulleynavy_next_names",
    "pulleynavy_read_text",
    "pulleynavy_next_texts",
    "pulleynavy_read_bundled_import",
    "pulleynavy_imports_init",
    "pulleynavy_next_flat_imports",
    "pulleynavy_read_export",
    "pulleynavy_next_exports",
    "pulleynavy_read_instruction",
    "pulleynavy_read_expression",
    "pulleynavy_next_expressions",
    "pulleynavy_read_element",
    "pulleynavy_next_elements",
    "pulleynavy_read_data",
    "pulleynavy_next_data",
    "pulleynavy_read_subsection",
    "pulleynavy_read_naming",
    "pulleynavy_next_namings",
    "pulleynavy_read_indirect_naming",
    "pulleynavy_next_indirect_namings",
    "pulleynavy_next_subsections",
    "pulleynavy_next_name_subsections",
    "pulleynavy_read_producers_field",
    "pulleynavy_next_producers_fields",
    "pulleynavy_read_producers_value",
    "pulleynavy_next_producers_values",
    "pulleynavy_read_hinted_function",
    "pulleynavy_next_hinted_functions",
    "pulleynavy_read_branch_hint",
    "pulleynavy_next_branch_hints",
    "pulleynavy_read_dylink_memory",
    "pulleynavy_read_dylink_export",
    "pulleynavy_next_dylink_exports",
    "pulleynavy_read_dylink_import",
    "pulleynavy_next_dylink_imports",
    "pulleynavy_read_linking_segment",
    "pulleynavy_next_linking_segments",
    "pulleynavy_read_init_function",
    "pulleynavy_next_init_functions",
    "pulleynavy_read_comdat",
    "pulleynavy_next_comdats",
    "pulleynavy_read_comdat_symbol",
    "pulleynavy_next_comdat_symbols",
    "pulleynavy_read_linking_version",
    "pulleynavy_read_symbol",
    "pulleynavy_next_symbols",
    "pulleynavy_read_target_feature",
    "pulleynavy_next_target_features",
    "pulleynavy_read_relocation",
    "pulleynavy_next_relocations",
    "pulleynavy_read_core_process",
    "pulleynavy_read_core_module",
    "pulleynavy_read_core_instance",
    "pulleynavy_read_core_thread",
    "pulleynavy_read_core_frame",
    "pulleynavy_read_core_value",
    "pulleynavy_next_core_values",
    "pulleynavy_classify_custom",
    "pulleynavy_check_custom_end",
    "pulleynavy_check_name_end",
    "pulleynavy_strip",
    "pulleynavy_encode_custom",
    "pulleynavy_edit",
]);
