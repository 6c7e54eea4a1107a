// SPDX-License-Identifier: Apache-2.0 OR MIT
// The declarations of the library, written by tools/generate header from its sources.

export declare const VERSION: string;

/** The kind of an event. */
export declare const EventKind: {
    readonly NEED_MORE: 0;
    readonly VERSION: 1;
    readonly SECTION: 2;
    readonly START: 3;
    readonly DATA_COUNT: 4;
    readonly CODE: 5;
    readonly BODY: 6;
    readonly CUSTOM: 7;
    readonly UNKNOWN: 8;
    readonly END: 9;
    readonly FAULT: 10;
};

/** The kind of a fault. */
export declare const FaultKind: {
    readonly OUT_OF_MEMORY: 1;
    readonly UNEXPECTED_EOF: 2;
    readonly OFFSET_RANGE: 3;
    readonly BAD_MAGIC: 4;
    readonly UNKNOWN_VERSION: 5;
    readonly MAGIC_AT_SECTION: 6;
    readonly MALFORMED_SECTION_ID: 7;
    readonly SECTION_TOO_LARGE: 8;
    readonly OUT_OF_ORDER: 9;
    readonly START_CONTENT: 10;
    readonly DATA_COUNT_CONTENT: 11;
    readonly FUNCTION_CODE_DIFFER: 12;
    readonly FUNCTION_WITHOUT_CODE: 13;
    readonly CODE_WITHOUT_FUNCTION: 14;
    readonly DATA_COUNT_DIFFER: 15;
    readonly DATA_COUNT_WITHOUT_DATA: 16;
    readonly TRAILING_CODE: 17;
    readonly NUMBER_TOO_LONG: 18;
    readonly NUMBER_TOO_LARGE: 19;
    readonly STRING_SIZE: 20;
    readonly MALFORMED_UTF8: 21;
    readonly INVALID_U7: 22;
    readonly INVALID_BOOL: 23;
    readonly SIZE_MISMATCH: 24;
    readonly LEADING_BYTE: 25;
    readonly DATA_FLAGS: 26;
    readonly ELEMENT_FLAGS: 27;
    readonly ELEMENT_FUNCTION_ONLY: 28;
    readonly EXACT_EXPORT: 29;
    readonly GLOBAL_FLAGS: 30;
    readonly COMPACT_7F: 31;
    readonly COMPACT_7E: 32;
    readonly MEMORY_FLAGS: 33;
    readonly PAGE_SIZE: 34;
    readonly TABLE_ENCODING: 35;
    readonly TABLE_FLAGS: 36;
    readonly TAG_ATTRIBUTES: 37;
    readonly NAMES_ORDER: 38;
    readonly INDIRECT_ORDER: 39;
    readonly NAME_SECTION_ORDER: 40;
    readonly NAME_TRAILING: 41;
    readonly PRODUCERS_FIELD: 42;
    readonly LINKING_VERSION: 43;
    readonly CORE_START_BYTE: 44;
    readonly CORE_VALUE: 45;
    readonly CUSTOM_TRAILING: 46;
    readonly NOT_CONSTANT: 47;
    readonly SUPERTYPES: 48;
};

/** The kind of the number of NUMBER_TOO_LONG and NUMBER_TOO_LARGE. */
export declare const NumberKind: {
    readonly VAR_U32: 0;
    readonly VAR_I32: 1;
    readonly VAR_U64: 2;
    readonly VAR_I64: 3;
    readonly VAR_S33: 4;
};

/** What the byte of LEADING_BYTE should have begun. */
export declare const Lead: {
    readonly BRANCH_HINT: 0;
    readonly BRANCH_TAKEN: 1;
    readonly COMDAT_SYMBOL: 2;
    readonly SYMBOL: 3;
    readonly RELOC: 4;
    readonly EXTERNAL: 5;
    readonly VALUE: 6;
    readonly REFERENCE: 7;
    readonly HEAP: 8;
    readonly COMPOSITE: 9;
    readonly MUTABILITY: 10;
};

/** The part of a core dump that the byte of CORE_START_BYTE should have begun. */
export declare const CoreStart: {
    readonly NAME: 0;
    readonly MODULE: 1;
    readonly INSTANCE: 2;
    readonly STACK_NAME: 3;
    readonly FRAME: 4;
};

/** The id of a section of a module. */
export declare const SectionId: {
    readonly CUSTOM: 0;
    readonly TYPE: 1;
    readonly IMPORT: 2;
    readonly FUNCTION: 3;
    readonly TABLE: 4;
    readonly MEMORY: 5;
    readonly GLOBAL: 6;
    readonly EXPORT: 7;
    readonly START: 8;
    readonly ELEMENT: 9;
    readonly CODE: 10;
    readonly DATA: 11;
    readonly DATA_COUNT: 12;
    readonly TAG: 13;
};

/** The kind of a type. */
export declare const TypeKind: {
    readonly I32: 0;
    readonly I64: 1;
    readonly F32: 2;
    readonly F64: 3;
    readonly V128: 4;
    readonly REF: 5;
    readonly I8: 6;
    readonly I16: 7;
};

/** The type of what a reference refers to. */
export declare const HeapKind: {
    readonly FUNC: 0;
    readonly EXTERN: 1;
    readonly ANY: 2;
    readonly EQ: 3;
    readonly I31: 4;
    readonly STRUCT: 5;
    readonly ARRAY: 6;
    readonly EXN: 7;
    readonly NONE: 8;
    readonly NO_EXTERN: 9;
    readonly NO_FUNC: 10;
    readonly NO_EXN: 11;
    readonly CONCRETE: 12;
};

/** The kind of a composite type. */
export declare const CompositeKind: {
    readonly FUNC: 0;
    readonly ARRAY: 1;
    readonly STRUCT: 2;
};

/** The kind of an import or export. */
export declare const ExternalKind: {
    readonly FUNC: 0;
    readonly TABLE: 1;
    readonly MEMORY: 2;
    readonly GLOBAL: 3;
    readonly TAG: 4;
    readonly FUNC_EXACT: 5;
};

/** The kind of an item of an import section. */
export declare const ImportKind: {
    readonly SINGLE: 0;
    readonly BUNDLE: 1;
    readonly BUNDLE_OF_TYPE: 2;
};

/** The kind of an element segment. */
export declare const ElementKind: {
    readonly PASSIVE: 0;
    readonly ACTIVE: 1;
    readonly DECLARED: 2;
};

/** The kind of a data segment. */
export declare const DataKind: {
    readonly PASSIVE: 0;
    readonly ACTIVE: 1;
};

/** The kind of a custom section, by its name. */
export declare const CustomKind: {
    readonly UNKNOWN: 0;
    readonly NAME: 1;
    readonly BRANCH_HINTS: 2;
    readonly PRODUCERS: 3;
    readonly DYLINK0: 4;
    readonly LINKING: 5;
    readonly RELOC: 6;
    readonly CORE: 7;
    readonly CORE_MODULES: 8;
    readonly CORE_INSTANCES: 9;
    readonly CORE_STACK: 10;
};

/** The kind of a symbol. */
export declare const SymbolKind: {
    readonly FUNC: 0;
    readonly DATA: 1;
    readonly GLOBAL: 2;
    readonly SECTION: 3;
    readonly EVENT: 4;
    readonly TABLE: 5;
};

/** The kind of a symbol of a comdat. */
export declare const ComdatKind: {
    readonly DATA: 0;
    readonly FUNC: 1;
    readonly GLOBAL: 2;
    readonly EVENT: 3;
    readonly TABLE: 4;
    readonly SECTION: 5;
};

/** The type of a relocation. */
export declare const RelocationKind: {
    readonly FUNCTION_INDEX_LEB: 0;
    readonly TABLE_INDEX_SLEB: 1;
    readonly TABLE_INDEX_I32: 2;
    readonly MEMORY_ADDR_LEB: 3;
    readonly MEMORY_ADDR_SLEB: 4;
    readonly MEMORY_ADDR_I32: 5;
    readonly TYPE_INDEX_LEB: 6;
    readonly GLOBAL_INDEX_LEB: 7;
    readonly FUNCTION_OFFSET_I32: 8;
    readonly SECTION_OFFSET_I32: 9;
    readonly EVENT_INDEX_LEB: 10;
    readonly MEMORY_ADDR_REL_SLEB: 11;
    readonly TABLE_INDEX_REL_SLEB: 12;
    readonly GLOBAL_INDEX_I32: 13;
    readonly MEMORY_ADDR_LEB64: 14;
    readonly MEMORY_ADDR_SLEB64: 15;
    readonly MEMORY_ADDR_I64: 16;
    readonly MEMORY_ADDR_REL_SLEB64: 17;
    readonly TABLE_INDEX_SLEB64: 18;
    readonly TABLE_INDEX_I64: 19;
    readonly TABLE_NUMBER_LEB: 20;
    readonly MEMORY_ADDR_TLS_SLEB: 21;
    readonly FUNCTION_OFFSET_I64: 22;
    readonly MEMORY_ADDR_LOCREL_I32: 23;
    readonly TABLE_INDEX_REL_SLEB64: 24;
    readonly MEMORY_ADDR_TLS_SLEB64: 25;
    readonly FUNCTION_INDEX_I32: 26;
};

/** The kind of a value of a core dump. */
export declare const CoreValueKind: {
    readonly MISSING: 0;
    readonly I32: 1;
    readonly I64: 2;
    readonly F32: 3;
    readonly F64: 4;
};

/** The kind of an edit. */
export declare const EditKind: {
    readonly APPEND: 0;
    readonly REPLACE: 1;
    readonly REMOVE: 2;
    readonly KEEP: 3;
};

/** Whether an edited stream was written, and why not. */
export declare const EditStatus: {
    readonly DONE: 0;
    readonly NO_ROOM: 1;
    readonly MALFORMED: 2;
    readonly UNKNOWN_KIND: 3;
    readonly NAME_NOT_UTF8: 4;
    readonly SECTION_TOO_LARGE: 5;
};

/** The id of a subsection of `name`. */
export declare const NameId: {
    readonly MODULE: 0;
    readonly FUNCTION: 1;
    readonly LOCAL: 2;
    readonly LABEL: 3;
    readonly TYPE: 4;
    readonly TABLE: 5;
    readonly MEMORY: 6;
    readonly GLOBAL: 7;
    readonly ELEMENT: 8;
    readonly DATA: 9;
    readonly FIELD: 10;
    readonly TAG: 11;
    readonly PARAMETER: 12;
    readonly TAG_PARAMETER: 13;
};

/** The id of a subsection of `linking`. */
export declare const LinkingId: {
    readonly SEGMENT_INFO: 5;
    readonly INIT_FUNCS: 6;
    readonly COMDAT_INFO: 7;
    readonly SYMBOL_TABLE: 8;
    readonly TARGET_ARCH: 9;
};

/** The id of a subsection of `dylink.0`. */
export declare const DylinkId: {
    readonly MEM_INFO: 1;
    readonly NEEDED: 2;
    readonly EXPORT_INFO: 3;
    readonly IMPORT_INFO: 4;
    readonly RUNTIME_PATH: 5;
    readonly TARGET_ARCH: 6;
};

/** The opcode of an instruction of a constant expression. An opcode of two parts is 256 times the first plus the second. */
export declare const Opcode: {
    readonly END: 11;
    readonly GLOBAL_GET: 35;
    readonly I32_CONST: 65;
    readonly I64_CONST: 66;
    readonly F32_CONST: 67;
    readonly F64_CONST: 68;
    readonly I32_ADD: 106;
    readonly I32_SUB: 107;
    readonly I32_MUL: 108;
    readonly I64_ADD: 124;
    readonly I64_SUB: 125;
    readonly I64_MUL: 126;
    readonly REF_NULL: 208;
    readonly REF_FUNC: 210;
    readonly STRUCT_NEW: 64256;
    readonly STRUCT_NEW_DEFAULT: 64257;
    readonly ARRAY_NEW: 64262;
    readonly ARRAY_NEW_DEFAULT: 64263;
    readonly ARRAY_NEW_FIXED: 64264;
    readonly ANY_CONVERT_EXTERN: 64282;
    readonly EXTERN_CONVERT_ANY: 64283;
    readonly REF_I31: 64284;
    readonly V128_CONST: 64780;
};

/** The flags of a symbol, as bits. */
export declare const SymbolFlags: {
    readonly BINDING_WEAK: 1;
    readonly BINDING_LOCAL: 2;
    readonly VISIBILITY_HIDDEN: 4;
    readonly UNDEFINED: 16;
    readonly EXPORTED: 32;
    readonly EXPLICIT_NAME: 64;
    readonly NO_STRIP: 128;
    readonly TLS: 256;
    readonly ABSOLUTE: 512;
};

/** The flags of a segment for linkers, as bits. */
export declare const SegmentFlags: {
    readonly STRINGS: 1;
    readonly TLS: 2;
};

export declare const FaultLayout: {
    readonly SIZE: 24;
    readonly kind: 0;
    readonly hasNumber: 4;
    readonly number: 8;
    readonly offset: 16;
};

export declare const EventLayout: {
    readonly SIZE: 96;
    readonly kind: 0;
    readonly id: 4;
    readonly count: 8;
    readonly size: 12;
    readonly start: 16;
    readonly end: 24;
    readonly dataOffset: 32;
    readonly at: 40;
    readonly consumed: 48;
    readonly hint: 56;
    readonly nameSize: 64;
    readonly fault: 72;
};

export declare const ParserLayout: {
    readonly SIZE: 48;
    readonly offset: 0;
    readonly features: 8;
    readonly functions: 12;
    readonly codes: 16;
    readonly datas: 20;
    readonly dataCounts: 24;
    readonly bodies: 28;
    readonly codeBytes: 32;
    readonly isBegun: 36;
    readonly isComponent: 37;
    readonly rank: 38;
    readonly hasFunctions: 39;
    readonly hasCodes: 40;
    readonly hasDatas: 41;
    readonly hasDataCounts: 42;
    readonly inCode: 43;
};

export declare const FeedLayout: {
    readonly SIZE: 72;
    readonly parser: 0;
    readonly mark: 48;
    readonly end: 56;
    readonly isFinished: 64;
};

export declare const ItemsLayout: {
    readonly SIZE: 32;
    readonly offset: 0;
    readonly position: 8;
    readonly remaining: 16;
    readonly features: 20;
    readonly last: 24;
    readonly hasLast: 28;
    readonly isEnded: 29;
};

export declare const SpanLayout: {
    readonly SIZE: 16;
    readonly at: 0;
    readonly size: 8;
};

export declare const NumberLayout: {
    readonly SIZE: 40;
    readonly fault: 0;
    readonly consumed: 24;
    readonly value: 32;
};

export declare const SignedLayout: {
    readonly SIZE: 40;
    readonly fault: 0;
    readonly consumed: 24;
    readonly value: 32;
};

export declare const TypeLayout: {
    readonly SIZE: 16;
    readonly kind: 0;
    readonly nullable: 4;
    readonly heap: 8;
    readonly index: 12;
};

export declare const ValueLayout: {
    readonly SIZE: 48;
    readonly fault: 0;
    readonly consumed: 24;
    readonly ty: 32;
};

export declare const FieldLayout: {
    readonly SIZE: 56;
    readonly fault: 0;
    readonly consumed: 24;
    readonly ty: 32;
    readonly isMutable: 48;
};

export declare const TypeGroupLayout: {
    readonly SIZE: 40;
    readonly fault: 0;
    readonly consumed: 24;
    readonly isExplicit: 32;
    readonly count: 36;
};

export declare const SubtypeLayout: {
    readonly SIZE: 56;
    readonly fault: 0;
    readonly consumed: 24;
    readonly isFinal: 32;
    readonly hasSupertype: 36;
    readonly supertype: 40;
    readonly kind: 44;
    readonly count: 48;
};

export declare const TableTypeLayout: {
    readonly SIZE: 48;
    readonly element: 0;
    readonly table64: 16;
    readonly shared: 20;
    readonly hasMaximum: 24;
    readonly initial: 32;
    readonly maximum: 40;
};

export declare const MemoryTypeLayout: {
    readonly SIZE: 40;
    readonly memory64: 0;
    readonly shared: 4;
    readonly hasMaximum: 8;
    readonly hasPageSize: 12;
    readonly pageSizeLog2: 16;
    readonly initial: 24;
    readonly maximum: 32;
};

export declare const GlobalTypeLayout: {
    readonly SIZE: 24;
    readonly content: 0;
    readonly isMutable: 16;
    readonly shared: 20;
};

export declare const TableLayout: {
    readonly SIZE: 104;
    readonly fault: 0;
    readonly consumed: 24;
    readonly ty: 32;
    readonly init: 80;
    readonly hasInit: 96;
};

export declare const MemoryLayout: {
    readonly SIZE: 72;
    readonly fault: 0;
    readonly consumed: 24;
    readonly ty: 32;
};

export declare const TagLayout: {
    readonly SIZE: 40;
    readonly fault: 0;
    readonly consumed: 24;
    readonly funcTypeIndex: 32;
};

export declare const GlobalLayout: {
    readonly SIZE: 72;
    readonly fault: 0;
    readonly consumed: 24;
    readonly ty: 32;
    readonly init: 56;
};

export declare const ImportTypeLayout: {
    readonly SIZE: 120;
    readonly kind: 0;
    readonly index: 4;
    readonly table: 8;
    readonly memory: 56;
    readonly global: 96;
};

export declare const ImportLayout: {
    readonly SIZE: 208;
    readonly fault: 0;
    readonly consumed: 24;
    readonly moduleName: 32;
    readonly name: 48;
    readonly ty: 64;
    readonly items: 184;
    readonly kind: 200;
    readonly count: 204;
};

export declare const ImportItemLayout: {
    readonly SIZE: 168;
    readonly fault: 0;
    readonly consumed: 24;
    readonly name: 32;
    readonly ty: 48;
};

export declare const NameLayout: {
    readonly SIZE: 48;
    readonly fault: 0;
    readonly consumed: 24;
    readonly name: 32;
};

export declare const ImportsLayout: {
    readonly SIZE: 272;
    readonly items: 0;
    readonly bundled: 32;
    readonly bundle: 64;
};

export declare const ExportLayout: {
    readonly SIZE: 56;
    readonly fault: 0;
    readonly consumed: 24;
    readonly name: 32;
    readonly kind: 48;
    readonly index: 52;
};

export declare const InstructionLayout: {
    readonly SIZE: 80;
    readonly fault: 0;
    readonly consumed: 24;
    readonly opcode: 32;
    readonly index: 36;
    readonly heap: 40;
    readonly count: 44;
    readonly integer: 48;
    readonly bits: 56;
    readonly bytes: 64;
};

export declare const ExpressionLayout: {
    readonly SIZE: 32;
    readonly fault: 0;
    readonly consumed: 24;
};

export declare const ElementLayout: {
    readonly SIZE: 104;
    readonly fault: 0;
    readonly consumed: 24;
    readonly kind: 32;
    readonly hasTable: 36;
    readonly table: 40;
    readonly hasExpressions: 44;
    readonly offsetExpression: 48;
    readonly ty: 64;
    readonly items: 80;
    readonly count: 96;
};

export declare const DataLayout: {
    readonly SIZE: 72;
    readonly fault: 0;
    readonly consumed: 24;
    readonly kind: 32;
    readonly memory: 36;
    readonly offsetExpression: 40;
    readonly bytes: 56;
};

export declare const SubsectionLayout: {
    readonly SIZE: 56;
    readonly fault: 0;
    readonly consumed: 24;
    readonly id: 32;
    readonly contents: 40;
};

export declare const NamingLayout: {
    readonly SIZE: 56;
    readonly fault: 0;
    readonly consumed: 24;
    readonly index: 32;
    readonly name: 40;
};

export declare const IndirectNamingLayout: {
    readonly SIZE: 56;
    readonly fault: 0;
    readonly consumed: 24;
    readonly index: 32;
    readonly count: 36;
    readonly names: 40;
};

export declare const ProducersFieldLayout: {
    readonly SIZE: 72;
    readonly fault: 0;
    readonly consumed: 24;
    readonly name: 32;
    readonly count: 48;
    readonly values: 56;
};

export declare const ProducersValueLayout: {
    readonly SIZE: 64;
    readonly fault: 0;
    readonly consumed: 24;
    readonly name: 32;
    readonly version: 48;
};

export declare const HintedFunctionLayout: {
    readonly SIZE: 56;
    readonly fault: 0;
    readonly consumed: 24;
    readonly func: 32;
    readonly count: 36;
    readonly hints: 40;
};

export declare const BranchHintLayout: {
    readonly SIZE: 40;
    readonly fault: 0;
    readonly consumed: 24;
    readonly funcOffset: 32;
    readonly taken: 36;
};

export declare const DylinkMemoryLayout: {
    readonly SIZE: 48;
    readonly fault: 0;
    readonly consumed: 24;
    readonly memorySize: 32;
    readonly memoryAlignment: 36;
    readonly tableSize: 40;
    readonly tableAlignment: 44;
};

export declare const DylinkExportLayout: {
    readonly SIZE: 56;
    readonly fault: 0;
    readonly consumed: 24;
    readonly name: 32;
    readonly flags: 48;
};

export declare const DylinkImportLayout: {
    readonly SIZE: 72;
    readonly fault: 0;
    readonly consumed: 24;
    readonly moduleName: 32;
    readonly field: 48;
    readonly flags: 64;
};

export declare const LinkingSegmentLayout: {
    readonly SIZE: 56;
    readonly fault: 0;
    readonly consumed: 24;
    readonly name: 32;
    readonly alignment: 48;
    readonly flags: 52;
};

export declare const InitFunctionLayout: {
    readonly SIZE: 40;
    readonly fault: 0;
    readonly consumed: 24;
    readonly priority: 32;
    readonly symbol: 36;
};

export declare const ComdatLayout: {
    readonly SIZE: 72;
    readonly fault: 0;
    readonly consumed: 24;
    readonly name: 32;
    readonly flags: 48;
    readonly count: 52;
    readonly symbols: 56;
};

export declare const ComdatSymbolLayout: {
    readonly SIZE: 40;
    readonly fault: 0;
    readonly consumed: 24;
    readonly kind: 32;
    readonly index: 36;
};

export declare const SymbolLayout: {
    readonly SIZE: 80;
    readonly fault: 0;
    readonly consumed: 24;
    readonly name: 32;
    readonly kind: 48;
    readonly flags: 52;
    readonly index: 56;
    readonly hasName: 60;
    readonly isDefined: 64;
    readonly dataOffset: 68;
    readonly dataSize: 72;
};

export declare const TargetFeatureLayout: {
    readonly SIZE: 56;
    readonly fault: 0;
    readonly consumed: 24;
    readonly name: 32;
    readonly prefix: 48;
};

export declare const RelocationLayout: {
    readonly SIZE: 56;
    readonly fault: 0;
    readonly consumed: 24;
    readonly kind: 32;
    readonly extent: 36;
    readonly offset: 40;
    readonly index: 44;
    readonly addend: 48;
};

export declare const CoreProcessLayout: {
    readonly SIZE: 48;
    readonly fault: 0;
    readonly consumed: 24;
    readonly name: 32;
};

export declare const CoreModuleLayout: {
    readonly SIZE: 48;
    readonly fault: 0;
    readonly consumed: 24;
    readonly name: 32;
};

export declare const CoreInstanceLayout: {
    readonly SIZE: 40;
    readonly fault: 0;
    readonly consumed: 24;
    readonly moduleIndex: 32;
};

export declare const CoreThreadLayout: {
    readonly SIZE: 48;
    readonly fault: 0;
    readonly consumed: 24;
    readonly name: 32;
};

export declare const CoreFrameLayout: {
    readonly SIZE: 48;
    readonly fault: 0;
    readonly consumed: 24;
    readonly instance: 32;
    readonly func: 36;
    readonly codeOffset: 40;
};

export declare const CoreValueLayout: {
    readonly SIZE: 56;
    readonly fault: 0;
    readonly consumed: 24;
    readonly kind: 32;
    readonly integer: 40;
    readonly bits: 48;
};

export declare const StrippedLayout: {
    readonly SIZE: 32;
    readonly fault: 0;
    readonly size: 24;
};

export declare const EditedLayout: {
    readonly SIZE: 40;
    readonly fault: 0;
    readonly size: 24;
    readonly status: 32;
};

export declare const CALLS: readonly string[];
