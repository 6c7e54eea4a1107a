//! The numbers of faults in the C library, written by `tools/generate header` from its sources.

pub(crate) mod fault_kind {
    pub(crate) const OUT_OF_MEMORY: u32 = 1;
    pub(crate) const UNEXPECTED_EOF: u32 = 2;
    pub(crate) const OFFSET_RANGE: u32 = 3;
    pub(crate) const BAD_MAGIC: u32 = 4;
    pub(crate) const UNKNOWN_VERSION: u32 = 5;
    pub(crate) const MAGIC_AT_SECTION: u32 = 6;
    pub(crate) const MALFORMED_SECTION_ID: u32 = 7;
    pub(crate) const SECTION_TOO_LARGE: u32 = 8;
    pub(crate) const OUT_OF_ORDER: u32 = 9;
    pub(crate) const START_CONTENT: u32 = 10;
    pub(crate) const DATA_COUNT_CONTENT: u32 = 11;
    pub(crate) const FUNCTION_CODE_DIFFER: u32 = 12;
    pub(crate) const FUNCTION_WITHOUT_CODE: u32 = 13;
    pub(crate) const CODE_WITHOUT_FUNCTION: u32 = 14;
    pub(crate) const DATA_COUNT_DIFFER: u32 = 15;
    pub(crate) const DATA_COUNT_WITHOUT_DATA: u32 = 16;
    pub(crate) const TRAILING_CODE: u32 = 17;
    pub(crate) const NUMBER_TOO_LONG: u32 = 18;
    pub(crate) const NUMBER_TOO_LARGE: u32 = 19;
    pub(crate) const STRING_SIZE: u32 = 20;
    pub(crate) const MALFORMED_UTF8: u32 = 21;
    pub(crate) const INVALID_U7: u32 = 22;
    pub(crate) const INVALID_BOOL: u32 = 23;
    pub(crate) const SIZE_MISMATCH: u32 = 24;
    pub(crate) const LEADING_BYTE: u32 = 25;
    pub(crate) const DATA_FLAGS: u32 = 26;
    pub(crate) const ELEMENT_FLAGS: u32 = 27;
    pub(crate) const ELEMENT_FUNCTION_ONLY: u32 = 28;
    pub(crate) const EXACT_EXPORT: u32 = 29;
    pub(crate) const GLOBAL_FLAGS: u32 = 30;
    pub(crate) const COMPACT_7F: u32 = 31;
    pub(crate) const COMPACT_7E: u32 = 32;
    pub(crate) const MEMORY_FLAGS: u32 = 33;
    pub(crate) const PAGE_SIZE: u32 = 34;
    pub(crate) const TABLE_ENCODING: u32 = 35;
    pub(crate) const TABLE_FLAGS: u32 = 36;
    pub(crate) const TAG_ATTRIBUTES: u32 = 37;
    pub(crate) const NAMES_ORDER: u32 = 38;
    pub(crate) const INDIRECT_ORDER: u32 = 39;
    pub(crate) const NAME_SECTION_ORDER: u32 = 40;
    pub(crate) const NAME_TRAILING: u32 = 41;
    pub(crate) const PRODUCERS_FIELD: u32 = 42;
    pub(crate) const LINKING_VERSION: u32 = 43;
    pub(crate) const CORE_START_BYTE: u32 = 44;
    pub(crate) const CORE_VALUE: u32 = 45;
    pub(crate) const CUSTOM_TRAILING: u32 = 46;
    pub(crate) const NOT_CONSTANT: u32 = 47;
    pub(crate) const SUPERTYPES: u32 = 48;
}

pub(crate) mod number_kind {
    pub(crate) const VAR_U32: u32 = 0;
    pub(crate) const VAR_I32: u32 = 1;
    pub(crate) const VAR_U64: u32 = 2;
    pub(crate) const VAR_I64: u32 = 3;
    pub(crate) const VAR_S33: u32 = 4;
}

pub(crate) mod lead {
    pub(crate) const BRANCH_HINT: u32 = 0;
    pub(crate) const BRANCH_TAKEN: u32 = 1;
    pub(crate) const COMDAT_SYMBOL: u32 = 2;
    pub(crate) const SYMBOL: u32 = 3;
    pub(crate) const RELOC: u32 = 4;
    pub(crate) const EXTERNAL: u32 = 5;
    pub(crate) const VALUE: u32 = 6;
    pub(crate) const REFERENCE: u32 = 7;
    pub(crate) const HEAP: u32 = 8;
    pub(crate) const COMPOSITE: u32 = 9;
    pub(crate) const MUTABILITY: u32 = 10;
}

pub(crate) mod core_start {
    pub(crate) const NAME: u32 = 0;
    pub(crate) const MODULE: u32 = 1;
    pub(crate) const INSTANCE: u32 = 2;
    pub(crate) const STACK_NAME: u32 = 3;
    pub(crate) const FRAME: u32 = 4;
}
