//! Limits that validators and tools share. This crate applies one of them: names have at most [`MAX_WASM_STRING_SIZE`] bytes.

/// The maximum number of types in a module.
pub const MAX_WASM_TYPES: usize = 1_000_000;
/// The maximum number of functions in a module.
pub const MAX_WASM_FUNCTIONS: usize = 1_000_000;
/// The maximum number of imports in a module.
pub const MAX_WASM_IMPORTS: usize = 1_000_000;
/// The maximum number of exports in a module.
pub const MAX_WASM_EXPORTS: usize = 1_000_000;
/// The maximum number of globals in a module.
pub const MAX_WASM_GLOBALS: usize = 1_000_000;
/// The maximum number of tags in a module.
pub const MAX_WASM_TAGS: usize = 1_000_000;
/// The maximum number of supertypes that a type may declare. The readers of this crate accept at most one.
pub const MAX_WASM_SUPERTYPES: usize = 5;
/// The maximum number of element segments in a module.
pub const MAX_WASM_ELEMENT_SEGMENTS: usize = 100_000;
/// The maximum number of data segments in a module.
pub const MAX_WASM_DATA_SEGMENTS: usize = 100_000;
/// The maximum size of a name in bytes. Reading a longer one returns `StringSize`.
pub const MAX_WASM_STRING_SIZE: usize = 100_000;
/// The maximum number of tables in a module.
pub const MAX_WASM_TABLES: usize = 100_000;
/// The maximum size of a function body in bytes.
pub const MAX_WASM_FUNCTION_SIZE: usize = 7_654_321;
/// The maximum number of labels in a `br_table` instruction.
pub const MAX_WASM_BR_TABLE_SIZE: usize = MAX_WASM_FUNCTION_SIZE;
/// The maximum number of locals in a function.
pub const MAX_WASM_FUNCTION_LOCALS: u32 = 50_000;
/// The maximum number of parameters of a function.
pub const MAX_WASM_FUNCTION_PARAMS: usize = 1_000;
/// The maximum number of results of a function.
pub const MAX_WASM_FUNCTION_RETURNS: usize = 1_000;
/// The maximum number of modules and components in a component.
pub const MAX_WASM_MODULES_AND_COMPONENTS: usize = 1_000;
/// The maximum initial number of elements in a table.
pub const _MAX_WASM_TABLE_SIZE: usize = 10_000_000;
/// The maximum number of elements in a table.
pub const MAX_WASM_TABLE_ENTRIES: usize = 10_000_000;
/// The maximum number of memories in a module.
pub const MAX_WASM_MEMORIES: usize = 100;
/// The maximum number of fields in a struct type.
pub const MAX_WASM_STRUCT_FIELDS: usize = 10_000;
/// The maximum number of catch clauses in a `try_table` instruction.
pub const MAX_WASM_CATCHES: usize = 10_000;
/// The maximum number of handlers in a `resume` instruction.
pub const MAX_WASM_HANDLERS: usize = 10_000;
/// The maximum depth of subtyping: the number of steps from a type to its last supertype.
pub const MAX_WASM_SUBTYPING_DEPTH: usize = 63;
/// The maximum size of a type, counted in its parts.
pub const MAX_WASM_TYPE_SIZE: u32 = 1_000_000;
/// The maximum number of results of a `select` instruction.
pub const MAX_WASM_SELECT_RESULT_SIZE: usize = 10;
/// The page size, in bytes, of a memory whose type has none.
pub const DEFAULT_WASM_PAGE_SIZE: u64 = 1 << 16;

/// Returns the largest number of pages of this size in a memory with 32-bit addresses: 2^32 / `page_size`, but at most 2^32 - 1.
///
/// # Panics
///
/// If the size is not a power of two of at most 65,536.
///
/// # Examples
///
/// ```
/// use pulleynavy::max_wasm_memory32_pages;
///
/// assert_eq!(max_wasm_memory32_pages(65_536), 65_536);
/// assert_eq!(max_wasm_memory32_pages(1), 4_294_967_295);
/// ```
#[must_use]
pub fn max_wasm_memory32_pages(page_size: u64) -> u64 {
    assert!(is_page_size(page_size));
    ((1 << 32) / page_size).min(u32::MAX.into())
}

/// Returns the largest number of pages of this size in a memory with 64-bit addresses: 2^64 / `page_size`, but at most 2^64 - 1.
///
/// # Panics
///
/// If the size is not a power of two of at most 65,536.
#[must_use]
pub fn max_wasm_memory64_pages(page_size: u64) -> u64 {
    assert!(is_page_size(page_size));
    u64::try_from((1_u128 << 64) / u128::from(page_size)).unwrap_or(u64::MAX)
}

/// Returns whether a page may have this size: a power of two of at most 65,536.
#[must_use]
pub fn is_page_size(size: u64) -> bool {
    size.is_power_of_two() && size <= DEFAULT_WASM_PAGE_SIZE
}
