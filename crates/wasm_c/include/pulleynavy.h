/* SPDX-License-Identifier: Apache-2.0 OR MIT */
/**
 * @file
 * @brief Pulleynavy: a streaming parser for WebAssembly modules, for C and C++. Written by tools/generate header from the sources of wasm_c.
 *
 * Link libpulleynavy.a, or the shared library, and nothing else: `pkg-config --cflags --libs pulleynavy` prints the options. No call
 * allocates, keeps a pointer, or fails to return. docs/C.md has a table of all calls.
 *
 * @code{.c}
 * pulleynavy_parser parser = pulleynavy_parser_init(0, PULLEYNAVY_ALL_FEATURES);
 * for (size_t at = 0;;) {
 *     pulleynavy_event event = pulleynavy_parse(&parser, bytes + at, size - at, true);
 *     if (event.kind >= PULLEYNAVY_EVENT_END) return event.kind == PULLEYNAVY_EVENT_FAULT;
 *     printf("%u at %llu\n", event.id, (unsigned long long)event.start);
 *     if (event.kind == PULLEYNAVY_EVENT_SECTION && event.id == PULLEYNAVY_SECTION_EXPORT)
 *         print_exports(&event, bytes + at + event.at);
 *     at += event.consumed;
 * }
 * @endcode
 *
 * A cursor walks the items of a section, and each call stores as many as there is room for. It is passed the bytes of the section,
 * those from `start` to `end` of its event:
 *
 * @code{.c}
 * void print_exports(const pulleynavy_event *event, const uint8_t *section) {
 *     pulleynavy_items items = pulleynavy_items_init(event, PULLEYNAVY_ALL_FEATURES);
 *     pulleynavy_export out[64];
 *     for (size_t n; (n = pulleynavy_next_exports(&items, section, event->end - event->start, out, 64)) > 0;)
 *         for (size_t i = 0; i < n && !out[i].fault.kind; i++)
 *             printf("%.*s is %u\n", (int)out[i].name.size, (const char *)section + out[i].name.at, out[i].index);
 * }
 * @endcode
 *
 * For chunked input, a feeder keeps the bytes that are not consumed yet in storage of yours, as in examples/list.c:
 *
 * @code{.c}
 * pulleynavy_feed feed = pulleynavy_feed_init(0, PULLEYNAVY_ALL_FEATURES);
 * pulleynavy_event event;
 * while ((event = pulleynavy_feed_step(&feed, storage, storage_size)).kind < PULLEYNAVY_EVENT_END) {
 *     if (event.kind != PULLEYNAVY_EVENT_NEED_MORE) continue;
 *     size_t size = fread(chunk, 1, sizeof chunk, file);
 *     if (!size) pulleynavy_feed_finish(&feed);
 *     else if (!pulleynavy_feed_push(&feed, storage, storage_size, chunk, size)) return 3;
 * }
 * @endcode
 *
 * Offsets are uint64_t and count bytes from the start of the stream; sizes and positions in memory are size_t and count bytes too. A
 * span is a place in the bytes that the call is passed. Features are bits: PULLEYNAVY_FEATURE_ numbers, added.
 *
 * Faults. A struct that a call returns or stores has a field `fault`, whose kind is 0 if there is none. After a fault all other fields
 * of an item are 0, `consumed` included. The offset of a fault counts from the start of the stream. Each call names the faults that it
 * adds to these, which items have in common:
 *
 * - UNEXPECTED_EOF: the bytes end too early. Inside a number, the offset is their end; otherwise it is where the missing part, such as
 *   the bytes of a name after its size, should have started.
 * - NUMBER_TOO_LONG, NUMBER_TOO_LARGE: a LEB128 number is malformed. The offset is that of the last byte that it may take.
 * - STRING_SIZE: a name is longer than 100,000 bytes. The offset is that of the last byte of its size.
 * - MALFORMED_UTF8: a name is not UTF-8. The offset is that of its last byte.
 * - OFFSET_RANGE: the bytes end beyond the offset 2^64 - 1. The offset is that of the first byte.
 *
 * `pulleynavy_read_` calls read one item from the start of `bytes`. These are the remaining bytes of the item's section and begin at
 * `offset` of the stream; a read never looks beyond them. `consumed` is the size of the item in bytes.
 *
 * `pulleynavy_next_` calls store the next items of a list in `out` and return their number: as many as there are, or `out_count` if
 * there are more, and 0 after the end. `bytes` are those of the whole list, the same in each call, and spans count from their start.
 * An item with a fault is stored too; the list ends after it, unless the call says otherwise. If bytes follow the last item of a list
 * with a count, an item with the fault SIZE_MISMATCH at the first of them is stored last.
 *
 * What you owe each call: no pointer is null, not even with a size of 0; a pointer leads to as much as the size says; what a call
 * writes overlaps nothing else that it is given; nobody writes the bytes during a call; a `bool` is 0 or 1. Nothing else is asked:
 * any bytes are a parser, a feeder and a cursor.
 *
 * A request for more bytes and a fault leave a parser and a feeder unchanged.
 *
 * Threads: the library has no state of its own. Different threads may use different parsers, feeders and cursors at once; each of
 * them, with its storage, belongs to one thread at a time. Calls that read an item only read their arguments.
 *
 * Structs never grow: a new field means a new struct with a new name.
 *
 * Targets: Linux on x86-64 (v2), aarch64 and riscv64, Windows on x86-64 and arm64, macOS on x86-64 and arm64, FreeBSD on x86-64, and
 * WebAssembly with 32-bit and 64-bit memory; C sources for other 64-bit little-endian machines. docs/PLATFORMS.md says how each was
 * tested. Besides the proof each trusts clang or LLVM, the 32-bit module also binaryen, and the C sources also wasm2c. Only x86-64 Linux
 * has a second compiler to compare with.
 *
 * The numbers of kinds, faults and flags never change.
 */
#ifndef PULLEYNAVY_H
#define PULLEYNAVY_H
#include <stdbool.h>
#include <stddef.h>
#include <stdint.h>
#if defined(__clang__) && !defined(__cplusplus) && (!defined(__STDC_VERSION__) || __STDC_VERSION__ < 199901L)
#pragma clang diagnostic push
#pragma clang diagnostic ignored "-Wc99-extensions"
#define PULLEYNAVY_POP
#endif
#ifdef __cplusplus
extern "C" {
#endif

/**
 * The version of this header. Before 1.0.0 a new minor version may change anything; from then on a new minor version only adds
 * declarations, and a new major version may change them. Enumerators keep their numbers.
 */
#define PULLEYNAVY_VERSION_STRING "0.16.0"
/** Its major version. */
#define PULLEYNAVY_VERSION_MAJOR 0
/** Its minor version. */
#define PULLEYNAVY_VERSION_MINOR 16
/** Its patch. */
#define PULLEYNAVY_VERSION_PATCH 0
/** The version as a number, as `pulleynavy_version` returns it. */
#define PULLEYNAVY_VERSION_NUMBER (PULLEYNAVY_VERSION_MAJOR * 65536 + PULLEYNAVY_VERSION_MINOR * 256 + PULLEYNAVY_VERSION_PATCH)

/** The kind of a fault, a `PULLEYNAVY_FAULT_` number, from the number of the fault. */
#define PULLEYNAVY_FAULT_KIND(code) ((code) & 0xff)
/** What the bits above the kind of a fault name: a `PULLEYNAVY_NUMBER_`, `PULLEYNAVY_LEAD_` or `PULLEYNAVY_CORE_START_` number. */
#define PULLEYNAVY_FAULT_DETAIL(code) ((code) >> 8)

/** The kind of an event. */
typedef enum pulleynavy_event_kind {
    PULLEYNAVY_EVENT_NEED_MORE = 0,
    PULLEYNAVY_EVENT_VERSION = 1,
    PULLEYNAVY_EVENT_SECTION = 2,
    PULLEYNAVY_EVENT_START = 3,
    PULLEYNAVY_EVENT_DATA_COUNT = 4,
    PULLEYNAVY_EVENT_CODE = 5,
    PULLEYNAVY_EVENT_BODY = 6,
    PULLEYNAVY_EVENT_CUSTOM = 7,
    PULLEYNAVY_EVENT_UNKNOWN = 8,
    PULLEYNAVY_EVENT_END = 9,
    PULLEYNAVY_EVENT_FAULT = 10
} pulleynavy_event_kind;

/** The features of a parser, a feeder, a cursor or a reader, as bits. */
enum { PULLEYNAVY_FEATURE_MEMORY64 = 1, PULLEYNAVY_FEATURE_COMPACT_IMPORTS = 2, PULLEYNAVY_ALL_FEATURES = 3 };

/**
 * The kinds of faults: the lowest 8 bits of the number of a fault. 0 is no fault. No call returns OUT_OF_MEMORY, since none
 * allocates, or INVALID_BOOL, since no item has such a byte. Only cursors return SIZE_MISMATCH, NAMES_ORDER, INDIRECT_ORDER and
 * NAME_SECTION_ORDER; only the checks of an end return CUSTOM_TRAILING and NAME_TRAILING.
 */
typedef enum pulleynavy_fault_kind {
    PULLEYNAVY_FAULT_OUT_OF_MEMORY = 1,
    PULLEYNAVY_FAULT_UNEXPECTED_EOF = 2,
    PULLEYNAVY_FAULT_OFFSET_RANGE = 3,
    PULLEYNAVY_FAULT_BAD_MAGIC = 4,
    PULLEYNAVY_FAULT_UNKNOWN_VERSION = 5,
    PULLEYNAVY_FAULT_MAGIC_AT_SECTION = 6,
    PULLEYNAVY_FAULT_MALFORMED_SECTION_ID = 7,
    PULLEYNAVY_FAULT_SECTION_TOO_LARGE = 8,
    PULLEYNAVY_FAULT_OUT_OF_ORDER = 9,
    PULLEYNAVY_FAULT_START_CONTENT = 10,
    PULLEYNAVY_FAULT_DATA_COUNT_CONTENT = 11,
    PULLEYNAVY_FAULT_FUNCTION_CODE_DIFFER = 12,
    PULLEYNAVY_FAULT_FUNCTION_WITHOUT_CODE = 13,
    PULLEYNAVY_FAULT_CODE_WITHOUT_FUNCTION = 14,
    PULLEYNAVY_FAULT_DATA_COUNT_DIFFER = 15,
    PULLEYNAVY_FAULT_DATA_COUNT_WITHOUT_DATA = 16,
    PULLEYNAVY_FAULT_TRAILING_CODE = 17,
    PULLEYNAVY_FAULT_NUMBER_TOO_LONG = 18,
    PULLEYNAVY_FAULT_NUMBER_TOO_LARGE = 19,
    PULLEYNAVY_FAULT_STRING_SIZE = 20,
    PULLEYNAVY_FAULT_MALFORMED_UTF8 = 21,
    PULLEYNAVY_FAULT_INVALID_U7 = 22,
    PULLEYNAVY_FAULT_INVALID_BOOL = 23,
    PULLEYNAVY_FAULT_SIZE_MISMATCH = 24,
    PULLEYNAVY_FAULT_LEADING_BYTE = 25,
    PULLEYNAVY_FAULT_DATA_FLAGS = 26,
    PULLEYNAVY_FAULT_ELEMENT_FLAGS = 27,
    PULLEYNAVY_FAULT_ELEMENT_FUNCTION_ONLY = 28,
    PULLEYNAVY_FAULT_EXACT_EXPORT = 29,
    PULLEYNAVY_FAULT_GLOBAL_FLAGS = 30,
    PULLEYNAVY_FAULT_COMPACT_7F = 31,
    PULLEYNAVY_FAULT_COMPACT_7E = 32,
    PULLEYNAVY_FAULT_MEMORY_FLAGS = 33,
    PULLEYNAVY_FAULT_PAGE_SIZE = 34,
    PULLEYNAVY_FAULT_TABLE_ENCODING = 35,
    PULLEYNAVY_FAULT_TABLE_FLAGS = 36,
    PULLEYNAVY_FAULT_TAG_ATTRIBUTES = 37,
    PULLEYNAVY_FAULT_NAMES_ORDER = 38,
    PULLEYNAVY_FAULT_INDIRECT_ORDER = 39,
    PULLEYNAVY_FAULT_NAME_SECTION_ORDER = 40,
    PULLEYNAVY_FAULT_NAME_TRAILING = 41,
    PULLEYNAVY_FAULT_PRODUCERS_FIELD = 42,
    PULLEYNAVY_FAULT_LINKING_VERSION = 43,
    PULLEYNAVY_FAULT_CORE_START_BYTE = 44,
    PULLEYNAVY_FAULT_CORE_VALUE = 45,
    PULLEYNAVY_FAULT_CUSTOM_TRAILING = 46,
    PULLEYNAVY_FAULT_NOT_CONSTANT = 47,
    PULLEYNAVY_FAULT_SUPERTYPES = 48
} pulleynavy_fault_kind;

/** The kind of the number of NUMBER_TOO_LONG and NUMBER_TOO_LARGE: the bits above the lowest 8. */
typedef enum pulleynavy_number_kind {
    PULLEYNAVY_NUMBER_VAR_U32 = 0,
    PULLEYNAVY_NUMBER_VAR_I32 = 1,
    PULLEYNAVY_NUMBER_VAR_U64 = 2,
    PULLEYNAVY_NUMBER_VAR_I64 = 3,
    PULLEYNAVY_NUMBER_VAR_S33 = 4
} pulleynavy_number_kind;

/** What the byte of LEADING_BYTE should have begun: the bits above the lowest 8. */
typedef enum pulleynavy_lead {
    PULLEYNAVY_LEAD_BRANCH_HINT = 0,
    PULLEYNAVY_LEAD_BRANCH_TAKEN = 1,
    PULLEYNAVY_LEAD_COMDAT_SYMBOL = 2,
    PULLEYNAVY_LEAD_SYMBOL = 3,
    PULLEYNAVY_LEAD_RELOC = 4,
    PULLEYNAVY_LEAD_EXTERNAL = 5,
    PULLEYNAVY_LEAD_VALUE = 6,
    PULLEYNAVY_LEAD_REFERENCE = 7,
    PULLEYNAVY_LEAD_HEAP = 8,
    PULLEYNAVY_LEAD_COMPOSITE = 9,
    PULLEYNAVY_LEAD_MUTABILITY = 10
} pulleynavy_lead;

/** The part of a core dump that the byte of CORE_START_BYTE should have begun: the bits above the lowest 8. */
typedef enum pulleynavy_core_start {
    PULLEYNAVY_CORE_START_NAME = 0,
    PULLEYNAVY_CORE_START_MODULE = 1,
    PULLEYNAVY_CORE_START_INSTANCE = 2,
    PULLEYNAVY_CORE_START_STACK_NAME = 3,
    PULLEYNAVY_CORE_START_FRAME = 4
} pulleynavy_core_start;

/** The id of a section of a module. */
typedef enum pulleynavy_section_id {
    PULLEYNAVY_SECTION_CUSTOM = 0,
    PULLEYNAVY_SECTION_TYPE = 1,
    PULLEYNAVY_SECTION_IMPORT = 2,
    PULLEYNAVY_SECTION_FUNCTION = 3,
    PULLEYNAVY_SECTION_TABLE = 4,
    PULLEYNAVY_SECTION_MEMORY = 5,
    PULLEYNAVY_SECTION_GLOBAL = 6,
    PULLEYNAVY_SECTION_EXPORT = 7,
    PULLEYNAVY_SECTION_START = 8,
    PULLEYNAVY_SECTION_ELEMENT = 9,
    PULLEYNAVY_SECTION_CODE = 10,
    PULLEYNAVY_SECTION_DATA = 11,
    PULLEYNAVY_SECTION_DATA_COUNT = 12,
    PULLEYNAVY_SECTION_TAG = 13
} pulleynavy_section_id;

/** The kind of a type: of a value, or of what a field holds. */
typedef enum pulleynavy_type_kind {
    PULLEYNAVY_TYPE_I32 = 0,
    PULLEYNAVY_TYPE_I64 = 1,
    PULLEYNAVY_TYPE_F32 = 2,
    PULLEYNAVY_TYPE_F64 = 3,
    PULLEYNAVY_TYPE_V128 = 4,
    PULLEYNAVY_TYPE_REF = 5,
    PULLEYNAVY_TYPE_I8 = 6,
    PULLEYNAVY_TYPE_I16 = 7
} pulleynavy_type_kind;

/** The type of what a reference refers to. */
typedef enum pulleynavy_heap_kind {
    PULLEYNAVY_HEAP_FUNC = 0,
    PULLEYNAVY_HEAP_EXTERN = 1,
    PULLEYNAVY_HEAP_ANY = 2,
    PULLEYNAVY_HEAP_EQ = 3,
    PULLEYNAVY_HEAP_I31 = 4,
    PULLEYNAVY_HEAP_STRUCT = 5,
    PULLEYNAVY_HEAP_ARRAY = 6,
    PULLEYNAVY_HEAP_EXN = 7,
    PULLEYNAVY_HEAP_NONE = 8,
    PULLEYNAVY_HEAP_NO_EXTERN = 9,
    PULLEYNAVY_HEAP_NO_FUNC = 10,
    PULLEYNAVY_HEAP_NO_EXN = 11,
    PULLEYNAVY_HEAP_CONCRETE = 12
} pulleynavy_heap_kind;

/** The kind of a composite type. */
typedef enum pulleynavy_composite_kind {
    PULLEYNAVY_COMPOSITE_FUNC = 0,
    PULLEYNAVY_COMPOSITE_ARRAY = 1,
    PULLEYNAVY_COMPOSITE_STRUCT = 2
} pulleynavy_composite_kind;

/** The kind of an import or export. */
typedef enum pulleynavy_external_kind {
    PULLEYNAVY_EXTERNAL_FUNC = 0,
    PULLEYNAVY_EXTERNAL_TABLE = 1,
    PULLEYNAVY_EXTERNAL_MEMORY = 2,
    PULLEYNAVY_EXTERNAL_GLOBAL = 3,
    PULLEYNAVY_EXTERNAL_TAG = 4,
    PULLEYNAVY_EXTERNAL_FUNC_EXACT = 5
} pulleynavy_external_kind;

/** The kind of an item of an import section: an import, a bundle of imports from one module, or a bundle of one module and one type. */
typedef enum pulleynavy_import_kind {
    PULLEYNAVY_IMPORT_SINGLE = 0,
    PULLEYNAVY_IMPORT_BUNDLE = 1,
    PULLEYNAVY_IMPORT_BUNDLE_OF_TYPE = 2
} pulleynavy_import_kind;

/** The kind of an element segment. */
typedef enum pulleynavy_element_kind {
    PULLEYNAVY_ELEMENT_PASSIVE = 0,
    PULLEYNAVY_ELEMENT_ACTIVE = 1,
    PULLEYNAVY_ELEMENT_DECLARED = 2
} pulleynavy_element_kind;

/** The kind of a data segment. */
typedef enum pulleynavy_data_kind {
    PULLEYNAVY_DATA_PASSIVE = 0,
    PULLEYNAVY_DATA_ACTIVE = 1
} pulleynavy_data_kind;

/** The kind of a custom section, by its name. */
typedef enum pulleynavy_custom_kind {
    PULLEYNAVY_CUSTOM_UNKNOWN = 0,
    PULLEYNAVY_CUSTOM_NAME = 1,
    PULLEYNAVY_CUSTOM_BRANCH_HINTS = 2,
    PULLEYNAVY_CUSTOM_PRODUCERS = 3,
    PULLEYNAVY_CUSTOM_DYLINK0 = 4,
    PULLEYNAVY_CUSTOM_LINKING = 5,
    PULLEYNAVY_CUSTOM_RELOC = 6,
    PULLEYNAVY_CUSTOM_CORE = 7,
    PULLEYNAVY_CUSTOM_CORE_MODULES = 8,
    PULLEYNAVY_CUSTOM_CORE_INSTANCES = 9,
    PULLEYNAVY_CUSTOM_CORE_STACK = 10
} pulleynavy_custom_kind;

/** The kind of a symbol. */
typedef enum pulleynavy_symbol_kind {
    PULLEYNAVY_SYMBOL_FUNC = 0,
    PULLEYNAVY_SYMBOL_DATA = 1,
    PULLEYNAVY_SYMBOL_GLOBAL = 2,
    PULLEYNAVY_SYMBOL_SECTION = 3,
    PULLEYNAVY_SYMBOL_EVENT = 4,
    PULLEYNAVY_SYMBOL_TABLE = 5
} pulleynavy_symbol_kind;

/** The kind of a symbol of a comdat. */
typedef enum pulleynavy_comdat_kind {
    PULLEYNAVY_COMDAT_DATA = 0,
    PULLEYNAVY_COMDAT_FUNC = 1,
    PULLEYNAVY_COMDAT_GLOBAL = 2,
    PULLEYNAVY_COMDAT_EVENT = 3,
    PULLEYNAVY_COMDAT_TABLE = 4,
    PULLEYNAVY_COMDAT_SECTION = 5
} pulleynavy_comdat_kind;

/** The type of a relocation. */
typedef enum pulleynavy_relocation_kind {
    PULLEYNAVY_RELOCATION_FUNCTION_INDEX_LEB = 0,
    PULLEYNAVY_RELOCATION_TABLE_INDEX_SLEB = 1,
    PULLEYNAVY_RELOCATION_TABLE_INDEX_I32 = 2,
    PULLEYNAVY_RELOCATION_MEMORY_ADDR_LEB = 3,
    PULLEYNAVY_RELOCATION_MEMORY_ADDR_SLEB = 4,
    PULLEYNAVY_RELOCATION_MEMORY_ADDR_I32 = 5,
    PULLEYNAVY_RELOCATION_TYPE_INDEX_LEB = 6,
    PULLEYNAVY_RELOCATION_GLOBAL_INDEX_LEB = 7,
    PULLEYNAVY_RELOCATION_FUNCTION_OFFSET_I32 = 8,
    PULLEYNAVY_RELOCATION_SECTION_OFFSET_I32 = 9,
    PULLEYNAVY_RELOCATION_EVENT_INDEX_LEB = 10,
    PULLEYNAVY_RELOCATION_MEMORY_ADDR_REL_SLEB = 11,
    PULLEYNAVY_RELOCATION_TABLE_INDEX_REL_SLEB = 12,
    PULLEYNAVY_RELOCATION_GLOBAL_INDEX_I32 = 13,
    PULLEYNAVY_RELOCATION_MEMORY_ADDR_LEB64 = 14,
    PULLEYNAVY_RELOCATION_MEMORY_ADDR_SLEB64 = 15,
    PULLEYNAVY_RELOCATION_MEMORY_ADDR_I64 = 16,
    PULLEYNAVY_RELOCATION_MEMORY_ADDR_REL_SLEB64 = 17,
    PULLEYNAVY_RELOCATION_TABLE_INDEX_SLEB64 = 18,
    PULLEYNAVY_RELOCATION_TABLE_INDEX_I64 = 19,
    PULLEYNAVY_RELOCATION_TABLE_NUMBER_LEB = 20,
    PULLEYNAVY_RELOCATION_MEMORY_ADDR_TLS_SLEB = 21,
    PULLEYNAVY_RELOCATION_FUNCTION_OFFSET_I64 = 22,
    PULLEYNAVY_RELOCATION_MEMORY_ADDR_LOCREL_I32 = 23,
    PULLEYNAVY_RELOCATION_TABLE_INDEX_REL_SLEB64 = 24,
    PULLEYNAVY_RELOCATION_MEMORY_ADDR_TLS_SLEB64 = 25,
    PULLEYNAVY_RELOCATION_FUNCTION_INDEX_I32 = 26
} pulleynavy_relocation_kind;

/** The kind of a value of a core dump. */
typedef enum pulleynavy_core_value_kind {
    PULLEYNAVY_CORE_VALUE_MISSING = 0,
    PULLEYNAVY_CORE_VALUE_I32 = 1,
    PULLEYNAVY_CORE_VALUE_I64 = 2,
    PULLEYNAVY_CORE_VALUE_F32 = 3,
    PULLEYNAVY_CORE_VALUE_F64 = 4
} pulleynavy_core_value_kind;

/** The kind of an edit. */
typedef enum pulleynavy_edit_kind {
    PULLEYNAVY_EDIT_APPEND = 0,
    PULLEYNAVY_EDIT_REPLACE = 1,
    PULLEYNAVY_EDIT_REMOVE = 2,
    PULLEYNAVY_EDIT_KEEP = 3
} pulleynavy_edit_kind;

/** Whether an edited stream was written, and why not. */
typedef enum pulleynavy_edit_status {
    PULLEYNAVY_EDIT_STATUS_DONE = 0,
    PULLEYNAVY_EDIT_STATUS_NO_ROOM = 1,
    PULLEYNAVY_EDIT_STATUS_MALFORMED = 2,
    PULLEYNAVY_EDIT_STATUS_UNKNOWN_KIND = 3,
    PULLEYNAVY_EDIT_STATUS_NAME_NOT_UTF8 = 4,
    PULLEYNAVY_EDIT_STATUS_SECTION_TOO_LARGE = 5
} pulleynavy_edit_status;

/** The id of a subsection of `name`. */
typedef enum pulleynavy_name_id {
    PULLEYNAVY_NAME_MODULE = 0,
    PULLEYNAVY_NAME_FUNCTION = 1,
    PULLEYNAVY_NAME_LOCAL = 2,
    PULLEYNAVY_NAME_LABEL = 3,
    PULLEYNAVY_NAME_TYPE = 4,
    PULLEYNAVY_NAME_TABLE = 5,
    PULLEYNAVY_NAME_MEMORY = 6,
    PULLEYNAVY_NAME_GLOBAL = 7,
    PULLEYNAVY_NAME_ELEMENT = 8,
    PULLEYNAVY_NAME_DATA = 9,
    PULLEYNAVY_NAME_FIELD = 10,
    PULLEYNAVY_NAME_TAG = 11,
    PULLEYNAVY_NAME_PARAMETER = 12,
    PULLEYNAVY_NAME_TAG_PARAMETER = 13
} pulleynavy_name_id;

/** The id of a subsection of `linking`. */
typedef enum pulleynavy_linking_id {
    PULLEYNAVY_LINKING_SEGMENT_INFO = 5,
    PULLEYNAVY_LINKING_INIT_FUNCS = 6,
    PULLEYNAVY_LINKING_COMDAT_INFO = 7,
    PULLEYNAVY_LINKING_SYMBOL_TABLE = 8,
    PULLEYNAVY_LINKING_TARGET_ARCH = 9
} pulleynavy_linking_id;

/** The id of a subsection of `dylink.0`. */
typedef enum pulleynavy_dylink_id {
    PULLEYNAVY_DYLINK_MEM_INFO = 1,
    PULLEYNAVY_DYLINK_NEEDED = 2,
    PULLEYNAVY_DYLINK_EXPORT_INFO = 3,
    PULLEYNAVY_DYLINK_IMPORT_INFO = 4,
    PULLEYNAVY_DYLINK_RUNTIME_PATH = 5,
    PULLEYNAVY_DYLINK_TARGET_ARCH = 6
} pulleynavy_dylink_id;

/** The opcode of an instruction of a constant expression. An opcode of two parts is 256 times the first plus the second. */
typedef enum pulleynavy_opcode {
    PULLEYNAVY_OP_END = 11,
    PULLEYNAVY_OP_GLOBAL_GET = 35,
    PULLEYNAVY_OP_I32_CONST = 65,
    PULLEYNAVY_OP_I64_CONST = 66,
    PULLEYNAVY_OP_F32_CONST = 67,
    PULLEYNAVY_OP_F64_CONST = 68,
    PULLEYNAVY_OP_I32_ADD = 106,
    PULLEYNAVY_OP_I32_SUB = 107,
    PULLEYNAVY_OP_I32_MUL = 108,
    PULLEYNAVY_OP_I64_ADD = 124,
    PULLEYNAVY_OP_I64_SUB = 125,
    PULLEYNAVY_OP_I64_MUL = 126,
    PULLEYNAVY_OP_REF_NULL = 208,
    PULLEYNAVY_OP_REF_FUNC = 210,
    PULLEYNAVY_OP_STRUCT_NEW = 64256,
    PULLEYNAVY_OP_STRUCT_NEW_DEFAULT = 64257,
    PULLEYNAVY_OP_ARRAY_NEW = 64262,
    PULLEYNAVY_OP_ARRAY_NEW_DEFAULT = 64263,
    PULLEYNAVY_OP_ARRAY_NEW_FIXED = 64264,
    PULLEYNAVY_OP_ANY_CONVERT_EXTERN = 64282,
    PULLEYNAVY_OP_EXTERN_CONVERT_ANY = 64283,
    PULLEYNAVY_OP_REF_I31 = 64284,
    PULLEYNAVY_OP_V128_CONST = 64780
} pulleynavy_opcode;

/** The flags of a symbol, as bits. */
typedef enum pulleynavy_symbol_flags {
    PULLEYNAVY_SYMBOL_FLAG_BINDING_WEAK = 1,
    PULLEYNAVY_SYMBOL_FLAG_BINDING_LOCAL = 2,
    PULLEYNAVY_SYMBOL_FLAG_VISIBILITY_HIDDEN = 4,
    PULLEYNAVY_SYMBOL_FLAG_UNDEFINED = 16,
    PULLEYNAVY_SYMBOL_FLAG_EXPORTED = 32,
    PULLEYNAVY_SYMBOL_FLAG_EXPLICIT_NAME = 64,
    PULLEYNAVY_SYMBOL_FLAG_NO_STRIP = 128,
    PULLEYNAVY_SYMBOL_FLAG_TLS = 256,
    PULLEYNAVY_SYMBOL_FLAG_ABSOLUTE = 512
} pulleynavy_symbol_flags;

/** The flags of a segment for linkers, as bits. */
typedef enum pulleynavy_segment_flags {
    PULLEYNAVY_SEGMENT_FLAG_STRINGS = 1,
    PULLEYNAVY_SEGMENT_FLAG_TLS = 2
} pulleynavy_segment_flags;

/**
 * Returns the version of the linked library: the major version times 65,536, plus the minor version times 256, plus the patch.
 *
 * Compare it with `PULLEYNAVY_VERSION_NUMBER`, the version of the header.
 *
 * @code{.c}
 * assert(pulleynavy_version() == PULLEYNAVY_VERSION_NUMBER);
 * @endcode
 */
uint32_t pulleynavy_version(void);

/**
 * A fault, or none.
 *
 * @code{.c}
 * const uint8_t bytes[] = {0x80};
 * pulleynavy_number number = pulleynavy_read_number(bytes, 1, 100, PULLEYNAVY_ALL_FEATURES);
 * assert(PULLEYNAVY_FAULT_KIND(number.fault.kind) == PULLEYNAVY_FAULT_UNEXPECTED_EOF);
 * assert(number.fault.offset == 101);
 * @endcode
 */
typedef struct pulleynavy_fault {
    /**
     * The code of the fault, or 0 if there is none.
     *
     * `PULLEYNAVY_FAULT_KIND` returns the lowest 8 bits, a `pulleynavy_fault_kind`. `PULLEYNAVY_FAULT_DETAIL` returns the bits above:
     * of `NUMBER_TOO_LONG` and `NUMBER_TOO_LARGE` a `pulleynavy_number_kind`, of `LEADING_BYTE` a `pulleynavy_lead`, of
     * `CORE_START_BYTE` a `pulleynavy_core_start`, otherwise 0.
     */
    uint32_t kind;
    /** 1 if the fault has a number, or 0. */
    uint32_t has_number;
    /**
     * The number of the fault, or 0: the version of `UNKNOWN_VERSION` and `LINKING_VERSION`, the length of `SECTION_TOO_LARGE`, the
     * byte of `LEADING_BYTE`.
     */
    uint64_t number;
    /** The offset of the fault, in bytes from the start of the stream, or 0 if there is none. */
    uint64_t offset;
} pulleynavy_fault;

/**
 * Writes the text of the fault with this code, and returns the length of the whole text in bytes, at most 80.
 *
 * The text is ASCII, without a zero byte at the end. If `out` is shorter, it gets the first `out_size` bytes. The text has neither
 * the number nor the offset of the fault.
 *
 * @par Errors
 * It returns 0, and writes nothing, if no fault has this code.
 *
 * @code{.c}
 * uint8_t text[80];
 * size_t size = pulleynavy_format_message(PULLEYNAVY_FAULT_UNEXPECTED_EOF, text, sizeof text);
 * assert(size == 22 && !memcmp(text, "unexpected end-of-file", size));
 * @endcode
 */
size_t pulleynavy_format_message(uint32_t kind, uint8_t *out, size_t out_size);

/**
 * An event of a stream, a fault or a request for more input. Fields that the kind does not use are 0.
 *
 * Offsets are in bytes from the start of the stream.
 *
 * (Core specification, Binary format, Modules.)
 */
typedef struct pulleynavy_event {
    /**
     * The kind of the event, a `pulleynavy_event_kind`: 0 a request for more input, 1 a header, 2 a section that begins with a count
     * of items, 3 the start section, 4 the data count section, 5 the start of a code section, 6 a body, 7 a custom section, 8 a
     * section with an unknown id, 9 the end of the stream, 10 a fault.
     */
    uint32_t kind;
    /** The id of the section, a `pulleynavy_section_id` if it is known; for a header 0 for a module and 1 for a component. */
    uint32_t id;
    /** The announced number of items, bodies or segments; the index of the start function; for a header the 16-bit version. */
    uint32_t count;
    /** The size of a code section's content after the count, in bytes. */
    uint32_t size;
    /** The offset where it begins: the header, the section's content, the body, the end or the fault. */
    uint64_t start;
    /** The offset where it ends. For a code section, it is the end of the content, including the bodies. */
    uint64_t end;
    /**
     * The offset of the first item after a count, of the first body of a code section, or of the data of a custom section. It is 0
     * for a section with a count that was skipped.
     */
    uint64_t data_offset;
    /**
     * The position in memory where it begins: that of the byte at offset `start`.
     *
     * It counts bytes from the first one passed to `pulleynavy_parse`, or from the start of a feeder's storage. For a request, the
     * end and a fault it is the position of the first byte that is not consumed.
     */
    size_t at;
    /**
     * The number of consumed bytes: 0 for a request, the end and a fault, otherwise at least 1. For a part that was skipped, it is
     * the number of bytes that were passed, all of which belong to the part.
     */
    size_t consumed;
    /**
     * For a request, how many bytes to read next, at least 1; otherwise 0. Fewer can be enough: after a byte 0 at the start of a
     * section, it is 3, for a header, although the byte can also begin a custom section.
     */
    size_t hint;
    /** The size of a custom section's name in bytes. The name ends where the data begins. */
    size_t name_size;
    /** The fault of an event of kind 10, otherwise none. */
    pulleynavy_fault fault;
} pulleynavy_event;

/**
 * A parser of a stream. Any 48 bytes are a valid parser; 48 zero bytes are a new one without features.
 *
 * It keeps no pointer: copy it to save a position, and to return to it later. Treat the fields other than `offset` as private.
 */
typedef struct pulleynavy_parser {
    /** The offset of the next part of the stream, in bytes from the start of the stream. */
    uint64_t offset;
    /** The features that the stream is read with, as bits. */
    uint32_t features;
    /** The count of the function section, if `has_functions` is not 0. */
    uint32_t functions;
    /** The count of the code section, if `has_codes` is not 0. */
    uint32_t codes;
    /** The count of the data section, if `has_datas` is not 0. */
    uint32_t datas;
    /** The count of the data count section, if `has_data_counts` is not 0. */
    uint32_t data_counts;
    /** The number of remaining bodies of a code section. */
    uint32_t bodies;
    /** The number of remaining bytes of a code section. */
    uint32_t code_bytes;
    /** 0 before the header, otherwise not 0. */
    uint8_t is_begun;
    /** 0 in a module, not 0 in a component. */
    uint8_t is_component;
    /** The greatest rank of the sections so far, which must ascend, or 0. */
    uint8_t rank;
    /** Not 0 after a function section. */
    uint8_t has_functions;
    /** Not 0 after a code section. */
    uint8_t has_codes;
    /** Not 0 after a data section. */
    uint8_t has_datas;
    /** Not 0 after a data count section. */
    uint8_t has_data_counts;
    /** Not 0 if the last event was the start of a code section, or a body. */
    uint8_t in_code;
} pulleynavy_parser;

/** Returns a parser for a stream that begins at this offset and is read with these features. */
pulleynavy_parser pulleynavy_parser_init(uint64_t offset, uint32_t features);

/**
 * Returns the next event of a stream, a fault, or a request for more input.
 *
 * `bytes` are the remaining bytes of the stream or, if `is_all` is false, a prefix of them. Pass the bytes after the consumed ones in
 * the next call. After a request, call again with more bytes after the same ones, or at the end of input with `is_all` true: the
 * parser then never requests more. A fault or a request leaves the parser unchanged. After the end, it returns the end again.
 *
 * @par Errors
 * A fault is an event of kind 10. Its `fault` has the kind and the offset; the same call returns it again. Kinds 2 to 21 can
 * occur:
 * - `BAD_MAGIC`, `UNKNOWN_VERSION`, `MAGIC_AT_SECTION`, `MALFORMED_SECTION_ID`, `NUMBER_TOO_LONG`, `NUMBER_TOO_LARGE` and
 *   `SECTION_TOO_LARGE` at the malformed field.
 * - `UNEXPECTED_EOF` where a header, a section, a body or one of their fields is truncated, or overruns the section around it.
 * - `OUT_OF_ORDER`, `FUNCTION_CODE_DIFFER` and `CODE_WITHOUT_FUNCTION` at the content of the section.
 * - `DATA_COUNT_DIFFER` at the end of the data section; `FUNCTION_WITHOUT_CODE` and `DATA_COUNT_WITHOUT_DATA` at the end of the
 *   stream.
 * - `START_CONTENT`, `DATA_COUNT_CONTENT` and `TRAILING_CODE` at the first trailing byte of a section.
 * - `STRING_SIZE` and `MALFORMED_UTF8` in the name of a custom section.
 * - `OFFSET_RANGE` at the offset of the parser, if `bytes` end beyond the offset 2^64 - 1.
 *
 * @code{.c}
 * const uint8_t bytes[] = {0, 'a', 's', 'm', 1, 0, 0, 0, 3, 2, 1, 0};
 * pulleynavy_parser parser = pulleynavy_parser_init(0, PULLEYNAVY_ALL_FEATURES);
 * pulleynavy_event header = pulleynavy_parse(&parser, bytes, 12, true);
 * assert(header.kind == PULLEYNAVY_EVENT_VERSION && header.consumed == 8);
 * pulleynavy_event section = pulleynavy_parse(&parser, bytes + 8, 4, true);
 * assert(section.kind == PULLEYNAVY_EVENT_SECTION && section.id == PULLEYNAVY_SECTION_FUNCTION && section.count == 1);
 * // A function was declared, but there is no code section.
 * pulleynavy_event last = pulleynavy_parse(&parser, bytes + 12, 0, true);
 * assert(last.fault.kind == PULLEYNAVY_FAULT_FUNCTION_WITHOUT_CODE && last.fault.offset == 12);
 * @endcode
 */
pulleynavy_event pulleynavy_parse(pulleynavy_parser *parser, const uint8_t *bytes, size_t bytes_size, bool is_all);

/**
 * Skips the next section or body if its first fields are in `bytes`, but not all of it, and returns its event. So a part needs no
 * buffer of its size.
 *
 * `bytes` are a prefix of the remaining bytes of the stream. Call it after `pulleynavy_parse` returned a request for the same bytes.
 * If it skips the part, all of `bytes` belong to the part, and the parser is at its end: drop the bytes of the stream up to the
 * offset `end` of the event, whatever they are, and pass those after it to the next call. The event is that of `pulleynavy_parse`,
 * except for two fields: `consumed` is `bytes_size`, and `data_offset` is 0 for a section with a count.
 *
 * It returns a request with the hint 0, and leaves the parser unchanged, if `pulleynavy_parse` has to look: if all of the part is in
 * `bytes`, if its first fields are not, at a fault, a header and the end, and at the start of a code section, a start section and a
 * data count section. The first fields are the name of a custom section, and the count of a section that begins with one.
 *
 * @par Errors
 * It returns no fault. If the stream ends before the offset `end`, its fault is `UNEXPECTED_EOF` at the offset `start`.
 *
 * @code{.c}
 * // A custom section "a" of 100 bytes, of which the first 4 are here.
 * const uint8_t bytes[] = {0, 'a', 's', 'm', 1, 0, 0, 0, 0, 100, 1, 'a'};
 * pulleynavy_parser parser = pulleynavy_parser_init(0, PULLEYNAVY_ALL_FEATURES);
 * pulleynavy_parse(&parser, bytes, 12, false);
 * assert(pulleynavy_parse(&parser, bytes + 8, 4, false).kind == PULLEYNAVY_EVENT_NEED_MORE);
 * pulleynavy_event part = pulleynavy_skip(&parser, bytes + 8, 4);
 * assert(part.kind == PULLEYNAVY_EVENT_CUSTOM && part.start == 10 && part.end == 110 && part.data_offset == 12);
 * assert(part.consumed == 4 && parser.offset == 110);
 * @endcode
 */
pulleynavy_event pulleynavy_skip(pulleynavy_parser *parser, const uint8_t *bytes, size_t bytes_size);

/**
 * Skips the remaining bytes of a code section, and returns their number. Pass the bytes after them to the next `pulleynavy_parse`.
 *
 * Call it after the start of a code section or after a body. Elsewhere it returns 0 and leaves the parser unchanged.
 *
 * @code{.c}
 * const uint8_t bytes[] = {0, 'a', 's', 'm', 1, 0, 0, 0, 3, 2, 1, 0, 10, 4, 1, 2, 0, 11};
 * pulleynavy_parser parser = pulleynavy_parser_init(0, PULLEYNAVY_ALL_FEATURES);
 * size_t at = 0;
 * for (int i = 0; i < 3; i++) at += pulleynavy_parse(&parser, bytes + at, 18 - at, true).consumed;
 * at += pulleynavy_skip_section(&parser);
 * assert(at == 18 && pulleynavy_parse(&parser, bytes + at, 0, true).kind == PULLEYNAVY_EVENT_END);
 * @endcode
 */
uint32_t pulleynavy_skip_section(pulleynavy_parser *parser);

/**
 * Writes the text of the fault that `pulleynavy_parse` returns for the same arguments, and returns the length of the whole text.
 *
 * The text is that of `pulleynavy_format_message`, at most 80 bytes, without a zero byte at the end. If `out` is shorter, it gets the
 * first `out_size` bytes. The parser is unchanged.
 *
 * @par Errors
 * It returns 0, and writes nothing, if `pulleynavy_parse` returns no fault.
 */
size_t pulleynavy_format_fault(
    const pulleynavy_parser *parser, const uint8_t *bytes, size_t bytes_size, bool is_all, uint8_t *out, size_t out_size);

/**
 * Stores the next events of a stream in `out`, as calls of `pulleynavy_parse` return them one by one, and returns their number.
 *
 * It stores `out_count` events, or stops after a request for more input, a fault or the end, which is stored too. The position `at`
 * of each event counts from the first of `bytes`. Pass the bytes after all consumed ones in the next call.
 *
 * @par Errors
 * A fault is the last stored event, as `pulleynavy_parse` returns it.
 *
 * @code{.c}
 * const uint8_t bytes[] = {0, 'a', 's', 'm', 1, 0, 0, 0, 0, 2, 1, 'a'};
 * pulleynavy_parser parser = pulleynavy_parser_init(0, PULLEYNAVY_ALL_FEATURES);
 * pulleynavy_event events[8];
 * size_t count = pulleynavy_next_events(&parser, bytes, sizeof bytes, true, events, 8);
 * assert(count == 3 && events[1].kind == PULLEYNAVY_EVENT_CUSTOM && events[2].kind == PULLEYNAVY_EVENT_END);
 * @endcode
 */
size_t pulleynavy_next_events(
    pulleynavy_parser *parser, const uint8_t *bytes, size_t bytes_size, bool is_all, pulleynavy_event *out, size_t out_count);

/**
 * A feeder: a parser for chunked input, which keeps the bytes that were pushed and not consumed in storage of the caller.
 *
 * Any bytes are a valid feeder. Between calls leave the storage alone, or move it as a whole (`realloc`): the next call reads its
 * bytes from `mark` to `end`.
 */
typedef struct pulleynavy_feed {
    /** The parser of the stream. */
    pulleynavy_parser parser;
    /** The position of the first byte that is not consumed, in bytes from the start of the storage. */
    size_t mark;
    /** The position after the last pushed byte, in bytes from the start of the storage. */
    size_t end;
    /** 0 until the end of input is marked. */
    uint8_t is_finished;
} pulleynavy_feed;

/**
 * Returns a feeder for a stream that begins at this offset and is read with these features. It holds no bytes, so any storage will
 * do.
 */
pulleynavy_feed pulleynavy_feed_init(uint64_t offset, uint32_t features);

/**
 * Returns the next event of the stream, a fault, or a request for more input, from the bytes in the storage.
 *
 * After a request, call `pulleynavy_feed_push` or `pulleynavy_feed_finish`, then step again. After `pulleynavy_feed_finish` it never
 * requests more. A fault or a request leaves the feeder unchanged. The position `at` of the event counts from the start of the
 * storage, and is valid until the next push.
 *
 * @par Errors
 * A fault is an event of kind 10, as `pulleynavy_parse` returns it. The next step returns the same fault.
 *
 * @code{.c}
 * uint8_t storage[64];
 * pulleynavy_feed feed = pulleynavy_feed_init(0, PULLEYNAVY_ALL_FEATURES);
 * assert(pulleynavy_feed_push(&feed, storage, sizeof storage, (const uint8_t *)"\0asm\1", 5));
 * assert(pulleynavy_feed_step(&feed, storage, sizeof storage).kind == PULLEYNAVY_EVENT_NEED_MORE);
 * assert(pulleynavy_feed_push(&feed, storage, sizeof storage, (const uint8_t *)"\0\0\0", 3));
 * assert(pulleynavy_feed_step(&feed, storage, sizeof storage).kind == PULLEYNAVY_EVENT_VERSION);
 * pulleynavy_feed_finish(&feed);
 * assert(pulleynavy_feed_step(&feed, storage, sizeof storage).kind == PULLEYNAVY_EVENT_END);
 * @endcode
 */
pulleynavy_event pulleynavy_feed_step(pulleynavy_feed *feed, const uint8_t *storage, size_t storage_size);

/** Marks the end of input: no bytes follow those that were pushed. Truncated input is then a fault of the next step. */
void pulleynavy_feed_finish(pulleynavy_feed *feed);

/**
 * Appends the next chunk of the stream to the bytes in the storage, and returns true.
 *
 * If there is no room after these bytes, it moves them to the front of the storage first. Push as often as you like between steps.
 *
 * @par Errors
 * It returns false if the storage has no room for both, and leaves feeder and storage unchanged. Call it again with larger
 * storage that begins with the same bytes, as after `realloc`. A stream that ends beyond the offset 2^64 - 1 is a fault of the next
 * step.
 */
bool pulleynavy_feed_push(
    pulleynavy_feed *feed, uint8_t *storage, size_t storage_size, const uint8_t *piece, size_t piece_size);

/** A cursor over the items of a list. It keeps no pointer: pass the bytes of the list to each call. Any bytes are a valid cursor. */
typedef struct pulleynavy_items {
    /** The offset of the next item, in bytes from the start of the stream. */
    uint64_t offset;
    /** The position of the next item, in bytes from the start of the bytes of the list. */
    size_t position;
    /** The number of remaining items. */
    uint32_t remaining;
    /** The features that the items are read with, as bits. */
    uint32_t features;
    /** The greatest index or id so far, if `has_last` is not 0. */
    uint32_t last;
    /** 0 before the first item whose index or id has to ascend. */
    uint8_t has_last;
    /** Not 0 after the end, or after a fault that ends the list. */
    uint8_t is_ended;
} pulleynavy_items;

/**
 * Returns a cursor at the first item of a section that begins with a count, or at the data of a custom section.
 *
 * `event` is the event of the section. The bytes of the list are those of the section's content, from `start` to `end` of the event.
 *
 * @code{.c}
 * // The export "f" of function 5.
 * const uint8_t bytes[] = {0, 'a', 's', 'm', 1, 0, 0, 0, 7, 5, 1, 1, 'f', 0, 5};
 * pulleynavy_parser parser = pulleynavy_parser_init(0, PULLEYNAVY_ALL_FEATURES);
 * size_t at = pulleynavy_parse(&parser, bytes, sizeof bytes, true).consumed;
 * pulleynavy_event event = pulleynavy_parse(&parser, bytes + at, sizeof bytes - at, true);
 * const uint8_t *section = bytes + at + event.at;
 * pulleynavy_items items = pulleynavy_items_init(&event, PULLEYNAVY_ALL_FEATURES);
 * pulleynavy_export out[4];
 * assert(pulleynavy_next_exports(&items, section, event.end - event.start, out, 4) == 1);
 * assert(out[0].index == 5 && out[0].name.size == 1 && section[out[0].name.at] == 'f');
 * assert(pulleynavy_next_exports(&items, section, event.end - event.start, out, 4) == 0);
 * @endcode
 */
pulleynavy_items pulleynavy_items_init(const pulleynavy_event *event, uint32_t features);

/**
 * Returns a cursor over a list of `count` items, of which the first is at `offset` of the stream.
 *
 * Use it for a list inside an item or a subsection, with the count and the span that the item has. The bytes of the list begin with
 * the first item. A list of subsections has no count: pass 0.
 *
 * @code{.c}
 * const uint8_t bytes[] = {2, 5, 7};
 * pulleynavy_number count = pulleynavy_read_number(bytes, 3, 100, PULLEYNAVY_ALL_FEATURES), out[4];
 * pulleynavy_items items = pulleynavy_list_init(100 + count.consumed, count.value, PULLEYNAVY_ALL_FEATURES);
 * assert(pulleynavy_next_numbers(&items, bytes + count.consumed, 3 - count.consumed, out, 4) == 2);
 * assert(out[0].value == 5 && out[1].value == 7);
 * @endcode
 */
pulleynavy_items pulleynavy_list_init(uint64_t offset, uint32_t count, uint32_t features);

/** A run of the bytes that a call was passed: a name, an expression or a list. */
typedef struct pulleynavy_span {
    /** The position of the first byte, counted from the first byte that the call was passed. */
    size_t at;
    /** The size in bytes. */
    size_t size;
} pulleynavy_span;

/** An unsigned number, or a fault. */
typedef struct pulleynavy_number {
    /** The fault of the item, of kind 0 if there is none. */
    pulleynavy_fault fault;
    /** The size of the item in bytes, 0 after a fault. */
    size_t consumed;
    /** The number. */
    uint64_t value;
} pulleynavy_number;

/** A signed number, or a fault. */
typedef struct pulleynavy_signed {
    /** The fault of the item, of kind 0 if there is none. */
    pulleynavy_fault fault;
    /** The size of the item in bytes, 0 after a fault. */
    size_t consumed;
    /** The number. */
    int64_t value;
} pulleynavy_signed;

/**
 * Reads a u32 in LEB128: the count of a list, the type index of a function, or the index of a function in an element segment.
 *
 * @par Errors
 * `UNEXPECTED_EOF`, `NUMBER_TOO_LONG` or `NUMBER_TOO_LARGE`, the latter two with `PULLEYNAVY_NUMBER_VAR_U32`.
 *
 * @code{.c}
 * const uint8_t bytes[] = {0x80, 0x01};
 * pulleynavy_number number = pulleynavy_read_number(bytes, 2, 0, PULLEYNAVY_ALL_FEATURES);
 * assert(number.fault.kind == 0 && number.value == 128 && number.consumed == 2);
 * @endcode
 *
 * (Core specification, Binary format, Values, Integers.)
 */
pulleynavy_number pulleynavy_read_number(const uint8_t *bytes, size_t bytes_size, uint64_t offset, uint32_t features);

/**
 * Stores the next numbers of a list in `out`, and returns their number.
 *
 * @par Errors
 * An item has the faults of `pulleynavy_read_number`; the last one `SIZE_MISMATCH` if bytes follow the list.
 */
size_t pulleynavy_next_numbers(
    pulleynavy_items *items, const uint8_t *bytes, size_t bytes_size, pulleynavy_number *out, size_t out_count);

/**
 * Reads a u64 in LEB128.
 *
 * @par Errors
 * `UNEXPECTED_EOF`, `NUMBER_TOO_LONG` or `NUMBER_TOO_LARGE`, the latter two with `PULLEYNAVY_NUMBER_VAR_U64`.
 *
 * (Core specification, Binary format, Values, Integers.)
 */
pulleynavy_number pulleynavy_read_u64(const uint8_t *bytes, size_t bytes_size, uint64_t offset, uint32_t features);

/**
 * Reads a signed 32-bit number in LEB128.
 *
 * @par Errors
 * `UNEXPECTED_EOF`, `NUMBER_TOO_LONG` or `NUMBER_TOO_LARGE`, the latter two with `PULLEYNAVY_NUMBER_VAR_I32`.
 *
 * (Core specification, Binary format, Values, Integers.)
 */
pulleynavy_signed pulleynavy_read_s32(const uint8_t *bytes, size_t bytes_size, uint64_t offset, uint32_t features);

/**
 * Reads a signed 33-bit number in LEB128, such as a block type.
 *
 * @par Errors
 * `UNEXPECTED_EOF`, `NUMBER_TOO_LONG` or `NUMBER_TOO_LARGE`, the latter two with `PULLEYNAVY_NUMBER_VAR_S33`.
 *
 * (Core specification, Binary format, Values, Integers.)
 */
pulleynavy_signed pulleynavy_read_s33(const uint8_t *bytes, size_t bytes_size, uint64_t offset, uint32_t features);

/**
 * Reads a signed 64-bit number in LEB128.
 *
 * @par Errors
 * `UNEXPECTED_EOF`, `NUMBER_TOO_LONG` or `NUMBER_TOO_LARGE`, the latter two with `PULLEYNAVY_NUMBER_VAR_I64`.
 *
 * (Core specification, Binary format, Values, Integers.)
 */
pulleynavy_signed pulleynavy_read_s64(const uint8_t *bytes, size_t bytes_size, uint64_t offset, uint32_t features);

/** The type of a value, or of what a field stores (core specification, Binary format, Types). */
typedef struct pulleynavy_type {
    /**
     * The kind of the type, a `pulleynavy_type_kind`: 0 `i32`, 1 `i64`, 2 `f32`, 3 `f64`, 4 `v128`, 5 a reference; in a field also 6
     * `i8` and 7 `i16`.
     */
    uint32_t kind;
    /** 1 if a reference may be null, or 0. */
    uint32_t nullable;
    /**
     * The type of what a reference refers to, a `pulleynavy_heap_kind`: 0 `func`, 1 `extern`, 2 `any`, 3 `eq`, 4 `i31`, 5 `struct`, 6
     * `array`, 7 `exn`, 8 `none`, 9 `noextern`, 10 `nofunc`, 11 `noexn`, 12 the type with the index.
     */
    uint32_t heap;
    /** The index of the type that a reference refers to if `heap` is 12, or 0. */
    uint32_t index;
} pulleynavy_type;

/** A value type, or a fault. */
typedef struct pulleynavy_value {
    /** The fault of the item, of kind 0 if there is none. */
    pulleynavy_fault fault;
    /** The size of the item in bytes, 0 after a fault. */
    size_t consumed;
    /** The type. */
    pulleynavy_type ty;
} pulleynavy_value;

/** A field of a structure or the element of an array, or a fault. */
typedef struct pulleynavy_field {
    /** The fault of the item, of kind 0 if there is none. */
    pulleynavy_fault fault;
    /** The size of the item in bytes, 0 after a fault. */
    size_t consumed;
    /** The type of the stored values. */
    pulleynavy_type ty;
    /** 1 if the field is mutable, or 0. */
    uint32_t is_mutable;
} pulleynavy_field;

/**
 * Reads a value type: a parameter or a result of a function type.
 *
 * @par Errors
 * `LEADING_BYTE` with `PULLEYNAVY_LEAD_VALUE` at a first byte that begins no value type; and the faults of
 * `pulleynavy_read_heap_type`.
 *
 * (Core specification, Binary format, Types, Value Types.)
 */
pulleynavy_value pulleynavy_read_value_type(
    const uint8_t *bytes, size_t bytes_size, uint64_t offset, uint32_t features);

/**
 * Stores the next value types of a list in `out`, and returns their number.
 *
 * @par Errors
 * An item has the faults of `pulleynavy_read_value_type`; the last one `SIZE_MISMATCH` if bytes follow the list.
 */
size_t pulleynavy_next_value_types(
    pulleynavy_items *items, const uint8_t *bytes, size_t bytes_size, pulleynavy_value *out, size_t out_count);

/**
 * Reads a heap type, and returns the type of references to it that are not nullable.
 *
 * @par Errors
 * `LEADING_BYTE` with `PULLEYNAVY_LEAD_HEAP` at the first byte of a negative number; and the faults of `pulleynavy_read_s33`.
 *
 * (Core specification, Binary format, Types, Heap Types.)
 */
pulleynavy_value pulleynavy_read_heap_type(
    const uint8_t *bytes, size_t bytes_size, uint64_t offset, uint32_t features);

/**
 * Reads a reference type.
 *
 * @par Errors
 * `LEADING_BYTE` with `PULLEYNAVY_LEAD_REFERENCE` at a first byte that begins no reference type; and the faults of
 * `pulleynavy_read_heap_type`.
 *
 * (Core specification, Binary format, Types, Reference Types.)
 */
pulleynavy_value pulleynavy_read_reference_type(
    const uint8_t *bytes, size_t bytes_size, uint64_t offset, uint32_t features);

/**
 * Reads a field of a structure, or the element of an array.
 *
 * @par Errors
 * `LEADING_BYTE` with `PULLEYNAVY_LEAD_MUTABILITY` at a byte after the type that is not 0 or 1; and the faults of
 * `pulleynavy_read_value_type`.
 *
 * (Core specification, Binary format, Types, Composite Types.)
 */
pulleynavy_field pulleynavy_read_field_type(
    const uint8_t *bytes, size_t bytes_size, uint64_t offset, uint32_t features);

/**
 * Stores the next fields of a list in `out`, and returns their number.
 *
 * @par Errors
 * An item has the faults of `pulleynavy_read_field_type`; the last one `SIZE_MISMATCH` if bytes follow the list.
 */
size_t pulleynavy_next_field_types(
    pulleynavy_items *items, const uint8_t *bytes, size_t bytes_size, pulleynavy_field *out, size_t out_count);

/** The head of a recursive group of types, or a fault. The subtypes of the group follow. */
typedef struct pulleynavy_type_group {
    /** The fault of the item, of kind 0 if there is none. */
    pulleynavy_fault fault;
    /** The size of the head in bytes, without the subtypes; 0 after a fault, and for a single type. */
    size_t consumed;
    /** 1 if the group is encoded as a group, or 0 for a single type. */
    uint32_t is_explicit;
    /** The number of subtypes that follow. */
    uint32_t count;
} pulleynavy_type_group;

/** The head of a subtype, or a fault. The parameters and results, or the fields, follow. */
typedef struct pulleynavy_subtype {
    /** The fault of the item, of kind 0 if there is none. */
    pulleynavy_fault fault;
    /** The size of the head in bytes, up to and including the count; 0 after a fault. */
    size_t consumed;
    /** 1 if no type may extend the type, or 0. */
    uint32_t is_final;
    /** 1 if the type extends another one, or 0. */
    uint32_t has_supertype;
    /** The index of the extended type, or 0. */
    uint32_t supertype;
    /** The kind of the type, a `pulleynavy_composite_kind`: 0 functions, 1 arrays, 2 structures. */
    uint32_t kind;
    /** The number of parameters or fields that follow; 1 for an array. */
    uint32_t count;
} pulleynavy_subtype;

/**
 * Reads the head of a recursive group of types. As many subtypes as `count` says follow; `pulleynavy_read_subtype` reads each.
 *
 * @par Errors
 * `UNEXPECTED_EOF` if there are no bytes; and for an explicit group the faults of `pulleynavy_read_number` for the count.
 *
 * @code{.c}
 * // One function type: from an i32 to nothing.
 * const uint8_t bytes[] = {0x60, 1, 0x7f, 0};
 * pulleynavy_type_group group = pulleynavy_read_type_group(bytes, 4, 0, PULLEYNAVY_ALL_FEATURES);
 * assert(!group.fault.kind && group.count == 1);
 * size_t at = group.consumed;
 * pulleynavy_subtype type = pulleynavy_read_subtype(bytes + at, 4 - at, at, PULLEYNAVY_ALL_FEATURES);
 * assert(type.kind == PULLEYNAVY_COMPOSITE_FUNC && type.count == 1);
 * at += type.consumed;
 * pulleynavy_value parameter = pulleynavy_read_value_type(bytes + at, 4 - at, at, PULLEYNAVY_ALL_FEATURES);
 * assert(parameter.ty.kind == PULLEYNAVY_TYPE_I32);
 * at += parameter.consumed;
 * assert(pulleynavy_read_number(bytes + at, 4 - at, at, PULLEYNAVY_ALL_FEATURES).value == 0);
 * @endcode
 *
 * (Core specification, Binary format, Types, Recursive Types; Modules, Type Section.)
 */
pulleynavy_type_group pulleynavy_read_type_group(
    const uint8_t *bytes, size_t bytes_size, uint64_t offset, uint32_t features);

/**
 * Reads the head of a subtype.
 *
 * For functions `count` parameters follow, each read by `pulleynavy_read_value_type`, then a count of results, read by
 * `pulleynavy_read_number`, and that many results. For structures and arrays `count` fields follow, each read by
 * `pulleynavy_read_field_type`.
 *
 * @par Errors
 * * `SUPERTYPES` at the count of supertypes if it is above 1.
 * - `LEADING_BYTE` with `PULLEYNAVY_LEAD_COMPOSITE` at a byte that begins no composite type.
 * - `UNEXPECTED_EOF`, and the faults of `pulleynavy_read_number` for the counts and the supertype.
 *
 * (Core specification, Binary format, Types, Recursive Types and Composite Types.)
 */
pulleynavy_subtype pulleynavy_read_subtype(
    const uint8_t *bytes, size_t bytes_size, uint64_t offset, uint32_t features);

/** The type of a table (core specification, Binary format, Types, Table Types). */
typedef struct pulleynavy_table_type {
    /** The type of the elements. */
    pulleynavy_type element;
    /** 1 if indices have 64 bits, or 0. */
    uint32_t table64;
    /** 1 if threads share the table, or 0. */
    uint32_t shared;
    /** 1 if there is a maximum, or 0. */
    uint32_t has_maximum;
    /** The initial number of elements. */
    uint64_t initial;
    /** The maximum number of elements, or 0. */
    uint64_t maximum;
} pulleynavy_table_type;

/** The type of a memory (core specification, Binary format, Types, Memory Types). */
typedef struct pulleynavy_memory_type {
    /** 1 if addresses have 64 bits, or 0. */
    uint32_t memory64;
    /** 1 if threads share the memory, or 0. */
    uint32_t shared;
    /** 1 if there is a maximum, or 0. */
    uint32_t has_maximum;
    /** 1 if the page size is encoded, or 0. Otherwise a page has 65,536 bytes. */
    uint32_t has_page_size;
    /** The base-2 logarithm of the page size in bytes, below 64, or 0. */
    uint32_t page_size_log2;
    /** The initial size, in pages. */
    uint64_t initial;
    /** The maximum size in pages, or 0. */
    uint64_t maximum;
} pulleynavy_memory_type;

/** The type of a global (core specification, Binary format, Types, Global Types). */
typedef struct pulleynavy_global_type {
    /** The type of the value. */
    pulleynavy_type content;
    /** 1 if the value is mutable, or 0. */
    uint32_t is_mutable;
    /** 1 if threads share the global, or 0. */
    uint32_t shared;
} pulleynavy_global_type;

/** A table, or a fault. */
typedef struct pulleynavy_table {
    /** The fault of the item, of kind 0 if there is none. */
    pulleynavy_fault fault;
    /** The size of the item in bytes, 0 after a fault. */
    size_t consumed;
    /** The type of the table. */
    pulleynavy_table_type ty;
    /** The constant expression of the initial elements, including its `end`, if `has_init` is 1. */
    pulleynavy_span init;
    /** 1 if there is an expression, or 0 if the initial elements are null. */
    uint32_t has_init;
} pulleynavy_table;

/** A memory, or a fault. */
typedef struct pulleynavy_memory {
    /** The fault of the item, of kind 0 if there is none. */
    pulleynavy_fault fault;
    /** The size of the item in bytes, 0 after a fault. */
    size_t consumed;
    /** The type of the memory. */
    pulleynavy_memory_type ty;
} pulleynavy_memory;

/** A tag of exceptions, or a fault. */
typedef struct pulleynavy_tag {
    /** The fault of the item, of kind 0 if there is none. */
    pulleynavy_fault fault;
    /** The size of the item in bytes, 0 after a fault. */
    size_t consumed;
    /** The index of the function type whose parameters the tag carries. */
    uint32_t func_type_index;
} pulleynavy_tag;

/** A global, or a fault. */
typedef struct pulleynavy_global {
    /** The fault of the item, of kind 0 if there is none. */
    pulleynavy_fault fault;
    /** The size of the item in bytes, 0 after a fault. */
    size_t consumed;
    /** The type of the global. */
    pulleynavy_global_type ty;
    /** The constant expression of the initial value, including its `end`; empty for `pulleynavy_read_global_type`. */
    pulleynavy_span init;
} pulleynavy_global;

/**
 * Reads a table. With `PULLEYNAVY_FEATURE_MEMORY64` limits are 64-bit numbers, without it 32-bit numbers.
 *
 * @par Errors
 * * `TABLE_ENCODING` at a byte after 0x40 that is not 0.
 * - `TABLE_FLAGS` at flags above 7.
 * - The faults of `pulleynavy_read_reference_type`, of the limits (`pulleynavy_read_number` or `pulleynavy_read_u64`) and of
 *   `pulleynavy_read_expression`.
 *
 * (Core specification, Binary format, Modules, Table Section.)
 */
pulleynavy_table pulleynavy_read_table(const uint8_t *bytes, size_t bytes_size, uint64_t offset, uint32_t features);

/**
 * Stores the next tables of a list in `out`, and returns their number.
 *
 * @par Errors
 * An item has the faults of `pulleynavy_read_table`; the last one `SIZE_MISMATCH` if bytes follow the list.
 */
size_t pulleynavy_next_tables(
    pulleynavy_items *items, const uint8_t *bytes, size_t bytes_size, pulleynavy_table *out, size_t out_count);

/**
 * Reads a memory. With `PULLEYNAVY_FEATURE_MEMORY64` limits are 64-bit numbers, without it 32-bit numbers.
 *
 * @par Errors
 * * `MEMORY_FLAGS` at flags above 15.
 * - `PAGE_SIZE` at the flags, if the page size is 2^64 bytes or more.
 * - `UNEXPECTED_EOF`, and the faults of the limits (`pulleynavy_read_number` or `pulleynavy_read_u64`).
 *
 * (Core specification, Binary format, Modules, Memory Section.)
 */
pulleynavy_memory pulleynavy_read_memory(const uint8_t *bytes, size_t bytes_size, uint64_t offset, uint32_t features);

/**
 * Stores the next memories of a list in `out`, and returns their number.
 *
 * @par Errors
 * An item has the faults of `pulleynavy_read_memory`; the last one `SIZE_MISMATCH` if bytes follow the list.
 */
size_t pulleynavy_next_memories(
    pulleynavy_items *items, const uint8_t *bytes, size_t bytes_size, pulleynavy_memory *out, size_t out_count);

/**
 * Reads a tag.
 *
 * @par Errors
 * `TAG_ATTRIBUTES` at a first byte other than 0; `UNEXPECTED_EOF`; and the faults of `pulleynavy_read_number` for the index.
 *
 * (Core specification, Binary format, Modules, Tag Section.)
 */
pulleynavy_tag pulleynavy_read_tag(const uint8_t *bytes, size_t bytes_size, uint64_t offset, uint32_t features);

/**
 * Stores the next tags of a list in `out`, and returns their number.
 *
 * @par Errors
 * An item has the faults of `pulleynavy_read_tag`; the last one `SIZE_MISMATCH` if bytes follow the list.
 */
size_t pulleynavy_next_tags(
    pulleynavy_items *items, const uint8_t *bytes, size_t bytes_size, pulleynavy_tag *out, size_t out_count);

/**
 * Reads a global.
 *
 * @par Errors
 * `GLOBAL_FLAGS` at flags above 3; `UNEXPECTED_EOF`; and the faults of `pulleynavy_read_value_type` and
 * `pulleynavy_read_expression`.
 *
 * (Core specification, Binary format, Modules, Global Section.)
 */
pulleynavy_global pulleynavy_read_global(const uint8_t *bytes, size_t bytes_size, uint64_t offset, uint32_t features);

/**
 * Stores the next globals of a list in `out`, and returns their number.
 *
 * @par Errors
 * An item has the faults of `pulleynavy_read_global`; the last one `SIZE_MISMATCH` if bytes follow the list.
 */
size_t pulleynavy_next_globals(
    pulleynavy_items *items, const uint8_t *bytes, size_t bytes_size, pulleynavy_global *out, size_t out_count);

/**
 * Reads a table type, as a table without an expression.
 *
 * @par Errors
 * Those of `pulleynavy_read_table`, except `TABLE_ENCODING` and those of the expression.
 *
 * (Core specification, Binary format, Types, Table Types.)
 */
pulleynavy_table pulleynavy_read_table_type(
    const uint8_t *bytes, size_t bytes_size, uint64_t offset, uint32_t features);

/**
 * Reads a global type, as a global without an expression.
 *
 * @par Errors
 * Those of `pulleynavy_read_global`, except those of the expression.
 *
 * (Core specification, Binary format, Types, Global Types.)
 */
pulleynavy_global pulleynavy_read_global_type(
    const uint8_t *bytes, size_t bytes_size, uint64_t offset, uint32_t features);

/** The kind and type of an import. The fields of other kinds are 0. */
typedef struct pulleynavy_import_type {
    /**
     * The kind, a `pulleynavy_external_kind`: 0 a function, 1 a table, 2 a memory, 3 a global, 4 a tag, 5 a function of exactly the
     * given type.
     */
    uint32_t kind;
    /** The type index of a function or a tag, or 0. */
    uint32_t index;
    /** The type of a table. */
    pulleynavy_table_type table;
    /** The type of a memory. */
    pulleynavy_memory_type memory;
    /** The type of a global. */
    pulleynavy_global_type global;
} pulleynavy_import_type;

/** An item of an import section: an import, or a bundle of imports from one module; or a fault. */
typedef struct pulleynavy_import {
    /** The fault of the item, of kind 0 if there is none. */
    pulleynavy_fault fault;
    /** The size of the item in bytes, including the imports of a bundle; 0 after a fault. */
    size_t consumed;
    /** The name of the module to import from, which is UTF-8. */
    pulleynavy_span module_name;
    /** The name of the import in that module, which is UTF-8; empty for a bundle. */
    pulleynavy_span name;
    /** The kind and type of the import, or of every import of a bundle of kind 2; all 0 for a bundle of kind 1. */
    pulleynavy_import_type ty;
    /** The imports of a bundle, after their count; empty for a single import. */
    pulleynavy_span items;
    /**
     * The kind of the item, a `pulleynavy_import_kind`: 0 an import, 1 a bundle of imports from one module, 2 a bundle of one module
     * and one type.
     */
    uint32_t kind;
    /** The number of imports: 1 for a single import. */
    uint32_t count;
} pulleynavy_import;

/** An import of a bundle, or a fault. */
typedef struct pulleynavy_import_item {
    /** The fault of the item, of kind 0 if there is none. */
    pulleynavy_fault fault;
    /** The size of the item in bytes, 0 after a fault. */
    size_t consumed;
    /** The name of the import in the bundle's module, which is UTF-8. */
    pulleynavy_span name;
    /** The kind and type of the import. */
    pulleynavy_import_type ty;
} pulleynavy_import_item;

/** A name or text, or a fault. */
typedef struct pulleynavy_name {
    /** The fault of the item, of kind 0 if there is none. */
    pulleynavy_fault fault;
    /** The size of the item in bytes, 0 after a fault. */
    size_t consumed;
    /** The name, which is UTF-8. */
    pulleynavy_span name;
} pulleynavy_name;

/**
 * Reads an item of an import section: an import, or a bundle of imports from one module.
 *
 * The imports of a bundle are skipped, without checking that their names are UTF-8. `pulleynavy_read_bundled_import` reads each. To
 * read all imports one by one, use `pulleynavy_next_flat_imports`.
 *
 * @par Errors
 * * `COMPACT_7F` or `COMPACT_7E` at the byte that begins a bundle, without `PULLEYNAVY_FEATURE_COMPACT_IMPORTS`.
 * - `LEADING_BYTE` with `PULLEYNAVY_LEAD_EXTERNAL` at a byte that is no kind of imports.
 * - The faults of `pulleynavy_read_name`, and of the types of tables, memories, globals and tags.
 *
 * (Core specification, Binary format, Modules, Import Section; the bundles are of the proposal for compact imports.)
 */
pulleynavy_import pulleynavy_read_import(const uint8_t *bytes, size_t bytes_size, uint64_t offset, uint32_t features);

/**
 * Stores the next items of an import section, imports and bundles, in `out`, and returns their number.
 *
 * @par Errors
 * An item has the faults of `pulleynavy_read_import`; the last one `SIZE_MISMATCH` if bytes follow the list.
 */
size_t pulleynavy_next_imports(
    pulleynavy_items *items, const uint8_t *bytes, size_t bytes_size, pulleynavy_import *out, size_t out_count);

/**
 * Reads an import of a bundle of kind 1: a name and a type.
 *
 * @par Errors
 * Those of `pulleynavy_read_import`, except `COMPACT_7F` and `COMPACT_7E`.
 *
 * (The proposal for compact imports.)
 */
pulleynavy_import_item pulleynavy_read_import_item(
    const uint8_t *bytes, size_t bytes_size, uint64_t offset, uint32_t features);

/**
 * Reads a name of at most 100,000 bytes: a size, a u32, and that many bytes.
 *
 * @par Errors
 * `STRING_SIZE`, `MALFORMED_UTF8`, `UNEXPECTED_EOF` after the size, and the faults of `pulleynavy_read_number` for the size.
 *
 * (Core specification, Binary format, Values, Names.)
 */
pulleynavy_name pulleynavy_read_name(const uint8_t *bytes, size_t bytes_size, uint64_t offset, uint32_t features);

/**
 * Stores the next names of a list in `out`, and returns their number.
 *
 * @par Errors
 * An item has the faults of `pulleynavy_read_name`; the last one `SIZE_MISMATCH` if bytes follow the list.
 */
size_t pulleynavy_next_names(
    pulleynavy_items *items, const uint8_t *bytes, size_t bytes_size, pulleynavy_name *out, size_t out_count);

/**
 * Reads a name of any length, as the sections `producers`, `linking` and `dylink.0` have them.
 *
 * @par Errors
 * Those of `pulleynavy_read_name`, except `STRING_SIZE`.
 *
 * (Core specification, Binary format, Values, Names.)
 */
pulleynavy_name pulleynavy_read_text(const uint8_t *bytes, size_t bytes_size, uint64_t offset, uint32_t features);

/**
 * Stores the next texts of a list in `out`, and returns their number.
 *
 * @par Errors
 * An item has the faults of `pulleynavy_read_text`; the last one `SIZE_MISMATCH` if bytes follow the list.
 */
size_t pulleynavy_next_texts(
    pulleynavy_items *items, const uint8_t *bytes, size_t bytes_size, pulleynavy_name *out, size_t out_count);

/**
 * Reads an import of this bundle, which `pulleynavy_read_import` or `pulleynavy_next_imports` returned.
 *
 * For a bundle of kind 2 it reads a name, and the type is that of the bundle.
 *
 * @par Errors
 * Those of `pulleynavy_read_import_item`; for a bundle of kind 2 those of `pulleynavy_read_name`.
 *
 * (The proposal for compact imports.)
 */
pulleynavy_import_item pulleynavy_read_bundled_import(
    const pulleynavy_import *bundle, const uint8_t *bytes, size_t bytes_size, uint64_t offset, uint32_t features);

/** A cursor over all imports of a section, including those of bundles one by one. It keeps no pointer. Any bytes are a valid cursor. */
typedef struct pulleynavy_imports {
    /** The cursor over the items of the section, imports and bundles. */
    pulleynavy_items items;
    /** The cursor over the imports of the last bundle. */
    pulleynavy_items bundled;
    /** The last bundle. */
    pulleynavy_import bundle;
} pulleynavy_imports;

/**
 * Returns a cursor at the first import of an import section, whose event this is.
 *
 * The bytes of the list are those of the section's content, from `start` to `end` of the event.
 *
 * @code{.c}
 * // A bundle of the module "m" with two functions of type 5, "f" and "g".
 * const uint8_t section[] = {1, 1, 'm', 0, 0x7e, 0, 5, 2, 1, 'f', 1, 'g'};
 * pulleynavy_event event = {.kind = PULLEYNAVY_EVENT_SECTION, .count = 1, .data_offset = 1, .end = sizeof section};
 * pulleynavy_imports imports = pulleynavy_imports_init(&event, PULLEYNAVY_ALL_FEATURES);
 * pulleynavy_import out[4];
 * assert(pulleynavy_next_flat_imports(&imports, section, sizeof section, out, 4) == 2);
 * assert(section[out[0].module_name.at] == 'm' && section[out[1].name.at] == 'g' && out[1].ty.index == 5);
 * @endcode
 */
pulleynavy_imports pulleynavy_imports_init(const pulleynavy_event *event, uint32_t features);

/**
 * Stores the next imports of a section in `out`, including those of bundles one by one, and returns their number. `kind` is 0 in
 * each.
 *
 * `bytes` are the content of the section, the same in each call.
 *
 * @par Errors
 * An item has the faults of `pulleynavy_read_import` or, in a bundle, of `pulleynavy_read_bundled_import`. After a malformed
 * import of a bundle, the list continues after the bundle. The last item is `SIZE_MISMATCH` if bytes follow the list.
 *
 * (The bundles are of the proposal for compact imports.)
 */
size_t pulleynavy_next_flat_imports(
    pulleynavy_imports *imports, const uint8_t *bytes, size_t bytes_size, pulleynavy_import *out, size_t out_count);

/** An export, or a fault. */
typedef struct pulleynavy_export {
    /** The fault of the item, of kind 0 if there is none. */
    pulleynavy_fault fault;
    /** The size of the item in bytes, 0 after a fault. */
    size_t consumed;
    /** The name of the export, which is UTF-8. */
    pulleynavy_span name;
    /** The kind, a `pulleynavy_external_kind`: 0 a function, 1 a table, 2 a memory, 3 a global, 4 a tag. */
    uint32_t kind;
    /** The index in the index space of the kind. */
    uint32_t index;
} pulleynavy_export;

/**
 * Reads an export.
 *
 * @par Errors
 * * `LEADING_BYTE` with `PULLEYNAVY_LEAD_EXTERNAL` at a byte that is no kind of exports.
 * - `EXACT_EXPORT` at the offset after the kind, if it is that of exact functions.
 * - The faults of `pulleynavy_read_name` and, for the index, of `pulleynavy_read_number`.
 *
 * @code{.c}
 * const uint8_t bytes[] = {3, 'a', 'd', 'd', 0, 5};
 * pulleynavy_export item = pulleynavy_read_export(bytes, sizeof bytes, 0, PULLEYNAVY_ALL_FEATURES);
 * assert(!item.fault.kind && item.consumed == 6);
 * assert(item.kind == PULLEYNAVY_EXTERNAL_FUNC && item.index == 5);
 * assert(item.name.size == 3 && !memcmp(bytes + item.name.at, "add", 3));
 * @endcode
 *
 * (Core specification, Binary format, Modules, Export Section.)
 */
pulleynavy_export pulleynavy_read_export(const uint8_t *bytes, size_t bytes_size, uint64_t offset, uint32_t features);

/**
 * Stores the next exports of a list in `out`, and returns their number.
 *
 * @par Errors
 * An item has the faults of `pulleynavy_read_export`; the last one `SIZE_MISMATCH` if bytes follow the list.
 */
size_t pulleynavy_next_exports(
    pulleynavy_items *items, const uint8_t *bytes, size_t bytes_size, pulleynavy_export *out, size_t out_count);

/** An instruction of a constant expression, or a fault. */
typedef struct pulleynavy_instruction {
    /** The fault of the item, of kind 0 if there is none. */
    pulleynavy_fault fault;
    /** The size of the item in bytes, 0 after a fault. */
    size_t consumed;
    /** The opcode, a `pulleynavy_opcode`. An opcode of two parts is 256 times the first plus the second. */
    uint32_t opcode;
    /** The index of a global, a function or a type, or 0. */
    uint32_t index;
    /** The heap type of a null reference, a `pulleynavy_heap_kind`, or 0. The index is that of the type if it is 12. */
    uint32_t heap;
    /** The number of elements of `array.new_fixed`, or 0. */
    uint32_t count;
    /** The value of `i32.const` or `i64.const`, or 0. */
    int64_t integer;
    /** The bits of `f32.const` or `f64.const`, or 0. */
    uint64_t bits;
    /** The 16 bytes of `v128.const`, in little-endian order. */
    pulleynavy_span bytes;
} pulleynavy_instruction;

/**
 * Reads an instruction of a constant expression. The last one has the opcode `PULLEYNAVY_OP_END`.
 *
 * @par Errors
 * * `NOT_CONSTANT` at the opcode of an instruction that is not constant.
 * - `UNEXPECTED_EOF`, and the faults of operands: `pulleynavy_read_number`, `pulleynavy_read_s32`, `pulleynavy_read_s64` and
 *   `pulleynavy_read_heap_type`.
 *
 * @code{.c}
 * const uint8_t bytes[] = {0x41, 5, 0x0b};
 * pulleynavy_instruction first = pulleynavy_read_instruction(bytes, 3, 0, PULLEYNAVY_ALL_FEATURES);
 * assert(first.opcode == PULLEYNAVY_OP_I32_CONST && first.integer == 5 && first.consumed == 2);
 * pulleynavy_instruction last = pulleynavy_read_instruction(bytes + 2, 1, 2, PULLEYNAVY_ALL_FEATURES);
 * assert(last.opcode == PULLEYNAVY_OP_END);
 * @endcode
 *
 * (Core specification, Binary format, Instructions.)
 */
pulleynavy_instruction pulleynavy_read_instruction(
    const uint8_t *bytes, size_t bytes_size, uint64_t offset, uint32_t features);

/** A constant expression, or a fault. */
typedef struct pulleynavy_expression {
    /** The fault of the item, of kind 0 if there is none. */
    pulleynavy_fault fault;
    /** The size of the expression in bytes, including its `end`; 0 after a fault. */
    size_t consumed;
} pulleynavy_expression;

/** An element segment, or a fault. */
typedef struct pulleynavy_element {
    /** The fault of the item, of kind 0 if there is none. */
    pulleynavy_fault fault;
    /** The size of the item in bytes, 0 after a fault. */
    size_t consumed;
    /** The kind of the segment, a `pulleynavy_element_kind`: 0 passive, 1 active, 2 declarative. */
    uint32_t kind;
    /** 1 if the index of a table is encoded, or 0. */
    uint32_t has_table;
    /** The index of the table of an active segment; 0 if none is encoded. */
    uint32_t table;
    /** 1 if the elements are constant expressions, or 0 if they are function indices. */
    uint32_t has_expressions;
    /** The expression of an active segment's offset in the table, including its `end`; otherwise empty. */
    pulleynavy_span offset_expression;
    /** The type of the elements; `funcref` for function indices. */
    pulleynavy_type ty;
    /** The elements, after their count. */
    pulleynavy_span items;
    /** The number of elements. */
    uint32_t count;
} pulleynavy_element;

/** A data segment, or a fault. */
typedef struct pulleynavy_data {
    /** The fault of the item, of kind 0 if there is none. */
    pulleynavy_fault fault;
    /** The size of the item in bytes, 0 after a fault. */
    size_t consumed;
    /** The kind of the segment, a `pulleynavy_data_kind`: 0 passive, 1 active. */
    uint32_t kind;
    /** The index of an active segment's memory, or 0. */
    uint32_t memory;
    /** The expression of an active segment's address in the memory, including its `end`; otherwise empty. */
    pulleynavy_span offset_expression;
    /** The bytes of the segment. */
    pulleynavy_span bytes;
} pulleynavy_data;

/**
 * Reads a constant expression, such as an element of a segment. `pulleynavy_read_instruction` reads each of its instructions.
 *
 * @par Errors
 * Those of `pulleynavy_read_instruction`, for any of its instructions.
 *
 * (Core specification, Binary format, Instructions, Expressions.)
 */
pulleynavy_expression pulleynavy_read_expression(
    const uint8_t *bytes, size_t bytes_size, uint64_t offset, uint32_t features);

/**
 * Stores the next constant expressions of a list in `out`, and returns their number. Each begins where the one before it ends.
 *
 * @par Errors
 * An item has the faults of `pulleynavy_read_expression`; the last one `SIZE_MISMATCH` if bytes follow the list.
 */
size_t pulleynavy_next_expressions(
    pulleynavy_items *items, const uint8_t *bytes, size_t bytes_size, pulleynavy_expression *out, size_t out_count);

/**
 * Reads an element segment. Walk its elements with `pulleynavy_next_numbers` or `pulleynavy_next_expressions`: they were checked, and
 * have no fault.
 *
 * @par Errors
 * * `ELEMENT_FLAGS` at the last byte of flags above 7.
 * - `ELEMENT_FUNCTION_ONLY` at an element kind other than that of functions.
 * - `LEADING_BYTE` with `PULLEYNAVY_LEAD_EXTERNAL` at a byte that is no kind of elements.
 * - The faults of `pulleynavy_read_number`, `pulleynavy_read_reference_type` and `pulleynavy_read_expression`.
 *
 * @code{.c}
 * // Active, in table 0 at index 0, with the functions 5 and 6.
 * const uint8_t bytes[] = {0, 0x41, 0, 0x0b, 2, 5, 6};
 * pulleynavy_element item = pulleynavy_read_element(bytes, sizeof bytes, 0, PULLEYNAVY_ALL_FEATURES);
 * assert(item.kind == PULLEYNAVY_ELEMENT_ACTIVE && !item.has_expressions && item.count == 2);
 * pulleynavy_items items = pulleynavy_list_init(item.items.at, item.count, PULLEYNAVY_ALL_FEATURES);
 * pulleynavy_number out[4];
 * assert(pulleynavy_next_numbers(&items, bytes + item.items.at, item.items.size, out, 4) == 2 && out[1].value == 6);
 * @endcode
 *
 * (Core specification, Binary format, Modules, Element Section.)
 */
pulleynavy_element pulleynavy_read_element(
    const uint8_t *bytes, size_t bytes_size, uint64_t offset, uint32_t features);

/**
 * Stores the next element segments of a list in `out`, and returns their number.
 *
 * @par Errors
 * An item has the faults of `pulleynavy_read_element`; the last one `SIZE_MISMATCH` if bytes follow the list.
 */
size_t pulleynavy_next_elements(
    pulleynavy_items *items, const uint8_t *bytes, size_t bytes_size, pulleynavy_element *out, size_t out_count);

/**
 * Reads a data segment.
 *
 * @par Errors
 * `DATA_FLAGS` at the start of the segment, if the flags are above 2; `UNEXPECTED_EOF` after the size if bytes are missing;
 * and the faults of `pulleynavy_read_number` and `pulleynavy_read_expression`.
 *
 * (Core specification, Binary format, Modules, Data Section.)
 */
pulleynavy_data pulleynavy_read_data(const uint8_t *bytes, size_t bytes_size, uint64_t offset, uint32_t features);

/**
 * Stores the next data segments of a list in `out`, and returns their number.
 *
 * @par Errors
 * An item has the faults of `pulleynavy_read_data`; the last one `SIZE_MISMATCH` if bytes follow the list.
 */
size_t pulleynavy_next_data(
    pulleynavy_items *items, const uint8_t *bytes, size_t bytes_size, pulleynavy_data *out, size_t out_count);

/** A subsection, or a fault. */
typedef struct pulleynavy_subsection {
    /** The fault of the item, of kind 0 if there is none. */
    pulleynavy_fault fault;
    /** The size of the item in bytes, 0 after a fault. */
    size_t consumed;
    /**
     * The id, below 128: of the section `name` a `pulleynavy_name_id`, of `linking` a `pulleynavy_linking_id`, of `dylink.0` a
     * `pulleynavy_dylink_id`.
     */
    uint32_t id;
    /** The content, without the id and the size. */
    pulleynavy_span contents;
} pulleynavy_subsection;

/** An index and a name, or a fault. */
typedef struct pulleynavy_naming {
    /** The fault of the item, of kind 0 if there is none. */
    pulleynavy_fault fault;
    /** The size of the item in bytes, 0 after a fault. */
    size_t consumed;
    /** The index of the named item, in the index space of the map. */
    uint32_t index;
    /** The name, which is UTF-8. */
    pulleynavy_span name;
} pulleynavy_naming;

/** An index and a name map, or a fault. */
typedef struct pulleynavy_indirect_naming {
    /** The fault of the item, of kind 0 if there is none. */
    pulleynavy_fault fault;
    /** The size of the item in bytes, including the name map; 0 after a fault. */
    size_t consumed;
    /** The index of the item whose parts are named, such as a function. */
    uint32_t index;
    /** The number of names. */
    uint32_t count;
    /** The names of the parts, such as the locals of the function, after their count. */
    pulleynavy_span names;
} pulleynavy_indirect_naming;

/**
 * Reads a subsection of the section `name`, `linking` or `dylink.0`: an id below 128, a size, a u32, and that many bytes.
 *
 * @par Errors
 * `INVALID_U7` at an id of 128 or above; `UNEXPECTED_EOF`; and the faults of `pulleynavy_read_number` for the size.
 *
 * (Core specification, Appendix, Custom Sections, Name Section, Subsections; tool conventions, Linking.)
 */
pulleynavy_subsection pulleynavy_read_subsection(
    const uint8_t *bytes, size_t bytes_size, uint64_t offset, uint32_t features);

/**
 * Reads an index and a name of any length, an entry of a name map. It does not check that indices ascend.
 *
 * @par Errors
 * Those of `pulleynavy_read_number` and `pulleynavy_read_text`.
 *
 * (Core specification, Appendix, Custom Sections, Name Section, Name Maps.)
 */
pulleynavy_naming pulleynavy_read_naming(const uint8_t *bytes, size_t bytes_size, uint64_t offset, uint32_t features);

/**
 * Stores the next entries of a name map in `out`, and returns their number.
 *
 * @par Errors
 * An item has the faults of `pulleynavy_read_naming`. An entry whose index is not above that of every earlier entry without a
 * fault has the fault `NAMES_ORDER` at the start of the entry, and the next one follows. The last item is `SIZE_MISMATCH` if bytes
 * follow the list.
 */
size_t pulleynavy_next_namings(
    pulleynavy_items *items, const uint8_t *bytes, size_t bytes_size, pulleynavy_naming *out, size_t out_count);

/**
 * Reads an index and a name map, an entry of an indirect name map. It does not check that indices ascend.
 *
 * The names are skipped, without checking that they are UTF-8. Walk them with `pulleynavy_next_namings`.
 *
 * @par Errors
 * Those of `pulleynavy_read_number`; and `STRING_SIZE` and `UNEXPECTED_EOF` for the names.
 *
 * (Core specification, Appendix, Custom Sections, Name Section, Indirect Name Maps.)
 */
pulleynavy_indirect_naming pulleynavy_read_indirect_naming(
    const uint8_t *bytes, size_t bytes_size, uint64_t offset, uint32_t features);

/**
 * Stores the next entries of an indirect name map in `out`, and returns their number.
 *
 * @par Errors
 * An item has the faults of `pulleynavy_read_indirect_naming`. An entry whose index is not above that of every earlier entry
 * without a fault has the fault `INDIRECT_ORDER` at the start of the entry, and the next one follows. The last item is
 * `SIZE_MISMATCH` if bytes follow the list.
 */
size_t pulleynavy_next_indirect_namings(
    pulleynavy_items *items, const uint8_t *bytes, size_t bytes_size, pulleynavy_indirect_naming *out, size_t out_count);

/**
 * Stores the next subsections of a section `linking` or `dylink.0` in `out`, and returns their number.
 *
 * `bytes` are the content of the section, the same in each call. For `linking` the cursor begins after the version, and for a cursor
 * of `pulleynavy_list_init` so do the bytes.
 *
 * @par Errors
 * An item has the faults of `pulleynavy_read_subsection`. After a malformed one, the next one follows.
 */
size_t pulleynavy_next_subsections(
    pulleynavy_items *items, const uint8_t *bytes, size_t bytes_size, pulleynavy_subsection *out, size_t out_count);

/**
 * Stores the next subsections of a section `name` in `out`, and returns their number.
 *
 * @par Errors
 * An item has the faults of `pulleynavy_read_subsection`. A subsection whose id is not above that of every earlier one
 * without a fault has the fault `NAME_SECTION_ORDER` at the start of the subsection. After either, the next one follows.
 *
 * @code{.c}
 * // The name "f" for function 5, in subsection 1.
 * const uint8_t data[] = {1, 4, 1, 5, 1, 'f'};
 * pulleynavy_items items = pulleynavy_list_init(0, 0, PULLEYNAVY_ALL_FEATURES);
 * pulleynavy_subsection part;
 * assert(pulleynavy_next_name_subsections(&items, data, sizeof data, &part, 1) == 1 && part.id == PULLEYNAVY_NAME_FUNCTION);
 * const uint8_t *map = data + part.contents.at;
 * pulleynavy_number count = pulleynavy_read_number(map, part.contents.size, part.contents.at, PULLEYNAVY_ALL_FEATURES);
 * pulleynavy_items names = pulleynavy_list_init(part.contents.at + count.consumed, count.value, PULLEYNAVY_ALL_FEATURES);
 * pulleynavy_naming naming;
 * map += count.consumed;
 * assert(pulleynavy_next_namings(&names, map, part.contents.size - count.consumed, &naming, 1) == 1);
 * assert(naming.index == 5 && map[naming.name.at] == 'f');
 * @endcode
 */
size_t pulleynavy_next_name_subsections(
    pulleynavy_items *items, const uint8_t *bytes, size_t bytes_size, pulleynavy_subsection *out, size_t out_count);

/** A field of the producers section, or a fault. */
typedef struct pulleynavy_producers_field {
    /** The fault of the item, of kind 0 if there is none. */
    pulleynavy_fault fault;
    /** The size of the item in bytes, 0 after a fault. */
    size_t consumed;
    /** The name of the field: `language`, `sdk` or `processed-by`. */
    pulleynavy_span name;
    /** The number of values. */
    uint32_t count;
    /** The values, after their count. */
    pulleynavy_span values;
} pulleynavy_producers_field;

/** A value of a field of the producers section, or a fault. */
typedef struct pulleynavy_producers_value {
    /** The fault of the item, of kind 0 if there is none. */
    pulleynavy_fault fault;
    /** The size of the item in bytes, 0 after a fault. */
    size_t consumed;
    /** The name of a language or tool, which is UTF-8. */
    pulleynavy_span name;
    /** The version, which is UTF-8, possibly empty. */
    pulleynavy_span version;
} pulleynavy_producers_value;

/**
 * Reads a field of a producers section. Its values are skipped, without checking that they are UTF-8; walk them with
 * `pulleynavy_next_producers_values`.
 *
 * @par Errors
 * `PRODUCERS_FIELD` at the start of the field, if its name is another one than the three; the faults of
 * `pulleynavy_read_text` and `pulleynavy_read_number`; and `STRING_SIZE` and `UNEXPECTED_EOF` for the values.
 *
 * @code{.c}
 * const uint8_t bytes[] = {3, 's', 'd', 'k', 1, 1, 'X', 1, '2'};
 * pulleynavy_producers_field field = pulleynavy_read_producers_field(bytes, sizeof bytes, 0, PULLEYNAVY_ALL_FEATURES);
 * assert(field.name.size == 3 && field.count == 1);
 * pulleynavy_items values = pulleynavy_list_init(field.values.at, field.count, PULLEYNAVY_ALL_FEATURES);
 * pulleynavy_producers_value value;
 * const uint8_t *list = bytes + field.values.at;
 * assert(pulleynavy_next_producers_values(&values, list, field.values.size, &value, 1) == 1);
 * assert(list[value.name.at] == 'X' && list[value.version.at] == '2');
 * @endcode
 *
 * (Tool conventions, Producers Section.)
 */
pulleynavy_producers_field pulleynavy_read_producers_field(
    const uint8_t *bytes, size_t bytes_size, uint64_t offset, uint32_t features);

/**
 * Stores the next fields of a producers section in `out`, and returns their number.
 *
 * @par Errors
 * An item has the faults of `pulleynavy_read_producers_field`; the last one `SIZE_MISMATCH` if bytes follow the list.
 */
size_t pulleynavy_next_producers_fields(
    pulleynavy_items *items, const uint8_t *bytes, size_t bytes_size, pulleynavy_producers_field *out, size_t out_count);

/**
 * Reads a value of a field of a producers section: a name and a version.
 *
 * @par Errors
 * Those of `pulleynavy_read_text`.
 *
 * (Tool conventions, Producers Section.)
 */
pulleynavy_producers_value pulleynavy_read_producers_value(
    const uint8_t *bytes, size_t bytes_size, uint64_t offset, uint32_t features);

/**
 * Stores the next values of a field in `out`, and returns their number.
 *
 * @par Errors
 * An item has the faults of `pulleynavy_read_producers_value`; the last one `SIZE_MISMATCH` if bytes follow the list.
 */
size_t pulleynavy_next_producers_values(
    pulleynavy_items *items, const uint8_t *bytes, size_t bytes_size, pulleynavy_producers_value *out, size_t out_count);

/** A function with branch hints, or a fault. */
typedef struct pulleynavy_hinted_function {
    /** The fault of the item, of kind 0 if there is none. */
    pulleynavy_fault fault;
    /** The size of the item in bytes, 0 after a fault. */
    size_t consumed;
    /** The index of the function. */
    uint32_t func;
    /** The number of hints. */
    uint32_t count;
    /** The hints, after their count. */
    pulleynavy_span hints;
} pulleynavy_hinted_function;

/** A branch hint, or a fault. */
typedef struct pulleynavy_branch_hint {
    /** The fault of the item, of kind 0 if there is none. */
    pulleynavy_fault fault;
    /** The size of the item in bytes, 0 after a fault. */
    size_t consumed;
    /** The offset of the branch instruction, in bytes from the start of the function's body. */
    uint32_t func_offset;
    /** 1 if the branch is likely to be taken, or 0. */
    uint32_t taken;
} pulleynavy_branch_hint;

/**
 * Reads a function with branch hints. Walk the hints with `pulleynavy_next_branch_hints`: they were checked, and have no fault.
 *
 * @par Errors
 * Those of `pulleynavy_read_number` and `pulleynavy_read_branch_hint`.
 *
 * (Tool conventions, Code Metadata, Branch Hints.)
 */
pulleynavy_hinted_function pulleynavy_read_hinted_function(
    const uint8_t *bytes, size_t bytes_size, uint64_t offset, uint32_t features);

/**
 * Stores the next functions of a section `metadata.code.branch_hint` in `out`, and returns their number.
 *
 * @par Errors
 * An item has the faults of `pulleynavy_read_hinted_function`; the last one `SIZE_MISMATCH` if bytes follow the list.
 */
size_t pulleynavy_next_hinted_functions(
    pulleynavy_items *items, const uint8_t *bytes, size_t bytes_size, pulleynavy_hinted_function *out, size_t out_count);

/**
 * Reads a branch hint.
 *
 * @par Errors
 * `LEADING_BYTE` with `PULLEYNAVY_LEAD_BRANCH_HINT` at a size of the value other than 1, or with
 * `PULLEYNAVY_LEAD_BRANCH_TAKEN` at a value other than 0 and 1; `UNEXPECTED_EOF`; and the faults of `pulleynavy_read_number`.
 *
 * (Tool conventions, Code Metadata, Branch Hints.)
 */
pulleynavy_branch_hint pulleynavy_read_branch_hint(
    const uint8_t *bytes, size_t bytes_size, uint64_t offset, uint32_t features);

/**
 * Stores the next branch hints of a function in `out`, and returns their number.
 *
 * @par Errors
 * An item has the faults of `pulleynavy_read_branch_hint`; the last one `SIZE_MISMATCH` if bytes follow the list.
 */
size_t pulleynavy_next_branch_hints(
    pulleynavy_items *items, const uint8_t *bytes, size_t bytes_size, pulleynavy_branch_hint *out, size_t out_count);

/** The memory and table space that a library needs, or a fault. */
typedef struct pulleynavy_dylink_memory {
    /** The fault of the item, of kind 0 if there is none. */
    pulleynavy_fault fault;
    /** The size of the item in bytes, 0 after a fault. */
    size_t consumed;
    /** The size of the memory area, in bytes. */
    uint32_t memory_size;
    /** The alignment of the memory area, as the base-2 logarithm of the bytes. */
    uint32_t memory_alignment;
    /** The size of the table area, in elements. */
    uint32_t table_size;
    /** The alignment of the table area, as the base-2 logarithm of the elements. */
    uint32_t table_alignment;
} pulleynavy_dylink_memory;

/** The flags of an export's symbol, or a fault. */
typedef struct pulleynavy_dylink_export {
    /** The fault of the item, of kind 0 if there is none. */
    pulleynavy_fault fault;
    /** The size of the item in bytes, 0 after a fault. */
    size_t consumed;
    /** The name of the export, which is UTF-8. */
    pulleynavy_span name;
    /** The flags of the symbol, `pulleynavy_symbol_flags`. Unknown bits are kept. */
    uint32_t flags;
} pulleynavy_dylink_export;

/** The flags of an import's symbol, or a fault. */
typedef struct pulleynavy_dylink_import {
    /** The fault of the item, of kind 0 if there is none. */
    pulleynavy_fault fault;
    /** The size of the item in bytes, 0 after a fault. */
    size_t consumed;
    /** The name of the module to import from, which is UTF-8. */
    pulleynavy_span module_name;
    /** The name of the import in that module, which is UTF-8. */
    pulleynavy_span field;
    /** The flags of the symbol, `pulleynavy_symbol_flags`. Unknown bits are kept. */
    uint32_t flags;
} pulleynavy_dylink_import;

/**
 * Reads the content of subsection 1 of the section `dylink.0`. Bytes after it are ignored.
 *
 * @par Errors
 * Those of `pulleynavy_read_number`, for any of its four numbers.
 *
 * @code{.c}
 * const uint8_t contents[] = {16, 2, 1, 0};
 * pulleynavy_dylink_memory needs = pulleynavy_read_dylink_memory(contents, 4, 0, PULLEYNAVY_ALL_FEATURES);
 * assert(needs.memory_size == 16 && needs.memory_alignment == 2 && needs.table_size == 1);
 * @endcode
 *
 * (Tool conventions, Dynamic Linking, The "dylink.0" Section.)
 */
pulleynavy_dylink_memory pulleynavy_read_dylink_memory(
    const uint8_t *bytes, size_t bytes_size, uint64_t offset, uint32_t features);

/**
 * Reads an export of subsection 3 of the section `dylink.0`, whose content is a count and as many exports.
 *
 * @par Errors
 * Those of `pulleynavy_read_text` and `pulleynavy_read_number`.
 *
 * (Tool conventions, Dynamic Linking, The "dylink.0" Section.)
 */
pulleynavy_dylink_export pulleynavy_read_dylink_export(
    const uint8_t *bytes, size_t bytes_size, uint64_t offset, uint32_t features);

/**
 * Stores the next exports of a list in `out`, and returns their number.
 *
 * @par Errors
 * An item has the faults of `pulleynavy_read_dylink_export`; the last one `SIZE_MISMATCH` if bytes follow the list.
 */
size_t pulleynavy_next_dylink_exports(
    pulleynavy_items *items, const uint8_t *bytes, size_t bytes_size, pulleynavy_dylink_export *out, size_t out_count);

/**
 * Reads an import of subsection 4 of the section `dylink.0`, whose content is a count and as many imports.
 *
 * @par Errors
 * Those of `pulleynavy_read_text` and `pulleynavy_read_number`.
 *
 * (Tool conventions, Dynamic Linking, The "dylink.0" Section.)
 */
pulleynavy_dylink_import pulleynavy_read_dylink_import(
    const uint8_t *bytes, size_t bytes_size, uint64_t offset, uint32_t features);

/**
 * Stores the next imports of a list in `out`, and returns their number.
 *
 * @par Errors
 * An item has the faults of `pulleynavy_read_dylink_import`; the last one `SIZE_MISMATCH` if bytes follow the list.
 */
size_t pulleynavy_next_dylink_imports(
    pulleynavy_items *items, const uint8_t *bytes, size_t bytes_size, pulleynavy_dylink_import *out, size_t out_count);

/** The name, alignment and flags of a data segment, or a fault. */
typedef struct pulleynavy_linking_segment {
    /** The fault of the item, of kind 0 if there is none. */
    pulleynavy_fault fault;
    /** The size of the item in bytes, 0 after a fault. */
    size_t consumed;
    /** The name of the segment, which is UTF-8. */
    pulleynavy_span name;
    /** The alignment of the segment, as the base-2 logarithm of the bytes. */
    uint32_t alignment;
    /** The flags of the segment, `pulleynavy_segment_flags`. Unknown bits are kept. */
    uint32_t flags;
} pulleynavy_linking_segment;

/** A function to call at startup, or a fault. */
typedef struct pulleynavy_init_function {
    /** The fault of the item, of kind 0 if there is none. */
    pulleynavy_fault fault;
    /** The size of the item in bytes, 0 after a fault. */
    size_t consumed;
    /** The priority: lower numbers are called first. */
    uint32_t priority;
    /** The index of the function's symbol in the symbol table. */
    uint32_t symbol;
} pulleynavy_init_function;

/** A comdat, or a fault. */
typedef struct pulleynavy_comdat {
    /** The fault of the item, of kind 0 if there is none. */
    pulleynavy_fault fault;
    /** The size of the item in bytes, 0 after a fault. */
    size_t consumed;
    /** The name of the comdat, which is UTF-8. */
    pulleynavy_span name;
    /** The flags. None is defined; they are not checked. */
    uint32_t flags;
    /** The number of symbols. */
    uint32_t count;
    /** The symbols, after their count. */
    pulleynavy_span symbols;
} pulleynavy_comdat;

/** A symbol of a comdat, or a fault. */
typedef struct pulleynavy_comdat_symbol {
    /** The fault of the item, of kind 0 if there is none. */
    pulleynavy_fault fault;
    /** The size of the item in bytes, 0 after a fault. */
    size_t consumed;
    /** The kind, a `pulleynavy_comdat_kind`: 0 data, 1 a function, 2 a global, 3 an event, 4 a table, 5 a section. */
    uint32_t kind;
    /** The index in the index space of the kind. */
    uint32_t index;
} pulleynavy_comdat_symbol;

/**
 * Reads a data segment of subsection 5 of the section `linking`, whose content is a count and as many segments.
 *
 * @par Errors
 * Those of `pulleynavy_read_text` and `pulleynavy_read_number`.
 *
 * (Tool conventions, Linking, Segment Info Subsection.)
 */
pulleynavy_linking_segment pulleynavy_read_linking_segment(
    const uint8_t *bytes, size_t bytes_size, uint64_t offset, uint32_t features);

/**
 * Stores the next segments of a list in `out`, and returns their number.
 *
 * @par Errors
 * An item has the faults of `pulleynavy_read_linking_segment`; the last one `SIZE_MISMATCH` if bytes follow the list.
 */
size_t pulleynavy_next_linking_segments(
    pulleynavy_items *items, const uint8_t *bytes, size_t bytes_size, pulleynavy_linking_segment *out, size_t out_count);

/**
 * Reads a function of subsection 6 of the section `linking`, whose content is a count and as many functions to call at startup.
 *
 * @par Errors
 * Those of `pulleynavy_read_number`.
 *
 * (Tool conventions, Linking, Init Functions Subsection.)
 */
pulleynavy_init_function pulleynavy_read_init_function(
    const uint8_t *bytes, size_t bytes_size, uint64_t offset, uint32_t features);

/**
 * Stores the next functions of a list in `out`, and returns their number.
 *
 * @par Errors
 * An item has the faults of `pulleynavy_read_init_function`; the last one `SIZE_MISMATCH` if bytes follow the list.
 */
size_t pulleynavy_next_init_functions(
    pulleynavy_items *items, const uint8_t *bytes, size_t bytes_size, pulleynavy_init_function *out, size_t out_count);

/**
 * Reads a comdat of subsection 7 of the section `linking`, whose content is a count and as many comdats.
 *
 * Walk the symbols with `pulleynavy_next_comdat_symbols`: they were checked, and have no fault.
 *
 * @par Errors
 * Those of `pulleynavy_read_text`, `pulleynavy_read_number` and `pulleynavy_read_comdat_symbol`.
 *
 * (Tool conventions, Linking, COMDAT Subsection.)
 */
pulleynavy_comdat pulleynavy_read_comdat(const uint8_t *bytes, size_t bytes_size, uint64_t offset, uint32_t features);

/**
 * Stores the next comdats of a list in `out`, and returns their number.
 *
 * @par Errors
 * An item has the faults of `pulleynavy_read_comdat`; the last one `SIZE_MISMATCH` if bytes follow the list.
 */
size_t pulleynavy_next_comdats(
    pulleynavy_items *items, const uint8_t *bytes, size_t bytes_size, pulleynavy_comdat *out, size_t out_count);

/**
 * Reads a symbol of a comdat.
 *
 * @par Errors
 * `LEADING_BYTE` with `PULLEYNAVY_LEAD_COMDAT_SYMBOL` at a kind above 5; `UNEXPECTED_EOF`; and the faults of
 * `pulleynavy_read_number`.
 *
 * (Tool conventions, Linking, COMDAT Subsection.)
 */
pulleynavy_comdat_symbol pulleynavy_read_comdat_symbol(
    const uint8_t *bytes, size_t bytes_size, uint64_t offset, uint32_t features);

/**
 * Stores the next symbols of a comdat in `out`, and returns their number.
 *
 * @par Errors
 * An item has the faults of `pulleynavy_read_comdat_symbol`; the last one `SIZE_MISMATCH` if bytes follow the list.
 */
size_t pulleynavy_next_comdat_symbols(
    pulleynavy_items *items, const uint8_t *bytes, size_t bytes_size, pulleynavy_comdat_symbol *out, size_t out_count);

/** A symbol of the symbol table, or a fault. */
typedef struct pulleynavy_symbol {
    /** The fault of the item, of kind 0 if there is none. */
    pulleynavy_fault fault;
    /** The size of the item in bytes, 0 after a fault. */
    size_t consumed;
    /** The name of the symbol, which is UTF-8, if `has_name` is 1. */
    pulleynavy_span name;
    /** The kind, a `pulleynavy_symbol_kind`: 0 a function, 1 data, 2 a global, 3 a section, 4 an event, 5 a table. */
    uint32_t kind;
    /** The flags, `pulleynavy_symbol_flags`. Unknown bits are kept. */
    uint32_t flags;
    /** The index of the function, global, section, event or table, or of the data segment of a defined data symbol. */
    uint32_t index;
    /** 1 if the name is encoded, or 0. An undefined symbol without a name has that of its import. */
    uint32_t has_name;
    /** 1 for a data symbol that is defined in this module, otherwise 0. */
    uint32_t is_defined;
    /** The offset of the data, in bytes from the start of the segment, if `is_defined` is 1. */
    uint32_t data_offset;
    /** The size of the data in bytes, if `is_defined` is 1. */
    uint32_t data_size;
} pulleynavy_symbol;

/**
 * Reads the version at the start of the data of a section `linking`, which has to be 2. The subsections follow.
 *
 * @par Errors
 * `LINKING_VERSION` at the version, which is the number of the fault, if it is not 2; and the faults of
 * `pulleynavy_read_number`.
 *
 * @code{.c}
 * // Version 2, and a subsection with the function symbol 4 to call at startup.
 * const uint8_t data[] = {2, 6, 3, 1, 10, 4};
 * pulleynavy_number version = pulleynavy_read_linking_version(data, sizeof data, 0, PULLEYNAVY_ALL_FEATURES);
 * assert(version.value == 2);
 * pulleynavy_items items = pulleynavy_list_init(version.consumed, 0, PULLEYNAVY_ALL_FEATURES);
 * pulleynavy_subsection part;
 * assert(pulleynavy_next_subsections(&items, data + 1, sizeof data - 1, &part, 1) == 1);
 * assert(part.id == PULLEYNAVY_LINKING_INIT_FUNCS && part.contents.size == 3);
 * @endcode
 *
 * (Tool conventions, Linking, Linking Metadata Section.)
 */
pulleynavy_number pulleynavy_read_linking_version(
    const uint8_t *bytes, size_t bytes_size, uint64_t offset, uint32_t features);

/**
 * Reads a symbol of subsection 8 of the section `linking`, whose content is a count and as many symbols.
 *
 * @par Errors
 * `LEADING_BYTE` with `PULLEYNAVY_LEAD_SYMBOL` at a kind above 5, if the flags after it can be read; `UNEXPECTED_EOF`; and
 * the faults of `pulleynavy_read_number` and `pulleynavy_read_text`.
 *
 * (Tool conventions, Linking, Symbol Table Subsection.)
 */
pulleynavy_symbol pulleynavy_read_symbol(const uint8_t *bytes, size_t bytes_size, uint64_t offset, uint32_t features);

/**
 * Stores the next symbols of a list in `out`, and returns their number.
 *
 * @par Errors
 * An item has the faults of `pulleynavy_read_symbol`; the last one `SIZE_MISMATCH` if bytes follow the list.
 */
size_t pulleynavy_next_symbols(
    pulleynavy_items *items, const uint8_t *bytes, size_t bytes_size, pulleynavy_symbol *out, size_t out_count);

/** A feature of WebAssembly and how a module uses it, or a fault. */
typedef struct pulleynavy_target_feature {
    /** The fault of the item, of kind 0 if there is none. */
    pulleynavy_fault fault;
    /** The size of the item in bytes, 0 after a fault. */
    size_t consumed;
    /** The name of the feature, which is UTF-8. */
    pulleynavy_span name;
    /**
     * The byte `+` if the module uses the feature, `-` if no module that uses it may be linked with this one. Other bytes are
     * returned too.
     */
    uint32_t prefix;
} pulleynavy_target_feature;

/**
 * Reads a feature of a `target_features` section: a byte that says how the module uses it, and its name.
 *
 * @par Errors
 * `UNEXPECTED_EOF` if the byte is missing, and the faults of `pulleynavy_read_text`.
 *
 * @code{.c}
 * const uint8_t bytes[] = {'+', 8, 's', 'i', 'g', 'n', '-', 'e', 'x', 't'};
 * pulleynavy_target_feature feature = pulleynavy_read_target_feature(bytes, sizeof bytes, 0, PULLEYNAVY_ALL_FEATURES);
 * assert(feature.prefix == '+' && feature.name.at == 2 && feature.name.size == 8);
 * @endcode
 *
 * (Tool conventions, Linking, Target Features Section.)
 */
pulleynavy_target_feature pulleynavy_read_target_feature(
    const uint8_t *bytes, size_t bytes_size, uint64_t offset, uint32_t features);

/**
 * Stores the next features of a `target_features` section in `out`, and returns their number. The data of the section begins with
 * their count: pass it to `pulleynavy_items_init`.
 *
 * @par Errors
 * An item has the faults of `pulleynavy_read_target_feature`; the last one `SIZE_MISMATCH` if bytes follow the list.
 */
size_t pulleynavy_next_target_features(
    pulleynavy_items *items, const uint8_t *bytes, size_t bytes_size, pulleynavy_target_feature *out, size_t out_count);

/** A relocation, or a fault. */
typedef struct pulleynavy_relocation {
    /** The fault of the item, of kind 0 if there is none. */
    pulleynavy_fault fault;
    /** The size of the item in bytes, 0 after a fault. */
    size_t consumed;
    /** The type, a `pulleynavy_relocation_kind` from 0 to 26. */
    uint32_t kind;
    /** The number of bytes that the relocation fills in: 4, 5, 8 or 10. */
    uint32_t extent;
    /** The offset of these bytes, in bytes from the start of the relocated section's content. */
    uint32_t offset;
    /** The index of the symbol, or of the type for `TYPE_INDEX_LEB`. */
    uint32_t index;
    /** The addend, which is added to the value of the symbol; 0 if the type has none. */
    int64_t addend;
} pulleynavy_relocation;

/**
 * Reads a relocation.
 *
 * The data of a section `reloc.*` is the index of the relocated section, the count of relocations, and the relocations.
 * `pulleynavy_read_number` reads the first two.
 *
 * @par Errors
 * `LEADING_BYTE` with `PULLEYNAVY_LEAD_RELOC` at a type above 26; `UNEXPECTED_EOF`; and the faults of
 * `pulleynavy_read_number`, `pulleynavy_read_s32` and `pulleynavy_read_s64`.
 *
 * @code{.c}
 * // The address of symbol 2 plus 8, at offset 6.
 * const uint8_t bytes[] = {3, 6, 2, 8};
 * pulleynavy_relocation item = pulleynavy_read_relocation(bytes, 4, 0, PULLEYNAVY_ALL_FEATURES);
 * assert(item.kind == PULLEYNAVY_RELOCATION_MEMORY_ADDR_LEB && item.offset == 6 && item.extent == 5 && item.addend == 8);
 * @endcode
 *
 * (Tool conventions, Linking, Relocation Sections.)
 */
pulleynavy_relocation pulleynavy_read_relocation(
    const uint8_t *bytes, size_t bytes_size, uint64_t offset, uint32_t features);

/**
 * Stores the next relocations of a list in `out`, and returns their number.
 *
 * @par Errors
 * An item has the faults of `pulleynavy_read_relocation`; the last one `SIZE_MISMATCH` if bytes follow the list.
 */
size_t pulleynavy_next_relocations(
    pulleynavy_items *items, const uint8_t *bytes, size_t bytes_size, pulleynavy_relocation *out, size_t out_count);

/** The name of the process of a core dump, or a fault. */
typedef struct pulleynavy_core_process {
    /** The fault of the item, of kind 0 if there is none. */
    pulleynavy_fault fault;
    /** The size of the item in bytes, 0 after a fault. */
    size_t consumed;
    /** The name, which is UTF-8. */
    pulleynavy_span name;
} pulleynavy_core_process;

/** The name of a module of a core dump, or a fault. */
typedef struct pulleynavy_core_module {
    /** The fault of the item, of kind 0 if there is none. */
    pulleynavy_fault fault;
    /** The size of the item in bytes, 0 after a fault. */
    size_t consumed;
    /** The name, which is UTF-8. */
    pulleynavy_span name;
} pulleynavy_core_module;

/** The head of an instance of a core dump, or a fault. The indices of its memories and globals follow. */
typedef struct pulleynavy_core_instance {
    /** The fault of the item, of kind 0 if there is none. */
    pulleynavy_fault fault;
    /** The size of the item in bytes, 0 after a fault. */
    size_t consumed;
    /** The index of the module in the section `coremodules`. */
    uint32_t module_index;
} pulleynavy_core_instance;

/** The name of a thread of a core dump, or a fault. */
typedef struct pulleynavy_core_thread {
    /** The fault of the item, of kind 0 if there is none. */
    pulleynavy_fault fault;
    /** The size of the item in bytes, 0 after a fault. */
    size_t consumed;
    /** The name, which is UTF-8. */
    pulleynavy_span name;
} pulleynavy_core_thread;

/** The head of a frame of a core dump, or a fault. The values of its locals and stack follow. */
typedef struct pulleynavy_core_frame {
    /** The fault of the item, of kind 0 if there is none. */
    pulleynavy_fault fault;
    /** The size of the item in bytes, 0 after a fault. */
    size_t consumed;
    /** The index of the instance in the section `coreinstances`. */
    uint32_t instance;
    /** The index of the function in the module of the instance. */
    uint32_t func;
    /** The offset of the instruction, in bytes from the start of the function's body. */
    uint32_t code_offset;
} pulleynavy_core_frame;

/** A value of a local or on the stack of a frame, or a fault. */
typedef struct pulleynavy_core_value {
    /** The fault of the item, of kind 0 if there is none. */
    pulleynavy_fault fault;
    /** The size of the item in bytes, 0 after a fault. */
    size_t consumed;
    /**
     * The kind, a `pulleynavy_core_value_kind`: 0 missing, 1 a 32-bit integer, 2 a 64-bit integer, 3 a 32-bit float, 4 a 64-bit
     * float.
     */
    uint32_t kind;
    /** The integer, or 0. */
    int64_t integer;
    /** The bits of the float, or 0. */
    uint64_t bits;
} pulleynavy_core_value;

/**
 * Reads the data of a section `core`: a byte 0 and the name of the process. `pulleynavy_check_custom_end` checks the bytes after it.
 *
 * @par Errors
 * `CORE_START_BYTE` with `PULLEYNAVY_CORE_START_NAME` at another first byte; `UNEXPECTED_EOF`; and the faults of
 * `pulleynavy_read_text`.
 *
 * @code{.c}
 * const uint8_t data[] = {0, 3, 'a', 'p', 'p'};
 * pulleynavy_core_process process = pulleynavy_read_core_process(data, sizeof data, 0, PULLEYNAVY_ALL_FEATURES);
 * size_t at = process.consumed;
 * assert(process.name.at == 2 && process.name.size == 3);
 * assert(!pulleynavy_check_custom_end(data + at, sizeof data - at, at).kind);
 * @endcode
 *
 * (Tool conventions, Coredump, Process Information.)
 */
pulleynavy_core_process pulleynavy_read_core_process(
    const uint8_t *bytes, size_t bytes_size, uint64_t offset, uint32_t features);

/**
 * Reads a module of a section `coremodules`, whose data is a count and as many modules: a byte 0 and a name.
 *
 * `data_offset` is the offset of the section's data.
 *
 * @par Errors
 * `CORE_START_BYTE` with `PULLEYNAVY_CORE_START_MODULE` if the first byte is another one. Its offset is `data_offset`,
 * whichever module it is. `UNEXPECTED_EOF`, and the faults of `pulleynavy_read_text`.
 *
 * (Tool conventions, Coredump, Modules and Instances.)
 */
pulleynavy_core_module pulleynavy_read_core_module(
    const uint8_t *bytes, size_t bytes_size, uint64_t offset, uint32_t features, uint64_t data_offset);

/**
 * Reads the head of an instance of a section `coreinstances`, whose data is a count and as many instances.
 *
 * A count of memories and as many indices follow, each read by `pulleynavy_read_number`, then a count of globals and as many indices.
 *
 * @par Errors
 * `CORE_START_BYTE` with `PULLEYNAVY_CORE_START_INSTANCE` at a first byte other than 0; `UNEXPECTED_EOF`; and the faults of
 * `pulleynavy_read_number`.
 *
 * (Tool conventions, Coredump, Modules and Instances.)
 */
pulleynavy_core_instance pulleynavy_read_core_instance(
    const uint8_t *bytes, size_t bytes_size, uint64_t offset, uint32_t features);

/**
 * Reads the start of the data of a section `corestack`: a byte 0 and the name of the thread. A count and as many frames follow.
 *
 * @par Errors
 * `CORE_START_BYTE` with `PULLEYNAVY_CORE_START_STACK_NAME` at another first byte; `UNEXPECTED_EOF`; and the faults of
 * `pulleynavy_read_text`.
 *
 * (Tool conventions, Coredump, Thread(s) and Stack Frames.)
 */
pulleynavy_core_thread pulleynavy_read_core_thread(
    const uint8_t *bytes, size_t bytes_size, uint64_t offset, uint32_t features);

/**
 * Reads the head of a frame.
 *
 * A count of locals follows, read by `pulleynavy_read_number`, and as many values, each read by `pulleynavy_read_core_value`; then a
 * count of values on the stack, and these.
 *
 * @par Errors
 * `CORE_START_BYTE` with `PULLEYNAVY_CORE_START_FRAME` at a first byte other than 0; `UNEXPECTED_EOF`; and the faults of
 * `pulleynavy_read_number`.
 *
 * (Tool conventions, Coredump, Thread(s) and Stack Frames.)
 */
pulleynavy_core_frame pulleynavy_read_core_frame(
    const uint8_t *bytes, size_t bytes_size, uint64_t offset, uint32_t features);

/**
 * Reads a value of a local or on the stack of a frame.
 *
 * @par Errors
 * `CORE_VALUE` at a first byte that is no kind of values; `UNEXPECTED_EOF`; and the faults of `pulleynavy_read_s32` and
 * `pulleynavy_read_s64`.
 *
 * (Tool conventions, Coredump, Thread(s) and Stack Frames.)
 */
pulleynavy_core_value pulleynavy_read_core_value(
    const uint8_t *bytes, size_t bytes_size, uint64_t offset, uint32_t features);

/**
 * Stores the next values of a list in `out`, and returns their number.
 *
 * @par Errors
 * An item has the faults of `pulleynavy_read_core_value`; the last one `SIZE_MISMATCH` if bytes follow the list.
 */
size_t pulleynavy_next_core_values(
    pulleynavy_items *items, const uint8_t *bytes, size_t bytes_size, pulleynavy_core_value *out, size_t out_count);

/**
 * Returns the kind of a custom section with this name, a `pulleynavy_custom_kind`.
 *
 * It is 0 for another name, 1 for `name`, 2 for `metadata.code.branch_hint`, 3 for `producers`, 4 for `dylink.0`, 5 for `linking`, 6
 * for a name that begins with `reloc.`, 7 for `core`, 8 for `coremodules`, 9 for `coreinstances`, 10 for `corestack`. The name of a
 * section is the `name_size` bytes before the data.
 *
 * @code{.c}
 * const uint8_t bytes[] = {0, 'a', 's', 'm', 1, 0, 0, 0, 0, 5, 4, 'n', 'a', 'm', 'e'};
 * pulleynavy_parser parser = pulleynavy_parser_init(0, PULLEYNAVY_ALL_FEATURES);
 * const uint8_t *rest = bytes + pulleynavy_parse(&parser, bytes, sizeof bytes, true).consumed;
 * pulleynavy_event event = pulleynavy_parse(&parser, rest, 7, true);
 * const uint8_t *data = rest + event.at + (event.data_offset - event.start);
 * assert(pulleynavy_classify_custom(data - event.name_size, event.name_size) == PULLEYNAVY_CUSTOM_NAME);
 * @endcode
 *
 * (Core specification, Appendix, Custom Sections; tool conventions.)
 */
uint32_t pulleynavy_classify_custom(const uint8_t *name, size_t name_size);

/**
 * Checks that no bytes remain after the last part of a core dump's section.
 *
 * `left` are the bytes after that part, which begin at `offset` of the stream.
 *
 * @par Errors
 * `CUSTOM_TRAILING` at `offset`, if there are any bytes.
 *
 * (Tool conventions, Coredump.)
 */
pulleynavy_fault pulleynavy_check_custom_end(const uint8_t *left, size_t left_size, uint64_t offset);

/**
 * Checks that no bytes remain after the name of the module, in subsection 0 of the section `name`.
 *
 * `left` are the bytes of the subsection after the name, which begin at `offset` of the stream.
 *
 * @par Errors
 * `NAME_TRAILING` at `offset`, if there are any bytes.
 *
 * @code{.c}
 * const uint8_t contents[] = {3, 'a', 'p', 'p', 0};
 * pulleynavy_name name = pulleynavy_read_name(contents, sizeof contents, 0, PULLEYNAVY_ALL_FEATURES);
 * size_t at = name.consumed;
 * pulleynavy_fault fault = pulleynavy_check_name_end(contents + at, sizeof contents - at, at);
 * assert(fault.kind == PULLEYNAVY_FAULT_NAME_TRAILING && fault.offset == 4);
 * @endcode
 *
 * (Core specification, Appendix, Custom Sections, Name Section, Module Names.)
 */
pulleynavy_fault pulleynavy_check_name_end(const uint8_t *left, size_t left_size, uint64_t offset);

/** The result of stripping a stream: its size, or a fault. */
typedef struct pulleynavy_stripped {
    /** The fault at which the stream stops, of kind 0 if there is none. */
    pulleynavy_fault fault;
    /** The size of the stripped stream in bytes, 0 after a fault. */
    size_t size;
} pulleynavy_stripped;

/**
 * Removes the custom sections from a whole stream, in place. With `keep_names` the sections named `name` stay.
 *
 * The first `size` bytes are then the stripped stream, and the bytes after them are unspecified. The stream begins at offset 0.
 *
 * @par Errors
 * The fault at which the stream stops, as `pulleynavy_parse` returns it. The size is then 0, and the bytes are unchanged.
 *
 * @code{.c}
 * uint8_t bytes[] = {0, 'a', 's', 'm', 1, 0, 0, 0, 0, 2, 1, 'a', 1, 1, 0};
 * pulleynavy_stripped stripped = pulleynavy_strip(bytes, sizeof bytes, false);
 * assert(stripped.fault.kind == 0 && stripped.size == 11 && bytes[8] == PULLEYNAVY_SECTION_TYPE);
 * @endcode
 *
 * (Core specification, Binary format, Modules, Custom Section.)
 */
pulleynavy_stripped pulleynavy_strip(uint8_t *bytes, size_t bytes_size, bool keep_names);

/** The result of an edit. */
typedef struct pulleynavy_edited {
    /** The fault at which the stream stops, of kind 0 if there is none. */
    pulleynavy_fault fault;
    /** The size of the edited stream in bytes, also if `out` has no room for it. 0 if there is no edited stream. */
    size_t size;
    /** A `pulleynavy_edit_status`: 0 if the edited stream was written, otherwise why it was not. */
    uint32_t status;
} pulleynavy_edited;

/**
 * Writes a custom section to `out`, with its id and its length, and returns its size in bytes.
 *
 * The name has at most 100,000 bytes of UTF-8, and the content, which is the name with its size and the data, less than 2^32. Numbers
 * have as few bytes as possible. If `out` is shorter than the section, nothing is written.
 *
 * @par Errors
 * It returns 0, and writes nothing, if the name is not UTF-8, or the name or the content is too large.
 *
 * @code{.c}
 * uint8_t out[16];
 * const uint8_t data[] = {'x', 'y', 'z'};
 * size_t size = pulleynavy_encode_custom((const uint8_t *)"a", 1, data, sizeof data, out, sizeof out);
 * assert(size == 7 && !memcmp(out, "\0\5\1axyz", size));
 * assert(pulleynavy_encode_custom((const uint8_t *)"\xff", 1, data, 0, out, sizeof out) == 0);
 * @endcode
 *
 * (Core specification, Binary format, Modules, Custom Section.)
 */
size_t pulleynavy_encode_custom(
    const uint8_t *name, size_t name_size, const uint8_t *data, size_t data_size, uint8_t *out, size_t out_size);

/**
 * Edits the custom sections of a whole stream, and writes the edited stream to `out`.
 *
 * The kind of the edit is a `pulleynavy_edit_kind`:
 * - `PULLEYNAVY_EDIT_APPEND` appends a custom section with this name and this data.
 * - `PULLEYNAVY_EDIT_REPLACE` replaces each custom section with this name, in its place.
 * - `PULLEYNAVY_EDIT_REMOVE` removes each custom section with this name. The data is ignored.
 * - `PULLEYNAVY_EDIT_KEEP` removes the custom sections with other names. If the name ends with `*`, the sections stay whose names
 *   begin with the bytes before the `*`. The data is ignored.
 *
 * The other sections keep their bytes and their order. The stream begins at offset 0. For several edits, call once for each, and pass
 * the bytes that the last call wrote. If `out` is shorter than the edited stream, nothing is written, and the status is
 * `PULLEYNAVY_EDIT_STATUS_NO_ROOM`: allocate `size` bytes, and call again.
 *
 * @par Errors
 * The status says why nothing was written. For `PULLEYNAVY_EDIT_STATUS_MALFORMED` the fault is that at which the stream
 * stops, as `pulleynavy_parse` returns it. The name of every edit must be UTF-8, and a new section must be one that
 * `pulleynavy_encode_custom` can write.
 *
 * @code{.c}
 * const uint8_t bytes[] = {0, 'a', 's', 'm', 1, 0, 0, 0, 0, 2, 1, 'a', 1, 1, 0}, data[] = {'z'};
 * uint8_t out[16];
 * pulleynavy_edited edited = pulleynavy_edit(
 *     bytes, sizeof bytes, PULLEYNAVY_EDIT_REPLACE, (const uint8_t *)"a", 1, data, 1, out, sizeof out);
 * assert(edited.status == PULLEYNAVY_EDIT_STATUS_DONE && edited.size == 16);
 * assert(!memcmp(out + 8, "\0\3\1az\1\1\0", 8));
 * @endcode
 *
 * (Core specification, Binary format, Modules, Custom Section.)
 */
pulleynavy_edited pulleynavy_edit(
    const uint8_t *bytes, size_t bytes_size, uint32_t kind, const uint8_t *name, size_t name_size,
    const uint8_t *data, size_t data_size, uint8_t *out, size_t out_size);

/** For the checks of layouts below. */
#if defined(__cplusplus) && (__cplusplus >= 201103L || defined(_MSC_VER))
#define PULLEYNAVY_ASSERT static_assert
#elif !defined(__cplusplus) && defined(__STDC_VERSION__) && __STDC_VERSION__ >= 201112L
#define PULLEYNAVY_ASSERT _Static_assert
#endif
#ifdef PULLEYNAVY_ASSERT
PULLEYNAVY_ASSERT(sizeof(pulleynavy_fault) == 24 && offsetof(pulleynavy_fault, offset) == 16, "layout");
PULLEYNAVY_ASSERT(sizeof(pulleynavy_event) == 96 && offsetof(pulleynavy_event, fault) == 72, "layout");
PULLEYNAVY_ASSERT(sizeof(pulleynavy_parser) == 48 && offsetof(pulleynavy_parser, in_code) == 43, "layout");
PULLEYNAVY_ASSERT(sizeof(pulleynavy_feed) == 72 && offsetof(pulleynavy_feed, is_finished) == 64, "layout");
PULLEYNAVY_ASSERT(sizeof(pulleynavy_items) == 32 && offsetof(pulleynavy_items, is_ended) == 29, "layout");
PULLEYNAVY_ASSERT(sizeof(pulleynavy_span) == 16 && offsetof(pulleynavy_span, size) == 8, "layout");
PULLEYNAVY_ASSERT(sizeof(pulleynavy_number) == 40 && offsetof(pulleynavy_number, value) == 32, "layout");
PULLEYNAVY_ASSERT(sizeof(pulleynavy_signed) == 40 && offsetof(pulleynavy_signed, value) == 32, "layout");
PULLEYNAVY_ASSERT(sizeof(pulleynavy_type) == 16 && offsetof(pulleynavy_type, index) == 12, "layout");
PULLEYNAVY_ASSERT(sizeof(pulleynavy_value) == 48 && offsetof(pulleynavy_value, ty) == 32, "layout");
PULLEYNAVY_ASSERT(sizeof(pulleynavy_field) == 56 && offsetof(pulleynavy_field, is_mutable) == 48, "layout");
PULLEYNAVY_ASSERT(sizeof(pulleynavy_type_group) == 40 && offsetof(pulleynavy_type_group, count) == 36, "layout");
PULLEYNAVY_ASSERT(sizeof(pulleynavy_subtype) == 56 && offsetof(pulleynavy_subtype, count) == 48, "layout");
PULLEYNAVY_ASSERT(sizeof(pulleynavy_table_type) == 48 && offsetof(pulleynavy_table_type, maximum) == 40, "layout");
PULLEYNAVY_ASSERT(sizeof(pulleynavy_memory_type) == 40 && offsetof(pulleynavy_memory_type, maximum) == 32, "layout");
PULLEYNAVY_ASSERT(sizeof(pulleynavy_global_type) == 24 && offsetof(pulleynavy_global_type, shared) == 20, "layout");
PULLEYNAVY_ASSERT(sizeof(pulleynavy_table) == 104 && offsetof(pulleynavy_table, has_init) == 96, "layout");
PULLEYNAVY_ASSERT(sizeof(pulleynavy_memory) == 72 && offsetof(pulleynavy_memory, ty) == 32, "layout");
PULLEYNAVY_ASSERT(sizeof(pulleynavy_tag) == 40 && offsetof(pulleynavy_tag, func_type_index) == 32, "layout");
PULLEYNAVY_ASSERT(sizeof(pulleynavy_global) == 72 && offsetof(pulleynavy_global, init) == 56, "layout");
PULLEYNAVY_ASSERT(sizeof(pulleynavy_import_type) == 120 && offsetof(pulleynavy_import_type, global) == 96, "layout");
PULLEYNAVY_ASSERT(sizeof(pulleynavy_import) == 208 && offsetof(pulleynavy_import, count) == 204, "layout");
PULLEYNAVY_ASSERT(sizeof(pulleynavy_import_item) == 168 && offsetof(pulleynavy_import_item, ty) == 48, "layout");
PULLEYNAVY_ASSERT(sizeof(pulleynavy_name) == 48 && offsetof(pulleynavy_name, name) == 32, "layout");
PULLEYNAVY_ASSERT(sizeof(pulleynavy_imports) == 272 && offsetof(pulleynavy_imports, bundle) == 64, "layout");
PULLEYNAVY_ASSERT(sizeof(pulleynavy_export) == 56 && offsetof(pulleynavy_export, index) == 52, "layout");
PULLEYNAVY_ASSERT(sizeof(pulleynavy_instruction) == 80 && offsetof(pulleynavy_instruction, bytes) == 64, "layout");
PULLEYNAVY_ASSERT(sizeof(pulleynavy_expression) == 32 && offsetof(pulleynavy_expression, consumed) == 24, "layout");
PULLEYNAVY_ASSERT(sizeof(pulleynavy_element) == 104 && offsetof(pulleynavy_element, count) == 96, "layout");
PULLEYNAVY_ASSERT(sizeof(pulleynavy_data) == 72 && offsetof(pulleynavy_data, bytes) == 56, "layout");
PULLEYNAVY_ASSERT(sizeof(pulleynavy_subsection) == 56 && offsetof(pulleynavy_subsection, contents) == 40, "layout");
PULLEYNAVY_ASSERT(sizeof(pulleynavy_naming) == 56 && offsetof(pulleynavy_naming, name) == 40, "layout");
PULLEYNAVY_ASSERT(sizeof(pulleynavy_indirect_naming) == 56 && offsetof(pulleynavy_indirect_naming, names) == 40, "layout");
PULLEYNAVY_ASSERT(sizeof(pulleynavy_producers_field) == 72 && offsetof(pulleynavy_producers_field, values) == 56, "layout");
PULLEYNAVY_ASSERT(sizeof(pulleynavy_producers_value) == 64 && offsetof(pulleynavy_producers_value, version) == 48, "layout");
PULLEYNAVY_ASSERT(sizeof(pulleynavy_hinted_function) == 56 && offsetof(pulleynavy_hinted_function, hints) == 40, "layout");
PULLEYNAVY_ASSERT(sizeof(pulleynavy_branch_hint) == 40 && offsetof(pulleynavy_branch_hint, taken) == 36, "layout");
PULLEYNAVY_ASSERT(sizeof(pulleynavy_dylink_memory) == 48 && offsetof(pulleynavy_dylink_memory, table_alignment) == 44, "layout");
PULLEYNAVY_ASSERT(sizeof(pulleynavy_dylink_export) == 56 && offsetof(pulleynavy_dylink_export, flags) == 48, "layout");
PULLEYNAVY_ASSERT(sizeof(pulleynavy_dylink_import) == 72 && offsetof(pulleynavy_dylink_import, flags) == 64, "layout");
PULLEYNAVY_ASSERT(sizeof(pulleynavy_linking_segment) == 56 && offsetof(pulleynavy_linking_segment, flags) == 52, "layout");
PULLEYNAVY_ASSERT(sizeof(pulleynavy_init_function) == 40 && offsetof(pulleynavy_init_function, symbol) == 36, "layout");
PULLEYNAVY_ASSERT(sizeof(pulleynavy_comdat) == 72 && offsetof(pulleynavy_comdat, symbols) == 56, "layout");
PULLEYNAVY_ASSERT(sizeof(pulleynavy_comdat_symbol) == 40 && offsetof(pulleynavy_comdat_symbol, index) == 36, "layout");
PULLEYNAVY_ASSERT(sizeof(pulleynavy_symbol) == 80 && offsetof(pulleynavy_symbol, data_size) == 72, "layout");
PULLEYNAVY_ASSERT(sizeof(pulleynavy_target_feature) == 56 && offsetof(pulleynavy_target_feature, prefix) == 48, "layout");
PULLEYNAVY_ASSERT(sizeof(pulleynavy_relocation) == 56 && offsetof(pulleynavy_relocation, addend) == 48, "layout");
PULLEYNAVY_ASSERT(sizeof(pulleynavy_core_process) == 48 && offsetof(pulleynavy_core_process, name) == 32, "layout");
PULLEYNAVY_ASSERT(sizeof(pulleynavy_core_module) == 48 && offsetof(pulleynavy_core_module, name) == 32, "layout");
PULLEYNAVY_ASSERT(sizeof(pulleynavy_core_instance) == 40 && offsetof(pulleynavy_core_instance, module_index) == 32, "layout");
PULLEYNAVY_ASSERT(sizeof(pulleynavy_core_thread) == 48 && offsetof(pulleynavy_core_thread, name) == 32, "layout");
PULLEYNAVY_ASSERT(sizeof(pulleynavy_core_frame) == 48 && offsetof(pulleynavy_core_frame, code_offset) == 40, "layout");
PULLEYNAVY_ASSERT(sizeof(pulleynavy_core_value) == 56 && offsetof(pulleynavy_core_value, bits) == 48, "layout");
PULLEYNAVY_ASSERT(sizeof(pulleynavy_stripped) == 32 && offsetof(pulleynavy_stripped, size) == 24, "layout");
PULLEYNAVY_ASSERT(sizeof(pulleynavy_edited) == 40 && offsetof(pulleynavy_edited, status) == 32, "layout");
#undef PULLEYNAVY_ASSERT
#endif
#ifdef __cplusplus
}
#endif
#ifdef PULLEYNAVY_POP
#pragma clang diagnostic pop
#undef PULLEYNAVY_POP
#endif
#endif
