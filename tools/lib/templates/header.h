/* SPDX-License-Identifier: Apache-2.0 OR MIT */
/**
 * @file
 * @brief Pulleynavy: a streaming parser for WebAssembly modules, for C and C++. Written by tools/generate header from the sources of wasm_c.
 *
 * Link libpulleynavy.a, or the shared library, and nothing else: `pkg-config --cflags --libs pulleynavy` prints the options. No call
 * allocates, keeps a pointer, or fails to return. docs/C.md has a table of all calls.
 *
 * @code{.c}
 * pulleynavy_parser parser = pulleynavy_parser_init(0, PULLEYNAVY_ALL_FEATURES);
 * for (size_t at = 0;;) {
 *     pulleynavy_event event = pulleynavy_parse(&parser, bytes + at, size - at, true);
 *     if (event.kind >= PULLEYNAVY_EVENT_END) return event.kind == PULLEYNAVY_EVENT_FAULT;
 *     printf("%u at %llu\n", event.id, (unsigned long long)event.start);
 *     if (event.kind == PULLEYNAVY_EVENT_SECTION && event.id == PULLEYNAVY_SECTION_EXPORT)
 *         print_exports(&event, bytes + at + event.at);
 *     at += event.consumed;
 * }
 * @endcode
 *
 * A cursor walks the items of a section, and each call stores as many as there is room for. It is passed the bytes of the section,
 * those from `start` to `end` of its event:
 *
 * @code{.c}
 * void print_exports(const pulleynavy_event *event, const uint8_t *section) {
 *     pulleynavy_items items = pulleynavy_items_init(event, PULLEYNAVY_ALL_FEATURES);
 *     pulleynavy_export out[64];
 *     for (size_t n; (n = pulleynavy_next_exports(&items, section, event->end - event->start, out, 64)) > 0;)
 *         for (size_t i = 0; i < n && !out[i].fault.kind; i++)
 *             printf("%.*s is %u\n", (int)out[i].name.size, (const char *)section + out[i].name.at, out[i].index);
 * }
 * @endcode
 *
 * For chunked input, a feeder keeps the bytes that are not consumed yet in storage of yours, as in examples/list.c:
 *
 * @code{.c}
 * pulleynavy_feed feed = pulleynavy_feed_init(0, PULLEYNAVY_ALL_FEATURES);
 * pulleynavy_event event;
 * while ((event = pulleynavy_feed_step(&feed, storage, storage_size)).kind < PULLEYNAVY_EVENT_END) {
 *     if (event.kind != PULLEYNAVY_EVENT_NEED_MORE) continue;
 *     size_t size = fread(chunk, 1, sizeof chunk, file);
 *     if (!size) pulleynavy_feed_finish(&feed);
 *     else if (!pulleynavy_feed_push(&feed, storage, storage_size, chunk, size)) return 3;
 * }
 * @endcode
 *
 * Offsets are uint64_t and count bytes from the start of the stream; sizes and positions in memory are size_t and count bytes too. A
 * span is a place in the bytes that the call is passed. Features are bits: PULLEYNAVY_FEATURE_ numbers, added.
 *
 * Faults. A struct that a call returns or stores has a field `fault`, whose kind is 0 if there is none. After a fault all other fields
 * of an item are 0, `consumed` included. The offset of a fault counts from the start of the stream. Each call names the faults that it
 * adds to these, which items have in common:
 *
 * - UNEXPECTED_EOF: the bytes end too early. Inside a number, the offset is their end; otherwise it is where the missing part, such as
 *   the bytes of a name after its size, should have started.
 * - NUMBER_TOO_LONG, NUMBER_TOO_LARGE: a LEB128 number is malformed. The offset is that of the last byte that it may take.
 * - STRING_SIZE: a name is longer than 100,000 bytes. The offset is that of the last byte of its size.
 * - MALFORMED_UTF8: a name is not UTF-8. The offset is that of its last byte.
 * - OFFSET_RANGE: the bytes end beyond the offset 2^64 - 1. The offset is that of the first byte.
 *
 * `pulleynavy_read_` calls read one item from the start of `bytes`. These are the remaining bytes of the item's section and begin at
 * `offset` of the stream; a read never looks beyond them. `consumed` is the size of the item in bytes.
 *
 * `pulleynavy_next_` calls store the next items of a list in `out` and return their number: as many as there are, or `out_count` if
 * there are more, and 0 after the end. `bytes` are those of the whole list, the same in each call, and spans count from their start.
 * An item with a fault is stored too; the list ends after it, unless the call says otherwise. If bytes follow the last item of a list
 * with a count, an item with the fault SIZE_MISMATCH at the first of them is stored last.
 *
 * What you owe each call: no pointer is null, not even with a size of 0; a pointer leads to as much as the size says; what a call
 * writes overlaps nothing else that it is given; nobody writes the bytes during a call; a `bool` is 0 or 1. Nothing else is asked:
 * any bytes are a parser, a feeder and a cursor.
 *
 * A request for more bytes and a fault leave a parser and a feeder unchanged.
 *
 * Threads: the library has no state of its own. Different threads may use different parsers, feeders and cursors at once; each of
 * them, with its storage, belongs to one thread at a time. Calls that read an item only read their arguments.
 *
 * Structs never grow: a new field means a new struct with a new name.
 *
 * Targets: Linux on x86-64 (v2), aarch64 and riscv64, Windows on x86-64 and arm64, macOS on x86-64 and arm64, FreeBSD on x86-64, and
 * WebAssembly with 32-bit and 64-bit memory; C sources for other 64-bit little-endian machines. docs/PLATFORMS.md says how each was
 * tested. Besides the proof each trusts clang or LLVM, the 32-bit module also binaryen, and the C sources also wasm2c. Only x86-64 Linux
 * has a second compiler to compare with.
 *
 * The numbers of kinds, faults and flags never change.
 */
#ifndef PULLEYNAVY_H
#define PULLEYNAVY_H
#include <stdbool.h>
#include <stddef.h>
#include <stdint.h>
#if defined(__clang__) && !defined(__cplusplus) && (!defined(__STDC_VERSION__) || __STDC_VERSION__ < 199901L)
#pragma clang diagnostic push
#pragma clang diagnostic ignored "-Wc99-extensions"
#define PULLEYNAVY_POP
#endif
#ifdef __cplusplus
extern "C" {
#endif

/**
 * The version of this header. Before 1.0.0 a new minor version may change anything; from then on a new minor version only adds
 * declarations, and a new major version may change them. Enumerators keep their numbers.
 */
#define PULLEYNAVY_VERSION_STRING "@VERSION@"
/** Its major version. */
#define PULLEYNAVY_VERSION_MAJOR @MAJOR@
/** Its minor version. */
#define PULLEYNAVY_VERSION_MINOR @MINOR@
/** Its patch. */
#define PULLEYNAVY_VERSION_PATCH @PATCH@
/** The version as a number, as `pulleynavy_version` returns it. */
#define PULLEYNAVY_VERSION_NUMBER (PULLEYNAVY_VERSION_MAJOR * 65536 + PULLEYNAVY_VERSION_MINOR * 256 + PULLEYNAVY_VERSION_PATCH)

/** The kind of a fault, a `PULLEYNAVY_FAULT_` number, from the number of the fault. */
#define PULLEYNAVY_FAULT_KIND(code) ((code) & 0xff)
/** What the bits above the kind of a fault name: a `PULLEYNAVY_NUMBER_`, `PULLEYNAVY_LEAD_` or `PULLEYNAVY_CORE_START_` number. */
#define PULLEYNAVY_FAULT_DETAIL(code) ((code) >> 8)

/** The kind of an event. */
typedef enum pulleynavy_event_kind {
    PULLEYNAVY_EVENT_NEED_MORE = 0,
    PULLEYNAVY_EVENT_VERSION = 1,
    PULLEYNAVY_EVENT_SECTION = 2,
    PULLEYNAVY_EVENT_START = 3,
    PULLEYNAVY_EVENT_DATA_COUNT = 4,
    PULLEYNAVY_EVENT_CODE = 5,
    PULLEYNAVY_EVENT_BODY = 6,
    PULLEYNAVY_EVENT_CUSTOM = 7,
    PULLEYNAVY_EVENT_UNKNOWN = 8,
    PULLEYNAVY_EVENT_END = 9,
    PULLEYNAVY_EVENT_FAULT = 10
} pulleynavy_event_kind;

/** The features of a parser, a feeder, a cursor or a reader, as bits. */
enum { PULLEYNAVY_FEATURE_MEMORY64 = 1, PULLEYNAVY_FEATURE_COMPACT_IMPORTS = 2, PULLEYNAVY_ALL_FEATURES = 3 };
@DECLARATIONS@
/** For the checks of layouts below. */
#if defined(__cplusplus) && (__cplusplus >= 201103L || defined(_MSC_VER))
#define PULLEYNAVY_ASSERT static_assert
#elif !defined(__cplusplus) && defined(__STDC_VERSION__) && __STDC_VERSION__ >= 201112L
#define PULLEYNAVY_ASSERT _Static_assert
#endif
#ifdef PULLEYNAVY_ASSERT
@LAYOUTS@#undef PULLEYNAVY_ASSERT
#endif
#ifdef __cplusplus
}
#endif
#ifdef PULLEYNAVY_POP
#pragma clang diagnostic pop
#undef PULLEYNAVY_POP
#endif
#endif
