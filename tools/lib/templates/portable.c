/* SPDX-License-Identifier: Apache-2.0 OR MIT */
/* The calls of pulleynavy.h over the C that wasm2c made. Written by tools/portable_c. */
#include "module.h"
#include "pulleynavy_portable.h"
#include <stdlib.h>
#include <string.h>

/* The memory of the module: its own bytes, the input that is held, and what a call is given. */
static Z_pulleynavy_instance_t instance;
static wasm_rt_memory_t *memory;
static uint64_t base;
static const uint8_t *held;
static uint64_t held_size;

static uint64_t aligned(uint64_t size) { return (size + 15) / 16 * 16; }

static void begin(void) {
    if (memory) return;
    wasm_rt_init();
    Z_pulleynavy_init_module();
    Z_pulleynavy_instantiate(&instance);
    memory = Z_pulleynavyZ_memory(&instance);
    base = aligned(*Z_pulleynavyZ___heap_base(&instance));
}

static bool reserve(uint64_t end) {
    uint64_t more = end > memory->size ? (end - memory->size + 65535) / 65536 : 0;
    return !more || (more <= 65536 && wasm_rt_grow_memory(memory, (uint32_t)more) != 0xffffffffu);
}

bool pulleynavy_hold(const uint8_t *bytes, size_t bytes_size) {
    begin();
    held = NULL, held_size = 0;
    if (!reserve(base + aligned(bytes_size))) return false;
    if (bytes_size) memcpy(memory->data + base, bytes, bytes_size);
    held = bytes, held_size = bytes_size;
    return true;
}

void pulleynavy_release(void) { held = NULL, held_size = 0; }

/* Where a call of this size has its arguments. */
static uint64_t room(uint64_t size) {
    begin();
    uint64_t at = base + aligned(held_size);
    if (!reserve(at + size)) abort();
    return at;
}

/* Whether the input that is held has these bytes. */
static bool is_held(const uint8_t *bytes, uint64_t size) {
    uintptr_t at = (uintptr_t)bytes, start = (uintptr_t)held;
    return held && at >= start && at - start <= held_size && size <= held_size - (at - start);
}

/* How many bytes a call copies of these. */
static uint64_t copied(const uint8_t *bytes, uint64_t size) { return is_held(bytes, size) ? 0 : aligned(size); }

/* Puts bytes at an address, and returns the address that they have. */
static uint64_t put(uint64_t at, const uint8_t *bytes, uint64_t size) {
    if (is_held(bytes, size)) return base + (uint64_t)(bytes - held);
    if (size) memcpy(memory->data + at, bytes, size);
    return at;
}
