/* The shortest program that writes the items of tools/cargo/examples/writing.rs: whether one fits, how many bytes it has, and its bytes. */
#include <stdint.h>
#include <stdio.h>
#include <stdlib.h>
#include <string.h>

struct text {
    const char *at;
    size_t size;
};
struct import {
    struct text module, name;
    uint32_t type;
};
struct export {
    struct text name;
    uint8_t kind;
    uint32_t index;
};
struct type {
    size_t params, results;
    uint8_t param[2], result[1];
};

static size_t number_len(uint64_t n) {
    size_t size = 1;
    while (n >= 128) n >>= 7, size++;
    return size;
}

static uint8_t *number(uint8_t *p, uint64_t n) {
    for (; n >= 128; n >>= 7) *p++ = (uint8_t)n | 128;
    *p = (uint8_t)n;
    return p + 1;
}

static int fits(struct text t) { return t.size <= 100000; }

static size_t text_len(struct text t) { return number_len(t.size) + t.size; }

static uint8_t *text(uint8_t *p, struct text t) {
    p = number(p, t.size);
    memcpy(p, t.at, t.size);
    return p + t.size;
}

static size_t write_name(const struct text *t, uint8_t *bytes, size_t room) {
    if (!fits(*t) || text_len(*t) > room) abort();
    return text(bytes, *t) - bytes;
}

static size_t write_import(const struct import *x, uint8_t *bytes, size_t room) {
    if (!fits(x->module) || !fits(x->name) || text_len(x->module) + text_len(x->name) + 1 + number_len(x->type) > room) abort();
    uint8_t *p = text(text(bytes, x->module), x->name);
    *p++ = 0;
    return number(p, x->type) - bytes;
}

static size_t write_export(const struct export *x, uint8_t *bytes, size_t room) {
    if (!fits(x->name) || text_len(x->name) + 1 + number_len(x->index) > room) abort();
    uint8_t *p = text(bytes, x->name);
    *p++ = x->kind;
    return number(p, x->index) - bytes;
}

static size_t write_type(const struct type *x, uint8_t *bytes, size_t room) {
    if (1 + number_len(x->params) + x->params + number_len(x->results) + x->results > room) abort();
    uint8_t *p = bytes;
    *p++ = 0x60;
    p = number(p, x->params);
    for (size_t i = 0; i < x->params; i++) *p++ = x->param[i];
    p = number(p, x->results);
    for (size_t i = 0; i < x->results; i++) *p++ = x->result[i];
    return p - bytes;
}

/* A pointer that the compiler knows nothing of. */
static const void *hidden(const void *p) {
    __asm__ volatile("" : "+r"(p) : : "memory");
    return p;
}

int main(int argc, char **argv) {
    static const struct text name = {"a_function_name", 15};
    static const struct import import = {{"env_module", 10}, {"function", 8}, 3};
    static const struct export export = {{"a_function_name", 15}, 0, 3};
    static const struct type type = {2, 1, {0x7f, 0x7e}, {0x7f}};
    uint8_t bytes[64];
    size_t size = 0;
    if (argc < 3) return 2;
    for (long left = atol(argv[2]); left > 0; left--) {
        switch (*argv[1]) {
        case 'i': size = write_import(hidden(&import), bytes, sizeof bytes); break;
        case 'e': size = write_export(hidden(&export), bytes, sizeof bytes); break;
        case 't': size = write_type(hidden(&type), bytes, sizeof bytes); break;
        default: size = write_name(hidden(&name), bytes, sizeof bytes);
        }
        hidden(bytes);
    }
    printf("%zu\n", size);
}
