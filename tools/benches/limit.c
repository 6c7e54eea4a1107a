/* SPDX-License-Identifier: Apache-2.0 OR MIT */
/* The ruler of tools/bench: the shortest program that does the work of a parser for a well-formed file. It checks bounds and nothing else: no
   order, no count, no unused bit, no UTF-8. So nobody would ship it.

       limit parse|items|indices|list < a.wasm    (a file, which it maps)

   It fills a struct for each event, by a call, or for each item of the sections that tools/bench makes, in place, and prints the way, how many there are and
   the size of the file. With `list` it also prints a line for each event. */
#include <stdbool.h>
#include <stdint.h>
#include <stdio.h>
#include <string.h>
#include <sys/mman.h>
#include <sys/stat.h>

#define APART __attribute__((noinline))

/* The remaining bytes, and the first one of the stream. */
struct cursor {
    const uint8_t *at, *end, *first;
};

struct event {
    uint32_t id, count;
    uint64_t start, end, data_offset;
    const uint8_t *name;
    size_t name_size;
};

/* A text is where it begins, and its size. */
struct item {
    const uint8_t *name, *module, *data;
    size_t name_size, module_size, data_size;
    uint64_t offset, index, value, flags;
    uint32_t kind, types[8], type_count, result_count;
};

/* What was read, so that no compiler leaves it out. */
static volatile uint64_t seen;

/* Most numbers have one byte. */
static inline bool number(struct cursor *c, uint64_t *out) {
    if (c->at >= c->end) return false;
    uint64_t value = *c->at++;
    if (value >= 128) {
        value -= 128;
        for (unsigned shift = 7;; shift += 7) {
            if (c->at >= c->end) return false;
            uint8_t byte = *c->at++;
            value |= (uint64_t)(byte & 127) << shift;
            if (byte < 128) break;
        }
    }
    *out = value;
    return true;
}

static inline bool text(struct cursor *c, const uint8_t **from, size_t *size) {
    uint64_t length;
    if (!number(c, &length) || length > (size_t)(c->end - c->at)) return false;
    *from = c->at, *size = (size_t)length, c->at += length;
    return true;
}

static inline bool byte(struct cursor *c, uint32_t *out) {
    if (c->at >= c->end) return false;
    *out = *c->at++;
    return true;
}

/* The next section or body: where its content lies, its count or its name. Bodies have the id 128. */
static APART bool next_event(struct cursor *c, const uint8_t **code_end, struct event *event) {
    uint64_t size, count = 0;
    struct cursor content;
    memset(event, 0, sizeof *event);
    if (c->at < *code_end) event->id = 128;
    else if (!byte(c, &event->id)) return false;
    if (!number(c, &size) || size > (size_t)(c->end - c->at)) return false;
    content = (struct cursor){c->at, c->at + size, c->first};
    event->start = (uint64_t)(c->at - c->first), event->end = event->start + size;
    if (event->id == 0) {
        if (!text(&content, &event->name, &event->name_size)) return false;
    } else if (event->id < 14 && (!number(&content, &count))) return false;
    event->count = (uint32_t)count, event->data_offset = (uint64_t)(content.at - c->first);
    if (event->id == 10) *code_end = content.end, c->at = content.at;
    else c->at = content.end;
    return true;
}

static inline bool expression(struct cursor *c, struct item *item) {
    uint32_t code;
    item->data = c->at;
    while (byte(c, &code) && code != 0x0B)
        if (!number(c, &item->value)) return false;
    item->data_size = (size_t)(c->at - item->data);
    return code == 0x0B;
}

static inline bool types(struct cursor *c, struct item *item, uint32_t *count) {
    uint64_t some;
    if (!number(c, &some) || some > 4) return false;
    for (*count = 0; *count < some; ++*count)
        if (!byte(c, &item->types[item->type_count++])) return false;
    return true;
}

static inline bool next_type(struct cursor *c, struct item *item) {
    uint32_t parameters;
    return byte(c, &item->kind) && types(c, item, &parameters) && types(c, item, &item->result_count);
}

static inline bool next_import(struct cursor *c, struct item *item) {
    return text(c, &item->module, &item->module_size) && text(c, &item->name, &item->name_size) && byte(c, &item->kind) && number(c, &item->index);
}

static inline bool next_export(struct cursor *c, struct item *item) {
    return text(c, &item->name, &item->name_size) && byte(c, &item->kind) && number(c, &item->index);
}

static inline bool next_index(struct cursor *c, struct item *item) { return number(c, &item->index); }

static inline bool next_global(struct cursor *c, struct item *item) {
    uint32_t is_mutable;
    if (!byte(c, &item->kind) || !byte(c, &is_mutable)) return false;
    item->flags = is_mutable;
    return expression(c, item);
}

static inline bool next_data(struct cursor *c, struct item *item) {
    return number(c, &item->flags) && expression(c, item) && text(c, &item->name, &item->name_size);
}

static inline bool next_name(struct cursor *c, struct item *item) { return number(c, &item->index) && text(c, &item->name, &item->name_size); }

static inline bool next_symbol(struct cursor *c, struct item *item) {
    return byte(c, &item->kind) && number(c, &item->flags) && number(c, &item->index) && text(c, &item->name, &item->name_size);
}

static inline bool next_relocation(struct cursor *c, struct item *item) {
    return byte(c, &item->kind) && number(c, &item->offset) && number(c, &item->index);
}

typedef bool next(struct cursor *, struct item *);

static inline uint64_t walk(struct cursor c, uint64_t count, next *one) {
    uint64_t i = 0;
    struct item item = {0};
    for (; i < count; i++) {
        item.type_count = 0, item.offset = (uint64_t)(c.at - c.first);
        if (!one(&c, &item)) break;
        seen += item.index ^ item.name_size ^ item.data_size ^ item.type_count;
    }
    return i;
}

/* The items of a custom section that tools/bench makes: in the only subsection, or after the index of a section. */
static uint64_t walk_custom(struct cursor c, const struct event *event) {
    uint64_t count;
    uint32_t id;
    if (event->name_size == 4) return byte(&c, &id) && number(&c, &count) && number(&c, &count) ? walk(c, count, next_name) : 0;
    if (event->name_size == 7) return byte(&c, &id) && byte(&c, &id) && number(&c, &count) && number(&c, &count) ? walk(c, count, next_symbol) : 0;
    return number(&c, &count) && number(&c, &count) ? walk(c, count, next_relocation) : 0;
}

static uint64_t walk_segment(struct cursor c) {
    struct item item = {0};
    uint64_t count;
    return number(&c, &item.flags) && expression(&c, &item) && number(&c, &count) ? walk(c, count, next_index) : 0;
}

static uint64_t walk_section(struct cursor c, const struct event *event) {
    switch (event->id) {
    case 0: return walk_custom(c, event);
    case 1: return walk(c, event->count, next_type);
    case 2: return walk(c, event->count, next_import);
    case 3: return walk(c, event->count, next_index);
    case 6: return walk(c, event->count, next_global);
    case 7: return walk(c, event->count, next_export);
    case 9: return walk_segment(c);
    case 11: return walk(c, event->count, next_data);
    default: return 0;
    }
}

static APART uint64_t limit_parse(const uint8_t *bytes, size_t size) {
    struct cursor c = {bytes + 8, bytes + size, bytes};
    const uint8_t *code_end = bytes;
    struct event event;
    uint64_t count = 2;
    for (; next_event(&c, &code_end, &event); count++) seen += event.start ^ event.end;
    return count;
}

static APART uint64_t limit_items(const uint8_t *bytes, size_t size) {
    struct cursor c = {bytes + 8, bytes + size, bytes};
    const uint8_t *code_end = bytes;
    struct event event;
    uint64_t count = 0;
    while (next_event(&c, &code_end, &event)) count += walk_section((struct cursor){bytes + event.data_offset, bytes + event.end, bytes}, &event);
    return count;
}

/* All pairs of digits. */
static char pairs[200];

/* Writes a number and a space. */
static inline char *digits(char *out, uint64_t value) {
    char some[20], *at = some + 20;
    for (; value >= 10; value /= 100) memcpy(at -= 2, pairs + 2 * (value % 100), 2);
    if (value || at == some + 20) *--at = (char)('0' + value);
    memcpy(out, at, (size_t)(some + 20 - at));
    out += some + 20 - at;
    *out++ = ' ';
    return out;
}

/* A line has the id of a section, its range and its count; for a body it has the range alone. */
static APART uint64_t limit_list(const uint8_t *bytes, size_t size) {
    static char page[1 << 16];
    struct cursor c = {bytes + 8, bytes + size, bytes};
    const uint8_t *code_end = bytes;
    struct event event;
    uint64_t count = 2;
    char *at = page;
    for (int i = 0; i < 100; i++) pairs[2 * i] = (char)('0' + i / 10), pairs[2 * i + 1] = (char)('0' + i % 10);
    for (; next_event(&c, &code_end, &event); count++) {
        if (event.id != 128) at = digits(at, event.id);
        at = digits(digits(at, event.start), event.end);
        if (event.id != 128) at = digits(at, event.count);
        at[-1] = '\n';
        if (at - page > (1 << 16) - 200) fwrite(page, 1, (size_t)(at - page), stdout), at = page;
    }
    fwrite(page, 1, (size_t)(at - page), stdout);
    return count;
}

int main(int count, char **words) {
    struct stat file;
    if (count != 2 || fstat(0, &file) || file.st_size < 8) return 2;
    size_t size = (size_t)file.st_size;
    const uint8_t *bytes = mmap(NULL, size, PROT_READ, MAP_PRIVATE, 0, 0);
    if (bytes == MAP_FAILED) return 2;
    uint64_t (*way)(const uint8_t *, size_t) = words[1][0] == 'p' ? limit_parse : words[1][0] == 'l' ? limit_list : limit_items;
    uint64_t found = way(bytes, size);
    printf("%s %llu %zu\n", words[1], (unsigned long long)found, size);
    return 0;
}
