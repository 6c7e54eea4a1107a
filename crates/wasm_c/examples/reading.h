/* Reads the items of a section and builds the line that shows them. */
#ifndef READING_H
#define READING_H
#include <inttypes.h>
#include <pulleynavy.h>
#include <stdarg.h>
#include <stdio.h>
#include <stdlib.h>

enum { MOST = 64 };

/* The remaining bytes of a section, as offsets in the stream. */
struct window {
    uint64_t at, end;
};

/* How many items a call stores at most. */
static size_t batch = MOST;

static uint8_t *stream;
static pulleynavy_fault fault;
static char *line;
static size_t used, room;

#define READ(call, w) call(stream + (w)->at, (size_t)((w)->end - (w)->at), (w)->at, PULLEYNAVY_ALL_FEATURES)

static void put(const char *format, ...) {
    va_list arguments;
    va_start(arguments, format);
    int size = vsnprintf(line + used, room - used, format, arguments);
    va_end(arguments);
    if (used + (size_t)size < room) {
        used += (size_t)size;
        return;
    }
    line = realloc(line, room = 2 * (room + (size_t)size));
    if (!line) exit(3);
    va_start(arguments, format);
    used += (size_t)vsnprintf(line + used, room - used, format, arguments);
    va_end(arguments);
}

/* Moves past an item, or keeps its fault. */
static bool passed(struct window *w, pulleynavy_fault found, uint64_t consumed) {
    fault = found;
    w->at += consumed;
    return !found.kind;
}

/* Keeps a fault that the library leaves to the caller. */
static void set_fault(uint32_t kind, uint64_t at) { fault = (pulleynavy_fault){kind, 0, 0, at}; }

/* Puts the fault, and a space after it. */
static void put_fault(void) {
    uint8_t text[80];
    size_t size = pulleynavy_format_message(fault.kind, text, sizeof text);
    put("fault %" PRIu64 " %.*s", fault.offset, (int)size, (const char *)text);
    if (fault.has_number) put(": %" PRIu64, fault.number);
    put(" ");
}

static const char *yes(uint32_t flag) { return flag ? "true" : "false"; }

static void put_bytes(uint64_t from, pulleynavy_span span) {
    put("x");
    for (uint64_t i = 0; i < span.size; i++) put("%02x", stream[from + span.at + i]);
}

static void put_range(uint64_t from, pulleynavy_span span) {
    put("%" PRIu64 "..%" PRIu64, from + span.at, from + span.at + span.size);
}

static bool number(struct window *w) {
    pulleynavy_number n = READ(pulleynavy_read_number, w);
    put("%" PRIu64, n.value);
    return passed(w, n.fault, n.consumed);
}

#endif
