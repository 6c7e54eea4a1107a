/* How the examples show an event: as a line of a listing. */
#ifndef SHOW_H
#define SHOW_H
#include <inttypes.h>
#include <pulleynavy.h>
#include <stdio.h>

/* The text of a fault, its offset before it and its number after it. */
static inline void show_fault(pulleynavy_fault fault) {
    uint8_t text[80];
    size_t size = pulleynavy_format_message(fault.kind, text, sizeof text);
    printf("fault %" PRIu64 " %.*s", fault.offset, (int)size, (const char *)text);
    if (fault.has_number) printf(": %" PRIu64, fault.number);
    putchar('\n');
}

static inline void show_event(const pulleynavy_event *e) {
    const char *encoding = e->id ? "component" : "module";
    switch (e->kind) {
    case PULLEYNAVY_EVENT_VERSION: printf("version %" PRIu64 " %" PRIu64 " %" PRIu32 " %s\n", e->start, e->end, e->count, encoding); break;
    case PULLEYNAVY_EVENT_SECTION: printf("section %" PRIu32 " %" PRIu64 " %" PRIu64 " %" PRIu32 "\n", e->id, e->start, e->end, e->count); break;
    case PULLEYNAVY_EVENT_START: printf("start %" PRIu64 " %" PRIu64 " %" PRIu32 "\n", e->start, e->end, e->count); break;
    case PULLEYNAVY_EVENT_DATA_COUNT: printf("datacount %" PRIu64 " %" PRIu64 " %" PRIu32 "\n", e->start, e->end, e->count); break;
    case PULLEYNAVY_EVENT_CODE: printf("code %" PRIu64 " %" PRIu64 " %" PRIu32 " %" PRIu32 "\n", e->start, e->end, e->count, e->size); break;
    case PULLEYNAVY_EVENT_BODY: printf("body %" PRIu64 " %" PRIu64 "\n", e->start, e->end); break;
    case PULLEYNAVY_EVENT_CUSTOM: printf("custom %" PRIu64 " %" PRIu64 " %" PRIu64 "\n", e->start, e->end, e->data_offset); break;
    case PULLEYNAVY_EVENT_UNKNOWN: printf("unknown %" PRIu32 " %" PRIu64 " %" PRIu64 "\n", e->id, e->start, e->end); break;
    case PULLEYNAVY_EVENT_END: printf("end %" PRIu64 "\n", e->start); break;
    case PULLEYNAVY_EVENT_FAULT: show_fault(e->fault); break;
    default: break;
    }
}
#endif
