/* Prints the function names of the module on standard input, which is read in chunks of 4,096 bytes: an index and a name on each line, up to
   the first fault of a list of names. The status is 1 if the module has a fault. */
#include "binary.h"
#include <inttypes.h>
#include <pulleynavy.h>
#include <stdio.h>
#include <stdlib.h>

enum { CHUNK = 4096, BATCH = 64 };

/* Prints the names in a subsection, which begins at `offset` of the stream. */
static void print_functions(const uint8_t *bytes, size_t size, uint64_t offset) {
    pulleynavy_number count = pulleynavy_read_number(bytes, size, offset, PULLEYNAVY_ALL_FEATURES);
    pulleynavy_items items = pulleynavy_list_init(offset + count.consumed, (uint32_t)count.value, PULLEYNAVY_ALL_FEATURES);
    bytes += count.consumed, size -= count.consumed;
    pulleynavy_naming names[BATCH];
    for (size_t n; (n = pulleynavy_next_namings(&items, bytes, size, names, BATCH)) > 0;)
        for (size_t i = 0; i < n; i++) {
            if (names[i].fault.kind) return;
            printf("%" PRIu32 " %.*s\n", names[i].index, (int)names[i].name.size, (const char *)bytes + names[i].name.at);
        }
}

/* Looks for the function names of a custom section, whose contents are `bytes`. */
static void print_names(const pulleynavy_event *event, const uint8_t *bytes) {
    size_t size = (size_t)(event->end - event->start), data = (size_t)(event->data_offset - event->start);
    if (pulleynavy_classify_custom(bytes + data - event->name_size, event->name_size) != PULLEYNAVY_CUSTOM_NAME) return;
    pulleynavy_items items = pulleynavy_items_init(event, PULLEYNAVY_ALL_FEATURES);
    pulleynavy_subsection one;
    while (pulleynavy_next_name_subsections(&items, bytes, size, &one, 1)) {
        if (one.fault.kind) return;
        if (one.id == PULLEYNAVY_NAME_FUNCTION) print_functions(bytes + one.contents.at, one.contents.size, event->start + one.contents.at);
    }
}

int main(void) {
    use_binary_streams();
    static uint8_t chunk[CHUNK];
    size_t room = 2 * CHUNK;
    uint8_t *storage = malloc(room);
    pulleynavy_feed feed = pulleynavy_feed_init(0, PULLEYNAVY_ALL_FEATURES);
    for (;;) {
        if (!storage) return 3;
        pulleynavy_event event = pulleynavy_feed_step(&feed, storage, room);
        if (event.kind >= PULLEYNAVY_EVENT_END) return free(storage), event.kind == PULLEYNAVY_EVENT_FAULT;
        if (event.kind == PULLEYNAVY_EVENT_CUSTOM) print_names(&event, storage + event.at);
        if (event.kind != PULLEYNAVY_EVENT_NEED_MORE) continue;
        size_t size = fread(chunk, 1, sizeof chunk, stdin);
        if (!size) pulleynavy_feed_finish(&feed);
        while (size && !pulleynavy_feed_push(&feed, storage, room, chunk, size) && (storage = realloc(storage, room *= 2))) {}
    }
}
