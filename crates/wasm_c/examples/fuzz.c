/* Reads the stream on standard input whole and again in chunks, and aborts if an event differs. A target for AFL++:

       afl-cc -O1 -g -I include examples/fuzz.c out/libwasm_c.a -o fuzz
       afl-fuzz -i seeds -o findings ./fuzz */
#include "binary.h"
#include <pulleynavy.h>
#include <stdio.h>
#include <stdlib.h>

static uint8_t bytes[1 << 20], storage[1 << 21];

static bool is_same(const pulleynavy_event *one, const pulleynavy_event *other) {
    return one->kind == other->kind && one->id == other->id && one->count == other->count && one->size == other->size &&
           one->start == other->start && one->end == other->end && one->consumed == other->consumed &&
           one->data_offset == other->data_offset && one->name_size == other->name_size && one->fault.kind == other->fault.kind &&
           one->fault.offset == other->fault.offset && one->fault.number == other->fault.number;
}

/* The next event of a feeder, which receives chunks of this many bytes as long as it requests more. */
static pulleynavy_event next(pulleynavy_feed *feed, size_t size, size_t *given, size_t piece) {
    for (;;) {
        pulleynavy_event event = pulleynavy_feed_step(feed, storage, sizeof storage);
        if (event.kind != PULLEYNAVY_EVENT_NEED_MORE) return event;
        size_t some = size - *given < piece ? size - *given : piece;
        if (!some) pulleynavy_feed_finish(feed);
        else if (!pulleynavy_feed_push(feed, storage, sizeof storage, bytes + *given, some)) abort();
        *given += some;
    }
}

static void compare(size_t size, size_t piece) {
    pulleynavy_parser parser = pulleynavy_parser_init(0, PULLEYNAVY_ALL_FEATURES);
    pulleynavy_feed feed = pulleynavy_feed_init(0, PULLEYNAVY_ALL_FEATURES);
    for (size_t at = 0, given = 0;;) {
        pulleynavy_event whole = pulleynavy_parse(&parser, bytes + at, size - at, true);
        pulleynavy_event pieces = next(&feed, size, &given, piece);
        if (!is_same(&whole, &pieces)) abort();
        if (whole.kind >= PULLEYNAVY_EVENT_END) return;
        at += whole.consumed;
    }
}

int main(void) {
    use_binary_streams();
    size_t size = fread(bytes, 1, sizeof bytes, stdin);
    compare(size, 1);
    compare(size, 7);
    compare(size, 100);
    return 0;
}
