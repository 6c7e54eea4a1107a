/* Every repeated byte is a parser and a feeder: parses the bytes on standard input by each of them, at each feature, and looks at what the
   contract says of any parser: what was consumed is there, a fault lies within, and what changed nothing changed nothing. */
#include "binary.h"
#include "show.h"
#include <stdlib.h>
#include <string.h>

static uint8_t bytes[1 << 16];

static int stop(int byte, const char *why) {
    printf("byte %d: %s\n", byte, why);
    return 1;
}

static bool is_same(const pulleynavy_parser *one, const pulleynavy_parser *other) {
    return one->offset == other->offset && one->bodies == other->bodies && one->rank == other->rank;
}

static int parse(int byte, size_t size, bool is_all) {
    pulleynavy_parser parser, before;
    memset(&parser, byte, sizeof parser);
    for (size_t at = 0, i = 0; i < 100; i++) {
        before = parser;
        pulleynavy_event e = pulleynavy_parse(&parser, bytes + at, size - at, is_all);
        if (e.kind > PULLEYNAVY_EVENT_FAULT) return stop(byte, "no event has this kind");
        if (e.consumed > size - at) return stop(byte, "more was consumed than was there");
        if (is_all && e.kind == PULLEYNAVY_EVENT_NEED_MORE) return stop(byte, "more is wanted of all the bytes");
        if (e.kind == PULLEYNAVY_EVENT_NEED_MORE && !e.hint) return stop(byte, "nothing is wanted");
        if ((e.kind == PULLEYNAVY_EVENT_FAULT) != (e.fault.kind != 0)) return stop(byte, "a fault without a kind");
        if (e.kind == PULLEYNAVY_EVENT_FAULT && e.fault.offset - before.offset > size - at) return stop(byte, "a fault outside of the bytes");
        if (!e.consumed && e.kind != PULLEYNAVY_EVENT_END && !is_same(&parser, &before)) return stop(byte, "the parser moved");
        if (!e.consumed) break;
        at += e.consumed;
    }
    before = parser;
    uint32_t left = pulleynavy_skip_section(&parser);
    if (parser.offset - before.offset != left) return stop(byte, "skipping went elsewhere");
    return 0;
}

static int feed(int byte, size_t size) {
    pulleynavy_feed feed;
    uint8_t storage[4096];
    memset(&feed, byte, sizeof feed);
    memset(storage, byte, sizeof storage);
    bool is_pushed = pulleynavy_feed_push(&feed, storage, sizeof storage, bytes, size < 100 ? size : 100);
    pulleynavy_event e = pulleynavy_feed_step(&feed, storage, sizeof storage);
    pulleynavy_feed_finish(&feed);
    if (!is_pushed && byte != 0) return stop(byte, "there was no room");
    return e.kind > PULLEYNAVY_EVENT_FAULT ? stop(byte, "no event has this kind") : 0;
}

int main(void) {
    use_binary_streams();
    size_t size = fread(bytes, 1, sizeof bytes, stdin);
    for (int byte = 0; byte < 256; byte++)
        if (parse(byte, size, true) || parse(byte, size, false) || feed(byte, size)) return 1;
    return 0;
}
