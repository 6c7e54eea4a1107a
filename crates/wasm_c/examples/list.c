/* Lists the module on standard input, read in chunks of this many bytes (the argument), exactly as wasm_list does. */
#include "binary.h"
#include "show.h"
#include <stdlib.h>
#include <string.h>

/* Pushes a chunk to the feeder, whose storage grows if there is no room. */
static uint8_t *push(pulleynavy_feed *feed, uint8_t *storage, size_t *room, const uint8_t *piece, size_t size) {
    while (!pulleynavy_feed_push(feed, storage, *room, piece, size)) {
        uint8_t *grown = realloc(storage, *room *= 2);
        if (!grown) exit(3);
        storage = grown;
    }
    return storage;
}

int main(int argc, char **argv) {
    use_binary_streams();
    size_t size = argc > 1 ? strtoul(argv[1], 0, 10) : 65536, room = size < 2048 ? 4096 : 2 * size;
    uint8_t *storage = malloc(room), *piece = malloc(size);
    pulleynavy_feed feed = pulleynavy_feed_init(0, PULLEYNAVY_ALL_FEATURES);
    if (!storage || !piece) return 3;
    for (;;) {
        pulleynavy_event event = pulleynavy_feed_step(&feed, storage, room);
        show_event(&event);
        if (event.kind >= PULLEYNAVY_EVENT_END) {
            free(storage), free(piece);
            return event.kind == PULLEYNAVY_EVENT_FAULT;
        }
        if (event.kind != PULLEYNAVY_EVENT_NEED_MORE) continue;
        size_t got = fread(piece, 1, size, stdin);
        if (got) storage = push(&feed, storage, &room, piece, got);
        else pulleynavy_feed_finish(&feed);
    }
}
