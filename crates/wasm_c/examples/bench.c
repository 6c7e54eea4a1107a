/* Times the events of the module on standard input: whole, by the word `parse` or, many at a time, `batch`, or in chunks of a given size in bytes. Of each word it prints how
   many events there are, their bytes, and the nanoseconds of the fastest of the rounds of a second. */
#include "binary.h"
#include <pulleynavy.h>
#include <stdio.h>
#include <stdlib.h>
#include <string.h>
#include <time.h>

/* The offsets of all events, so that no compiler leaves out that they are made. */
static volatile uint64_t seen;

static uint64_t now(void) {
    struct timespec at;
    clock_gettime(CLOCK_MONOTONIC, &at);
    return (uint64_t)at.tv_sec * 1000000000 + (uint64_t)at.tv_nsec;
}

/* The readers stay functions of their own, so that a profile shows what a round takes. */
__attribute__((noinline)) static size_t whole(const uint8_t *bytes, size_t size) {
    pulleynavy_parser parser = pulleynavy_parser_init(0, PULLEYNAVY_ALL_FEATURES);
    for (size_t at = 0, count = 1;; count++) {
        pulleynavy_event event = pulleynavy_parse(&parser, bytes + at, size - at, true);
        seen += event.start ^ event.end;
        if (event.kind >= PULLEYNAVY_EVENT_END) return count;
        at += event.consumed;
    }
}

__attribute__((noinline)) static size_t in_batches(const uint8_t *bytes, size_t size) {
    pulleynavy_parser parser = pulleynavy_parser_init(0, PULLEYNAVY_ALL_FEATURES);
    static pulleynavy_event events[64];
    for (size_t at = 0, count = 0;;) {
        size_t n = pulleynavy_next_events(&parser, bytes + at, size - at, true, events, 64);
        for (size_t i = 0; i < n; at += events[i].consumed, i++) seen += events[i].start ^ events[i].end;
        count += n;
        if (events[n - 1].kind >= PULLEYNAVY_EVENT_END) return count;
    }
}

__attribute__((noinline)) static size_t in_pieces(const uint8_t *bytes, size_t size, size_t piece, uint8_t *storage, size_t room) {
    pulleynavy_feed feed = pulleynavy_feed_init(0, PULLEYNAVY_ALL_FEATURES);
    for (size_t at = 0, count = 0;;) {
        pulleynavy_event event = pulleynavy_feed_step(&feed, storage, room);
        if (event.kind != PULLEYNAVY_EVENT_NEED_MORE) {
            seen += event.start ^ event.end;
            count++;
            if (event.kind >= PULLEYNAVY_EVENT_END) return count;
            continue;
        }
        size_t some = size - at < piece ? size - at : piece;
        if (!some) pulleynavy_feed_finish(&feed);
        else if (!pulleynavy_feed_push(&feed, storage, room, bytes + at, some)) abort();
        at += some;
    }
}

int main(int count, char **words) {
    use_binary_streams();
    size_t room = 1 << 20, size = 0;
    uint8_t *bytes = malloc(room), *storage = NULL;
    while (bytes && (size += fread(bytes + size, 1, room - size, stdin)) == room) bytes = realloc(bytes, room *= 2);
    /* A section is held whole, and the next piece after it. */
    if (!bytes || !(storage = malloc(size + 65536))) return 3;
    for (int i = 1; i < count; i++) {
        size_t piece = strtoul(words[i], NULL, 10), events = 0;
        uint64_t least = UINT64_MAX;
        for (uint64_t end = now() + 1000000000; now() < end;) {
            uint64_t start = now();
            if (piece) events = in_pieces(bytes, size, piece, storage, size + 65536);
            else events = strcmp(words[i], "batch") ? whole(bytes, size) : in_batches(bytes, size);
            uint64_t took = now() - start;
            if (took < least) least = took;
        }
        printf("%s %zu %zu %llu\n", words[i], events, size, (unsigned long long)least);
    }
    free(storage);
    free(bytes);
}
