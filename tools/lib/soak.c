/* Prints what the library says of streams, for tools/soak, which compares it with models.

   A case on standard input is a batch, features, the size of a stream, a number of cuttings, the stream, the kind of an edit with the size
   of its name and this, and for each cutting an offset, a number of chunks and their sizes; numbers have 8 bytes. Each run of bytes is passed where it ends before a page that nothing may read. After the lines
   of a case comes an empty one. */
#define _DEFAULT_SOURCE
#include <pulleynavy.h>
/* The features of a case take the place of all features in the example that lists items. */
static uint32_t features;
#define PULLEYNAVY_ALL_FEATURES features
#define main items_main
#include "items.c"
#undef main
#include "events.h"
#include <string.h>
#include <sys/mman.h>
#include <unistd.h>

enum { LARGEST = 1 << 22, MOST_NAME = 16, MOST_DATA = 20 };

/* The ends of memory for a stream, for the storage of a feeder, and for the bytes of a call. */
static uint8_t *stream_end, *storage_end, *call_end;

static uint8_t *guarded(void) {
    size_t page = (size_t)sysconf(_SC_PAGESIZE);
    uint8_t *start = mmap(NULL, LARGEST + page, PROT_READ | PROT_WRITE, MAP_PRIVATE | MAP_ANONYMOUS, -1, 0);
    if (start == MAP_FAILED || mprotect(start + LARGEST, page, PROT_NONE)) exit(3);
    return start + LARGEST;
}

static uint64_t take(void) {
    uint64_t value;
    if (fread(&value, sizeof value, 1, stdin) != 1) exit(2);
    return value;
}

/* The bytes of a call. */
static uint8_t *copied(const uint8_t *bytes, size_t size) { return size ? memmove(call_end - size, bytes, size) : call_end; }

static void require(bool holds, const char *what) {
    if (!holds) printf("DIFFERS %s\n", what);
}

static void show_bytes(const uint8_t *bytes, size_t size) {
    for (size_t i = 0; i < size; i++) printf("%02x", bytes[i]);
    putchar('\n');
}

/* Strips a copy, and shows its bytes or the fault that leaves it as it was. */
static void show_stripped(size_t size, bool keeps_names) {
    uint8_t *bytes = copied(stream, size);
    pulleynavy_stripped stripped = pulleynavy_strip(bytes, size, keeps_names);
    if (stripped.fault.kind) {
        show_fault(stripped.fault);
        require(!stripped.size && !memcmp(bytes, stream, size), "a stream that is not stripped");
        return;
    }
    show_bytes(bytes, stripped.size);
}

/* Edits the stream into just as many bytes as it then has, and shows them or its fault. The data of the edit begins the stream. */
static void show_edited(size_t size) {
    uint32_t kind = (uint32_t)take();
    size_t name_size = take(), data_size = size < MOST_DATA ? size : MOST_DATA;
    uint8_t name[MOST_NAME];
    if (name_size > sizeof name || fread(name, 1, name_size, stdin) != name_size) exit(2);
    pulleynavy_edited edited = pulleynavy_edit(stream, size, kind, name, name_size, stream, data_size, call_end, 0);
    if (edited.fault.kind) {
        require(edited.status == PULLEYNAVY_EDIT_STATUS_MALFORMED && !edited.size, "a stream that is not edited");
        show_fault(edited.fault);
        return;
    }
    uint8_t *out = call_end - edited.size;
    require(edited.status == PULLEYNAVY_EDIT_STATUS_NO_ROOM, "an edit without room");
    edited = pulleynavy_edit(stream, size, kind, name, name_size, stream, data_size, out, edited.size);
    require(!edited.status && out + edited.size == call_end, "an edit with room");
    show_bytes(out, edited.size);
}

/* A feeder and its storage, and a parser that is passed the same bytes. */
struct reading {
    pulleynavy_feed feed;
    pulleynavy_parser parser;
    size_t storage_size, given, at;
};

/* Pushes a chunk to a feeder, whose storage grows at its start as far as it has to. */
static void push(struct reading *it, size_t size) {
    const uint8_t *piece = copied(stream + it->given, size);
    while (!pulleynavy_feed_push(&it->feed, storage_end - it->storage_size, it->storage_size, piece, size)) {
        size_t larger = it->storage_size + size;
        memmove(storage_end - larger, storage_end - it->storage_size, it->storage_size);
        it->storage_size = larger;
    }
    it->given += size;
}

/* Steps a feeder and shows the result and how many bytes are then held. Returns the kind. */
static uint32_t step(struct reading *it) {
    const uint8_t *storage = storage_end - it->storage_size;
    size_t before = it->feed.mark, left = it->given - it->at;
    uint64_t offset = it->parser.offset;
    pulleynavy_event event = pulleynavy_feed_step(&it->feed, storage, it->storage_size);
    pulleynavy_event parsed = pulleynavy_parse(&it->parser, copied(stream + it->at, left), left, it->feed.is_finished);
    require(is_event(&event, &parsed) && event.at - before == parsed.at, "a parser and a feeder");
    require(parsed.at == (parsed.consumed ? parsed.start - offset : 0), "the position of an event");
    if (event.kind == PULLEYNAVY_EVENT_NEED_MORE) printf("need %zu\n", event.hint);
    else show_event(&event);
    printf("%zu\n", it->feed.end - it->feed.mark);
    it->at += parsed.consumed;
    return event.kind;
}

/* Reads the stream as a cutting has it, until it ends or is refused for the second time. */
static void show_cut(uint64_t offset, uint64_t chunks) {
    struct reading it = {pulleynavy_feed_init(offset, features), pulleynavy_parser_init(offset, features), 0, 0, 0};
    for (int lasts = 0; lasts < 2;) {
        uint32_t kind = step(&it);
        if (kind >= PULLEYNAVY_EVENT_END) lasts++;
        if (kind != PULLEYNAVY_EVENT_NEED_MORE) continue;
        if (chunks) push(&it, take()), chunks--;
        else pulleynavy_feed_finish(&it.feed);
    }
    while (chunks--) take();
}

static void show_case(void) {
    features = (uint32_t)take();
    size_t size = take(), cuttings = take();
    stream = stream_end - size;
    if (size > LARGEST || fread(stream, 1, size, stdin) != size) exit(2);
    show_all(size);
    show_stripped(size, false);
    show_stripped(size, true);
    show_edited(size);
    while (cuttings--) {
        uint64_t offset = take();
        show_cut(offset, take());
    }
    puts("");
    fflush(stdout);
}

int main(void) {
    stream_end = guarded(), storage_end = guarded(), call_end = guarded();
    line = malloc(room = 1 << 16);
    for (uint64_t next; fread(&next, sizeof next, 1, stdin) == 1;) {
        batch = next;
        show_case();
    }
    free(line);
    return 0;
}
