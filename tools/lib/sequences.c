/* Random calls of the library in any order that the header allows, for sanitizers: what each returns is what it returned in plain order.

       sequences SEED SECONDS STREAMS

   STREAMS is a file of streams, each after its size in 4 bytes. A round takes one of them, often with changed bytes, and lets parsers,
   feeders, cursors and readers over it take turns. Each call gets its bytes in a block of the heap that has no byte more. The program
   prints how many calls it made, and fails if a call of the header was never made. Only tools/try c runs it. */
#include "events.h"
#include <stdio.h>
#include <stdlib.h>
#include <string.h>
#include <time.h>

struct field {
    size_t at, size;
};
struct reader {
    const char *name;
    size_t size;
    const struct field *fields;
    void (*read)(const uint8_t *, size_t, uint64_t, uint32_t, void *);
    unsigned long calls;
};
struct walker {
    const char *name;
    size_t size;
    const struct field *fields;
    size_t (*next)(void *, const uint8_t *, size_t, void *, size_t);
    unsigned long calls;
};
/* What a bundled import belongs to: any bytes will do. */
static pulleynavy_import bundle;

#include "tables.h"

#define MOST_EVENTS 4096
#define MOST_ITEMS 256
#define ACTORS 24
#define COUNT(array) (sizeof(array) / sizeof *(array))

static const char *called[64];
static unsigned long calls[64];

static void count_call(const char *name) {
    size_t i = 0;
    while (called[i] && strcmp(called[i], name)) i++;
    called[i] = name;
    calls[i]++;
}
/* A call, which is counted by its name. */
#define CALL(name, ...) (count_call(#name), name(__VA_ARGS__))
#define CALL0(name) (count_call(#name), name())

/* What draws come from, and the round, for the message of a difference. */
static uint64_t state;
static const char *seed;
static unsigned long rounds;

static uint32_t draw(uint32_t below) {
    state ^= state << 13;
    state ^= state >> 7;
    state ^= state << 17;
    return below ? (uint32_t)(state >> 20) % below : 0;
}

static void require(bool holds, const char *what) {
    if (holds) return;
    printf("DIFFERS %s, round %lu of seed %s\n", what, rounds, seed);
    exit(1);
}

/* A copy of these bytes in a block of its own. */
static uint8_t *exact(const uint8_t *bytes, size_t size) {
    uint8_t *copy = malloc(size ? size : 1);
    require(copy != NULL, "memory");
    memcpy(copy, bytes, size);
    return copy;
}

static bool is_same(const struct field *fields, const void *one, const void *other) {
    for (; fields->size; fields++)
        if (memcmp((const char *)one + fields->at, (const char *)other + fields->at, fields->size)) return false;
    return true;
}

/* ---- the round: a stream, and its events in plain order */

static uint8_t *stream;
static size_t stream_size;
static uint64_t start;
static pulleynavy_event events[MOST_EVENTS];
static size_t event_count;

static void read_plainly(void) {
    pulleynavy_parser parser = CALL(pulleynavy_parser_init, start, PULLEYNAVY_ALL_FEATURES);
    size_t at = 0;
    for (event_count = 0; event_count < MOST_EVENTS;) {
        pulleynavy_event event = CALL(pulleynavy_parse, &parser, stream + at, stream_size - at, true);
        require(event.kind != PULLEYNAVY_EVENT_NEED_MORE, "a request although all bytes are there");
        events[event_count++] = event;
        if (event.kind >= PULLEYNAVY_EVENT_END) return;
        at += event.consumed;
    }
}

/* ---- actors */

struct actor {
    bool (*step)(struct actor *);
    pulleynavy_parser parser;
    pulleynavy_feed feed;
    uint8_t *storage;
    size_t storage_size, given, at, next;
    bool is_finished;
    struct walker *walker;
    struct reader *reader;
    union {
        pulleynavy_items items;
        pulleynavy_imports imports;
    } cursor;
    /* The bytes of a cursor or reader, and what it returned in plain order. */
    uint8_t *bytes;
    size_t size, count;
    uint64_t offset;
    uint32_t features, list_count;
    char *items;
};
static struct actor actors[ACTORS];

static void expect(struct actor *it, const pulleynavy_event *event) {
    require(it->next < event_count && is_event(event, &events[it->next]), "an event");
    if (event->kind < PULLEYNAVY_EVENT_END) it->next++;
}

/* Skips the bodies of a code section that a parser is in. Returns whether the stream has a fault among them, which the parser then never sees. */
static bool skip_bodies(struct actor *it) {
    pulleynavy_parser before = it->parser;
    uint32_t left = CALL(pulleynavy_skip_section, &it->parser);
    require(it->parser.offset - before.offset == left, "the offset after skipped bodies");
    it->at += left;
    if (!before.in_code) {
        require(!left && !memcmp(&before, &it->parser, sizeof before), "a parser outside of a code section");
        return false;
    }
    size_t first = it->next;
    while (events[it->next].kind == PULLEYNAVY_EVENT_BODY) it->next++;
    uint64_t end = it->next > first ? events[it->next - 1].end : before.offset;
    bool is_read = it->next - first == before.bodies && end == it->parser.offset;
    require(is_read || events[it->next].kind == PULLEYNAVY_EVENT_FAULT, "the end of skipped bodies");
    return !is_read;
}

static void check_fault(struct actor *it, const uint8_t *bytes, size_t size, bool is_all) {
    uint8_t text[96], whole[96];
    size_t room = draw(90);
    size_t length = CALL(pulleynavy_format_fault, &it->parser, bytes, size, is_all, text, room);
    pulleynavy_parser copy = it->parser;
    pulleynavy_event event = CALL(pulleynavy_parse, &copy, bytes, size, is_all);
    size_t wanted = event.kind == PULLEYNAVY_EVENT_FAULT ? CALL(pulleynavy_format_message, event.fault.kind, whole, sizeof whole) : 0;
    require(length == wanted && !memcmp(text, whole, wanted < room ? wanted : room), "the text of a fault");
}

/* Skips a part by these bytes, of which a call of `pulleynavy_parse` has requested more. The parser is beyond a stream that ends within the part. */
static void skip_part(struct actor *it, const uint8_t *bytes, size_t size) {
    uint64_t before = it->parser.offset;
    pulleynavy_event event = CALL(pulleynavy_skip, &it->parser, bytes, size);
    const pulleynavy_event *wanted = &events[it->next];
    if (event.kind == PULLEYNAVY_EVENT_NEED_MORE) {
        require(!event.hint && it->parser.offset == before, "a part that is not skipped");
        return;
    }
    require(event.consumed == size && it->parser.offset == event.end && event.end > before + size, "the end of a skipped part");
    if (wanted->kind == PULLEYNAVY_EVENT_FAULT) {
        require(wanted->fault.kind == PULLEYNAVY_FAULT_UNEXPECTED_EOF && wanted->fault.offset == event.start, "a skipped part that is truncated");
        it->at = stream_size + 1;
        return;
    }
    require(event.data_offset == (event.kind == PULLEYNAVY_EVENT_SECTION ? 0 : wanted->data_offset), "the data of a skipped part");
    event.consumed = wanted->consumed;
    event.data_offset = wanted->data_offset;
    expect(it, &event);
    it->at = (size_t)(event.end - start);
}

static bool step_parser(struct actor *it) {
    if (it->at > stream_size) return false;
    size_t left = stream_size - it->at, size = draw(3) ? left : draw((uint32_t)left + 1);
    bool is_all = size == left && draw(4), is_over = false;
    uint8_t *bytes = exact(stream + it->at, size);
    pulleynavy_event some[5];
    size_t room = draw(6), count = 0, first = it->at;
    if (!draw(8)) check_fault(it, bytes, size, is_all);
    if (!draw(6)) {
        free(bytes);
        return !skip_bodies(it);
    }
    if (room) count = CALL(pulleynavy_next_events, &it->parser, bytes, size, is_all, some, room);
    else some[count++] = CALL(pulleynavy_parse, &it->parser, bytes, size, is_all);
    for (size_t i = 0; i < count; i++) {
        if (some[i].kind == PULLEYNAVY_EVENT_NEED_MORE) {
            require(!is_all && some[i].hint && i + 1 == count, "a request");
            size_t used = it->at - first;
            if (draw(2)) skip_part(it, bytes + used, size - used);
            break;
        }
        expect(it, &some[i]);
        it->at += some[i].consumed;
        is_over = is_over || some[i].kind >= PULLEYNAVY_EVENT_END;
    }
    free(bytes);
    return !is_over || draw(2);
}

static void push(struct actor *it) {
    size_t size = draw(4) ? draw(40) : draw(4096);
    if (size > stream_size - it->given) size = stream_size - it->given;
    uint8_t *piece = exact(stream + it->given, size);
    while (!CALL(pulleynavy_feed_push, &it->feed, it->storage, it->storage_size, piece, size)) {
        size_t larger = it->storage_size + size + draw(100);
        uint8_t *storage = exact(it->storage, it->storage_size);
        it->storage = realloc(it->storage, larger);
        memcpy(it->storage, storage, it->storage_size);
        it->storage_size = larger;
        free(storage);
    }
    it->given += size;
    free(piece);
}

static bool step_feeder(struct actor *it) {
    if (draw(3) && !it->is_finished) push(it);
    if (it->given == stream_size && draw(2)) {
        CALL(pulleynavy_feed_finish, &it->feed);
        it->is_finished = true;
    }
    pulleynavy_event event = CALL(pulleynavy_feed_step, &it->feed, it->storage, it->storage_size);
    if (event.kind == PULLEYNAVY_EVENT_NEED_MORE) {
        require(!it->is_finished && event.hint, "a request of a feeder");
        return true;
    }
    expect(it, &event);
    return event.kind < PULLEYNAVY_EVENT_END || draw(2);
}

/* A cursor at the start of its list. */
static void rewind_cursor(struct actor *it, const pulleynavy_event *event) {
    memset(&it->cursor, 0, sizeof it->cursor);
    if (it->walker->next == next_flat_imports) it->cursor.imports = CALL(pulleynavy_imports_init, event, it->features);
    else if (event->end - event->start == it->size) it->cursor.items = CALL(pulleynavy_items_init, event, it->features);
    else it->cursor.items = CALL(pulleynavy_list_init, it->offset, it->list_count, it->features);
}

static bool step_cursor(struct actor *it) {
    size_t room = draw(5), size = it->walker->size;
    uint8_t *bytes = exact(it->bytes, it->size);
    char *out = malloc(room * size + 1);
    size_t count = it->walker->next(&it->cursor, bytes, it->size, out, room), left = it->count - it->next;
    it->walker->calls++;
    require(count == (left < room ? left : room) || it->count == MOST_ITEMS, it->walker->name);
    for (size_t i = 0; i < count && it->next < it->count; i++, it->next++)
        require(is_same(it->walker->fields, out + i * size, it->items + it->next * size), it->walker->name);
    require(!memcmp(bytes, it->bytes, it->size), "bytes that were only read");
    free(out);
    free(bytes);
    return it->next < it->count || draw(2);
}

static bool step_reader(struct actor *it) {
    uint8_t *bytes = exact(it->bytes, it->size);
    char *out = malloc(it->reader->size);
    it->reader->read(bytes, it->size, it->offset, it->features, out);
    it->reader->calls++;
    require(is_same(it->reader->fields, out, it->items) && !memcmp(bytes, it->bytes, it->size), it->reader->name);
    free(out);
    free(bytes);
    return draw(3);
}

/* Calls that keep nothing: what they return is in the header, or is compared with that of another call. */
static bool step_others(struct actor *it) {
    uint8_t *bytes = exact(it->bytes, it->size), whole[96];
    uint32_t kind = draw(60), room = draw(90);
    pulleynavy_fault custom = CALL(pulleynavy_check_custom_end, bytes, it->size, it->offset);
    pulleynavy_fault name = CALL(pulleynavy_check_name_end, bytes, it->size, it->offset);
    require(custom.kind == (it->size ? PULLEYNAVY_FAULT_CUSTOM_TRAILING : 0) && (!it->size || custom.offset == it->offset), "the end of a core dump");
    require(name.kind == (it->size ? PULLEYNAVY_FAULT_NAME_TRAILING : 0) && (!it->size || name.offset == it->offset), "the end of a name");
    require(CALL0(pulleynavy_version) == PULLEYNAVY_VERSION_NUMBER, "the version");
    uint8_t *text = malloc(room + 1);
    size_t length = CALL(pulleynavy_format_message, kind, whole, sizeof whole);
    require(CALL(pulleynavy_format_message, kind, text, room) == length && !memcmp(text, whole, length < room ? length : room), "a message");
    require(CALL(pulleynavy_classify_custom, bytes, it->size) == CALL(pulleynavy_classify_custom, it->bytes, it->size), "the kind of a section");
    free(text);
    free(bytes);
    return draw(3);
}

/* ---- custom sections */

struct text {
    const uint8_t *bytes;
    size_t size;
};

static bool is_name_of(const pulleynavy_event *event, struct text name) {
    if (event->kind != PULLEYNAVY_EVENT_CUSTOM || event->name_size != name.size) return false;
    return !memcmp(stream + (event->data_offset - start) - name.size, name.bytes, name.size);
}

/* The stream after an edit, as its events have it. */
static uint8_t *stream_after(uint32_t kind, struct text name, struct text section, size_t *size) {
    uint8_t *out = malloc(stream_size + (event_count + 1) * section.size + 1), *end = out;
    const uint8_t *bytes = stream;
    for (size_t i = 0; i < event_count; bytes += events[i++].consumed) {
        struct text part = {bytes, events[i].consumed};
        bool is_custom = events[i].kind == PULLEYNAVY_EVENT_CUSTOM, is_named = is_name_of(&events[i], name);
        if (kind == PULLEYNAVY_EDIT_KEEP ? is_custom && !is_named : kind == PULLEYNAVY_EDIT_REMOVE && is_named) part.size = 0;
        if (kind == PULLEYNAVY_EDIT_REPLACE && is_named) part = section;
        memcpy(end, part.bytes, part.size);
        end += part.size;
    }
    *size = (size_t)(end - out) + (kind == PULLEYNAVY_EDIT_APPEND ? section.size : 0);
    if (kind == PULLEYNAVY_EDIT_APPEND) memcpy(end, section.bytes, section.size);
    return out;
}

/* Whether calls that begin at offset 0 find what the events have. */
static bool has_events(void) { return start == 0 && event_count < MOST_EVENTS; }

/* Strips a copy. No section has a name that is not UTF-8. */
static bool step_strip(struct actor *it) {
    bool keeps_names = draw(2), is_fault = events[event_count - 1].kind == PULLEYNAVY_EVENT_FAULT;
    struct text name = {(const uint8_t *)(keeps_names ? "name" : "\xff"), keeps_names ? 4 : 1};
    size_t size;
    uint8_t *bytes = exact(stream, stream_size), *kept = stream_after(PULLEYNAVY_EDIT_KEEP, name, (struct text){stream, 0}, &size);
    pulleynavy_stripped stripped = CALL(pulleynavy_strip, bytes, stream_size, keeps_names);
    if (has_events()) {
        require((stripped.fault.kind != 0) == is_fault && (is_fault || stripped.size == size), "the size of a stripped stream");
        require(!memcmp(bytes, is_fault ? stream : kept, is_fault ? stream_size : size), "a stripped stream");
    }
    (void)it;
    free(kept);
    free(bytes);
    return false;
}

/* A name: often that of a section. */
static struct text draw_name(void) {
    const pulleynavy_event *event = &events[draw((uint32_t)event_count)];
    if (event->kind != PULLEYNAVY_EVENT_CUSTOM) return (struct text){(const uint8_t *)"a", draw(2)};
    return (struct text){stream + (event->data_offset - start) - event->name_size, event->name_size};
}

/* A custom section that was encoded into just as many bytes as it has. */
static struct text encoded(struct text name, struct text data) {
    uint8_t none, *out;
    size_t size = CALL(pulleynavy_encode_custom, name.bytes, name.size, data.bytes, data.size, &none, 0);
    out = malloc(size);
    require(CALL(pulleynavy_encode_custom, name.bytes, name.size, data.bytes, data.size, out, size) == size, "the size of a section");
    return (struct text){out, size};
}

/* Edits the stream into as many bytes as it then has, or one less, which are left unchanged. */
static void edit_into(size_t room, uint32_t kind, struct text name, struct text data, struct text wanted) {
    bool is_fault = events[event_count - 1].kind == PULLEYNAVY_EVENT_FAULT, is_written = !is_fault && wanted.size <= room;
    uint8_t *bytes = exact(stream, stream_size), *out = malloc(room + 1), *before = malloc(room + 1);
    memset(out, 0xaa, room), memset(before, 0xaa, room);
    pulleynavy_edited edited = CALL(pulleynavy_edit, bytes, stream_size, kind, name.bytes, name.size, data.bytes, data.size, out, room);
    if (has_events()) {
        require((edited.status == PULLEYNAVY_EDIT_STATUS_MALFORMED) == is_fault, "the status of an edit");
        require(!edited.status == is_written && edited.size == (is_fault ? 0 : wanted.size), "the size of an edited stream");
        require(!memcmp(out, is_written ? wanted.bytes : before, is_written ? wanted.size : room), "an edited stream");
    }
    free(before);
    free(out);
    free(bytes);
}

static bool step_edit(struct actor *it) {
    uint32_t kind = draw(4);
    struct text name = draw_name(), data = {stream, draw((uint32_t)stream_size + 1)}, wanted;
    name.bytes = exact(name.bytes, name.size), data.bytes = exact(data.bytes, data.size);
    struct text section = encoded(name, data);
    wanted.bytes = stream_after(kind, name, section, &wanted.size);
    edit_into(wanted.size - (wanted.size ? draw(2) : 0), kind, name, data, wanted);
    (void)it;
    free((void *)wanted.bytes), free((void *)section.bytes), free((void *)data.bytes), free((void *)name.bytes);
    return false;
}

/* ---- rounds */

/* Some bytes of the stream: often those of a section or of a custom section's data. Returns the event of which they are. */
static pulleynavy_event slice(struct actor *it) {
    pulleynavy_event event = events[draw((uint32_t)event_count)];
    size_t from = draw((uint32_t)stream_size + 1), to = draw((uint32_t)stream_size + 1);
    if (draw(4) && event.kind < PULLEYNAVY_EVENT_END && event.start >= start && event.end - start <= stream_size) {
        from = event.start - start;
        to = event.end - start;
        if (event.kind == PULLEYNAVY_EVENT_CUSTOM && draw(3)) from = event.data_offset - start;
        if (!draw(4) && from < to) from += draw((uint32_t)(to - from));
    }
    it->size = from < to ? to - from : from - to;
    it->bytes = exact(stream + (from < to ? from : to), it->size);
    it->offset = draw(10) ? start + from : UINT64_MAX - draw(60);
    return event;
}

static void begin_cursor(struct actor *it) {
    pulleynavy_event event = slice(it);
    it->walker = &WALKERS[draw(COUNT(WALKERS))];
    it->features = draw(4) ? PULLEYNAVY_ALL_FEATURES : PULLEYNAVY_FEATURE_MEMORY64;
    it->list_count = draw(3) ? draw(6) : draw(1000000);
    it->items = malloc(MOST_ITEMS * it->walker->size);
    rewind_cursor(it, &event);
    for (it->count = 0; it->count < MOST_ITEMS; it->count++)
        if (!it->walker->next(&it->cursor, it->bytes, it->size, it->items + it->count * it->walker->size, 1)) break;
    rewind_cursor(it, &event);
    it->step = step_cursor;
}

static void begin_reader(struct actor *it) {
    slice(it);
    it->reader = &READERS[draw(COUNT(READERS))];
    it->features = draw(4) ? PULLEYNAVY_ALL_FEATURES : PULLEYNAVY_FEATURE_MEMORY64;
    it->items = malloc(it->reader->size);
    it->reader->read(it->bytes, it->size, it->offset, it->features, it->items);
    it->step = step_reader;
}

static void begin(struct actor *it) {
    memset(it, 0, sizeof *it);
    switch (draw(10)) {
        case 0:
        case 1:
            it->parser = CALL(pulleynavy_parser_init, start, PULLEYNAVY_ALL_FEATURES);
            it->step = step_parser;
            break;
        case 2:
        case 3:
            it->feed = CALL(pulleynavy_feed_init, start, PULLEYNAVY_ALL_FEATURES);
            it->storage_size = draw(64);
            it->storage = calloc(it->storage_size + 1, 1);
            it->step = step_feeder;
            break;
        case 4:
            slice(it);
            it->step = step_others;
            break;
        case 5: it->step = draw(2) ? step_strip : step_edit; break;
        case 6: begin_reader(it); break;
        default: begin_cursor(it); break;
    }
}

static void end(struct actor *it) {
    free(it->storage);
    free(it->bytes);
    free(it->items);
}

static void play(const uint8_t *bytes, size_t size) {
    stream = exact(bytes, stream_size = size);
    for (uint32_t changes = draw(3) ? draw(4) : 0; size && changes; changes--) stream[draw((uint32_t)size)] = (uint8_t)draw(256);
    start = draw(3) ? 0 : draw(1000);
    memset(&bundle, (int)draw(256), sizeof bundle);
    read_plainly();
    for (size_t i = 0; i < ACTORS; i++) begin(&actors[i]);
    size_t left = event_count < MOST_EVENTS ? ACTORS : 0;
    for (size_t turns = 0; left && turns < 20000; turns++) {
        size_t i = draw((uint32_t)left);
        if (actors[i].step(&actors[i])) continue;
        struct actor over = actors[i];
        actors[i] = actors[--left];
        actors[left] = over;
    }
    for (size_t i = 0; i < ACTORS; i++) end(&actors[i]);
    free(stream);
}

/* The streams of a file, and its size. */
static uint8_t *streams_of(const char *path, size_t *size) {
    FILE *file = fopen(path, "rb");
    require(file && !fseek(file, 0, SEEK_END), "the file of streams");
    *size = (size_t)ftell(file);
    rewind(file);
    uint8_t *bytes = malloc(*size + 1);
    require(fread(bytes, 1, *size, file) == *size, "the file of streams");
    fclose(file);
    return bytes;
}

static unsigned long counted(void) {
    unsigned long all = 0;
    for (size_t i = 0; called[i]; i++) all += calls[i];
    for (size_t i = 0; i < COUNT(READERS); i++) {
        require(READERS[i].calls, READERS[i].name);
        all += READERS[i].calls;
    }
    for (size_t i = 0; i < COUNT(WALKERS); i++) {
        require(WALKERS[i].calls, WALKERS[i].name);
        all += WALKERS[i].calls;
    }
    return all;
}

int main(int count, char **words) {
    if (count != 4) return fprintf(stderr, "usage: sequences SEED SECONDS STREAMS\n"), 2;
    seed = words[1];
    state = strtoull(seed, NULL, 10) * 0x9e3779b97f4a7c15 + 1;
    size_t size;
    uint8_t *all = streams_of(words[3], &size);
    time_t until = time(NULL) + atoi(words[2]);
    for (size_t at = 0; time(NULL) < until || rounds < 1000; rounds++) {
        uint32_t next = all[at] | all[at + 1] << 8 | all[at + 2] << 16 | (uint32_t)all[at + 3] << 24;
        play(all + at + 4, next);
        at += 4 + next;
        if (at >= size) at = 0;
    }
    free(all);
    size_t others = 0;
    while (called[others]) others++;
    printf("%lu rounds, %lu calls of %zu functions\n", rounds, counted(), others + COUNT(READERS) + COUNT(WALKERS));
    return 0;
}
