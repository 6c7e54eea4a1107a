/* Reads the stream on standard input with skips in any order between its chunks: `skips COUNT` tries this many orders. It aborts if an event
   or a skipped part differs from the event of the whole stream, or if a skip does not end where that event does. */
#include "binary.h"
#include <pulleynavy.h>
#include <stdio.h>
#include <stdlib.h>
#include <string.h>

static uint8_t bytes[1 << 20];
static size_t size;
/* The events of the whole stream, and the parser before each. */
static pulleynavy_event *events;
static pulleynavy_parser *parsers;
static size_t event_count;

/* An order: its parser, how many bytes have arrived, and the number of the next event. */
struct order {
    pulleynavy_parser parser;
    size_t arrived, next;
};

static uint32_t drawn(uint32_t most) {
    static uint64_t state = 1;
    state = state * 6364136223846793005u + 1442695040888963407u;
    return (uint32_t)(state >> 33) % most;
}

static void require(bool holds) {
    if (!holds) abort();
}

static bool is_last(const pulleynavy_event *event) { return event->kind >= PULLEYNAVY_EVENT_END; }

static void read_whole(void) {
    pulleynavy_parser parser = pulleynavy_parser_init(0, PULLEYNAVY_ALL_FEATURES);
    size_t room = 0;
    do {
        if (event_count == room) {
            room = 2 * room + 64;
            events = realloc(events, room * sizeof *events);
            parsers = realloc(parsers, room * sizeof *parsers);
            require(events && parsers);
        }
        size_t at = (size_t)parser.offset;
        parsers[event_count] = parser;
        events[event_count] = pulleynavy_parse(&parser, bytes + at, size - at, true);
    } while (!is_last(&events[event_count++]));
}

/* Whether an event is the next one of the whole stream. That of a skip says nothing of the first item of a section with a count. */
static bool is_next(struct order *order, const pulleynavy_event *one, bool is_skip) {
    const pulleynavy_event *whole = &events[order->next++];
    return one->kind == whole->kind && one->id == whole->id && one->count == whole->count && one->size == whole->size &&
           one->start == whole->start && one->end == whole->end && one->name_size == whole->name_size &&
           (is_skip || one->consumed == whole->consumed) && (is_skip || one->data_offset == whole->data_offset) &&
           one->fault.kind == whole->fault.kind && one->fault.offset == whole->fault.offset;
}

/* Skips the next part, if it may. Returns whether the order goes on: a part that the stream lacks the end of is its last. */
static bool skip(struct order *order) {
    size_t at = (size_t)order->parser.offset;
    pulleynavy_parser before = order->parser;
    if (at > order->arrived) return true;
    pulleynavy_event part = pulleynavy_skip(&order->parser, bytes + at, order->arrived - at);
    if (part.kind == PULLEYNAVY_EVENT_NEED_MORE) {
        require(!memcmp(&before, &order->parser, sizeof before));
        return true;
    }
    require(part.end == order->parser.offset && part.consumed == order->arrived - at && part.end > order->arrived);
    if (part.end <= size) {
        require(is_next(order, &part, true));
        return true;
    }
    const pulleynavy_event *last = &events[order->next];
    require(last->fault.kind == PULLEYNAVY_FAULT_UNEXPECTED_EOF && last->fault.offset == part.start);
    return false;
}

/* Skips the remaining bodies, also where a part of them was skipped. Returns whether the order goes on: the whole stream may have a fault in
   what it skips. */
static bool skip_section(struct order *order) {
    pulleynavy_parser before = order->parser;
    uint32_t skipped = pulleynavy_skip_section(&order->parser);
    require(order->parser.offset == before.offset + skipped);
    if (!memcmp(&before, &order->parser, sizeof before)) return true;
    while (events[order->next].kind == PULLEYNAVY_EVENT_BODY) order->next++;
    return parsers[order->next].offset == order->parser.offset && !parsers[order->next].bodies;
}

/* Takes the next event, if it may. Returns whether the order goes on. */
static bool take(struct order *order, bool is_all) {
    size_t at = (size_t)order->parser.offset;
    if (at > order->arrived) return !is_all;
    pulleynavy_event event = pulleynavy_parse(&order->parser, bytes + at, order->arrived - at, is_all);
    if (event.kind == PULLEYNAVY_EVENT_NEED_MORE) return !is_all;
    require(is_next(order, &event, false));
    return !is_last(&event);
}

static bool step(struct order *order) {
    uint32_t missing = (uint32_t)(size - order->arrived);
    switch (drawn(8)) {
        case 0: return skip_section(order);
        case 1: return skip(order);
        case 2: order->arrived += drawn((missing < 40 ? missing : 40) + 1); return true;
        case 3: return take(order, order->arrived == size);
        default: return take(order, false);
    }
}

int main(int count, char **words) {
    use_binary_streams();
    size = fread(bytes, 1, sizeof bytes, stdin);
    read_whole();
    for (int tries = count > 1 ? atoi(words[1]) : 1; tries > 0; tries--) {
        struct order order = {pulleynavy_parser_init(0, PULLEYNAVY_ALL_FEATURES), 0, 0};
        while (step(&order)) {}
    }
    free(events);
    free(parsers);
    return 0;
}
