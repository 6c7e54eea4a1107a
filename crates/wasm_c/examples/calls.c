/* Checks what the header says of faults, requests and cursors, on worked bytes. The status is 1 if something differs. */
#include <pulleynavy.h>
#include <stdio.h>
#include <string.h>

#define CHECK(holds) check(holds, #holds, __LINE__)

static int status;

static void check(bool holds, const char *what, int line) {
    if (holds) return;
    printf("line %d: %s\n", line, what);
    status = 1;
}

/* A wrong start byte of a module is a fault at the start of the section's data, for a later module too. */
static void core_modules(void) {
    static const uint8_t data[] = {0x02, 0x00, 0x01, 0x61, 0x01};
    pulleynavy_core_module one = pulleynavy_read_core_module(data + 1, 4, 1, PULLEYNAVY_ALL_FEATURES, 0);
    CHECK(!one.fault.kind && one.consumed == 3 && one.name.at == 2 && one.name.size == 1);
    one = pulleynavy_read_core_module(data + 4, 1, 4, PULLEYNAVY_ALL_FEATURES, 0);
    CHECK(PULLEYNAVY_FAULT_KIND(one.fault.kind) == PULLEYNAVY_FAULT_CORE_START_BYTE && one.fault.offset == 0);
    CHECK(PULLEYNAVY_FAULT_DETAIL(one.fault.kind) == PULLEYNAVY_CORE_START_MODULE);
    CHECK(!one.consumed && !one.name.at && !one.name.size);
    one = pulleynavy_read_core_module(data + 4, 1, 104, PULLEYNAVY_ALL_FEATURES, 100);
    CHECK(one.fault.offset == 100);
}

/* A request and a fault leave the parser unchanged, and the other fields of the event are 0. */
static void parser(void) {
    static const uint8_t bytes[] = {0x00, 0x61, 0x73, 0x6d, 0x09, 0x00, 0x00, 0x00};
    pulleynavy_parser p = pulleynavy_parser_init(7, PULLEYNAVY_ALL_FEATURES);
    uint8_t before[sizeof p];
    memcpy(before, &p, sizeof p);
    pulleynavy_event e = pulleynavy_parse(&p, bytes, 5, false);
    CHECK(e.kind == PULLEYNAVY_EVENT_NEED_MORE && e.hint >= 1 && !e.consumed && !e.fault.kind);
    CHECK(!memcmp(before, &p, sizeof p));
    e = pulleynavy_parse(&p, bytes, sizeof bytes, false);
    CHECK(e.kind == PULLEYNAVY_EVENT_FAULT && e.fault.kind == PULLEYNAVY_FAULT_UNKNOWN_VERSION && e.fault.offset == 11);
    CHECK(e.start == 11 && e.end == 11 && !e.consumed && !e.hint);
    CHECK(!memcmp(before, &p, sizeof p));
}

/* So does a request of a feeder, and a push without room changes neither feeder nor storage. */
static void feeder(void) {
    static const uint8_t bytes[] = {0x00, 0x61, 0x73, 0x6d, 0x01, 0x00, 0x00, 0x00};
    uint8_t storage[8] = {0}, stored[8];
    pulleynavy_feed f = pulleynavy_feed_init(0, PULLEYNAVY_ALL_FEATURES);
    uint8_t before[sizeof f];
    CHECK(pulleynavy_feed_push(&f, storage, sizeof storage, bytes, 5));
    memcpy(before, &f, sizeof f), memcpy(stored, storage, sizeof storage);
    CHECK(pulleynavy_feed_step(&f, storage, sizeof storage).kind == PULLEYNAVY_EVENT_NEED_MORE);
    CHECK(!memcmp(before, &f, sizeof f));
    CHECK(!pulleynavy_feed_push(&f, storage, sizeof storage, bytes, 4));
    CHECK(!memcmp(before, &f, sizeof f) && !memcmp(stored, storage, sizeof storage));
    CHECK(pulleynavy_feed_push(&f, storage, sizeof storage, bytes + 5, 3));
    CHECK(pulleynavy_feed_step(&f, storage, sizeof storage).kind == PULLEYNAVY_EVENT_VERSION);
}

/* A push without room after the held bytes moves them to the front, whether or not they overlap their new place. */
static void moving(void) {
    static const uint8_t header[] = {0x00, 0x61, 0x73, 0x6d, 0x01, 0x00, 0x00, 0x00};
    static const uint8_t section[] = {0, 20, 1, 'a', 1, 2, 3, 4, 5, 6, 7, 8, 9, 10, 11, 12, 13, 14, 15, 16, 17, 18};
    for (size_t held = 3; held <= 15; held += 12) {
        uint8_t storage[23];
        pulleynavy_feed f = pulleynavy_feed_init(0, PULLEYNAVY_ALL_FEATURES);
        CHECK(pulleynavy_feed_push(&f, storage, sizeof storage, header, sizeof header));
        CHECK(pulleynavy_feed_push(&f, storage, sizeof storage, section, held));
        CHECK(pulleynavy_feed_step(&f, storage, sizeof storage).kind == PULLEYNAVY_EVENT_VERSION);
        CHECK(pulleynavy_feed_push(&f, storage, sizeof storage, section + held, sizeof section - held));
        CHECK(f.mark == 0 && f.end == sizeof section && !memcmp(storage, section, sizeof section));
        pulleynavy_event e = pulleynavy_feed_step(&f, storage, sizeof storage);
        CHECK(e.kind == PULLEYNAVY_EVENT_CUSTOM && e.start == 10 && e.at == 2 && e.consumed == sizeof section);
    }
}

/* An event says where its bytes are, in those of the call or in the storage, and a section where its first item begins. */
static void places(void) {
    static const uint8_t bytes[] = {0x00, 0x61, 0x73, 0x6d, 0x01, 0x00, 0x00, 0x00, 0x07, 0x05, 0x01, 0x01, 0x61, 0x00, 0x00};
    pulleynavy_parser p = pulleynavy_parser_init(0, PULLEYNAVY_ALL_FEATURES);
    CHECK(pulleynavy_parse(&p, bytes, sizeof bytes, true).consumed == 8);
    pulleynavy_event e = pulleynavy_parse(&p, bytes + 8, sizeof bytes - 8, true);
    CHECK(e.kind == PULLEYNAVY_EVENT_SECTION && e.id == PULLEYNAVY_SECTION_EXPORT && e.count == 1);
    CHECK(e.start == 10 && e.data_offset == 11 && e.end == 15 && e.at == 2 && e.consumed == 7);
    uint8_t storage[sizeof bytes];
    pulleynavy_feed f = pulleynavy_feed_init(0, PULLEYNAVY_ALL_FEATURES);
    CHECK(pulleynavy_feed_push(&f, storage, sizeof storage, bytes, sizeof bytes));
    CHECK(pulleynavy_feed_step(&f, storage, sizeof storage).kind == PULLEYNAVY_EVENT_VERSION);
    CHECK(pulleynavy_feed_step(&f, storage, sizeof storage).at == 10);
    pulleynavy_items items = pulleynavy_items_init(&e, PULLEYNAVY_ALL_FEATURES);
    pulleynavy_export out[2];
    CHECK(items.offset == 11 && items.position == 1 && items.remaining == 1);
    CHECK(pulleynavy_next_exports(&items, bytes + 10, 5, out, 2) == 1 && out[0].name.at == 2 && out[0].name.size == 1);
    CHECK(items.offset == 15 && items.is_ended && !pulleynavy_next_exports(&items, bytes + 10, 5, out, 2));
}

/* A batch has the events up to one that consumes nothing, and says where each is in the bytes of the call. */
static void batches(void) {
    static const uint8_t bytes[] = {0x00, 0x61, 0x73, 0x6d, 0x01, 0x00, 0x00, 0x00, 0x00, 0x02, 0x01, 0x61, 0x00, 0x02, 0x01, 0x62};
    pulleynavy_parser p = pulleynavy_parser_init(0, PULLEYNAVY_ALL_FEATURES);
    pulleynavy_event e[5];
    CHECK(!pulleynavy_next_events(&p, bytes, sizeof bytes, true, e, 0) && !p.offset);
    CHECK(pulleynavy_next_events(&p, bytes, sizeof bytes - 1, false, e, 5) == 3 && e[2].kind == PULLEYNAVY_EVENT_NEED_MORE);
    CHECK(e[1].at == 10 && e[1].start == 10 && e[2].at == 12 && p.offset == 12);
    CHECK(pulleynavy_next_events(&p, bytes + 12, 4, true, e, 5) == 2 && e[0].start == 14 && e[0].at == 2);
    CHECK(e[1].kind == PULLEYNAVY_EVENT_END && e[1].at == 4 && p.offset == 16);
    CHECK(pulleynavy_next_events(&p, bytes, 0, true, e, 5) == 1 && e[0].kind == PULLEYNAVY_EVENT_END);
    p = pulleynavy_parser_init(0, PULLEYNAVY_ALL_FEATURES);
    CHECK(pulleynavy_next_events(&p, bytes, 9, true, e, 5) == 2 && e[1].kind == PULLEYNAVY_EVENT_FAULT && e[1].fault.offset == 9);
}

static uint32_t kind_of(pulleynavy_fault fault) { return PULLEYNAVY_FAULT_KIND(fault.kind); }

/* A list ends at trailing bytes and at a fault, and a cursor stays as it is where there is no room. */
static void lists(void) {
    static const uint8_t numbers[] = {0x05, 0x06, 0x80};
    pulleynavy_number out[3];
    pulleynavy_items items = pulleynavy_list_init(9, 1, 0), before = items;
    CHECK(!pulleynavy_next_numbers(&items, numbers, 2, out, 0) && items.offset == before.offset && !items.is_ended);
    CHECK(pulleynavy_next_numbers(&items, numbers, 2, out, 3) == 2 && out[0].value == 5);
    CHECK(kind_of(out[1].fault) == PULLEYNAVY_FAULT_SIZE_MISMATCH && out[1].fault.offset == 10 && !out[1].consumed);
    CHECK(!pulleynavy_next_numbers(&items, numbers, 2, out, 3));
    items = pulleynavy_list_init(0, 9, 0);
    CHECK(pulleynavy_next_numbers(&items, numbers, 3, out, 3) == 3 && kind_of(out[2].fault) == PULLEYNAVY_FAULT_UNEXPECTED_EOF);
    CHECK(items.is_ended && !pulleynavy_next_numbers(&items, numbers, 3, out, 3));
    items = pulleynavy_list_init(UINT64_MAX, 1, 0);
    CHECK(pulleynavy_next_numbers(&items, numbers, 1, out, 3) == 1 && kind_of(out[0].fault) == PULLEYNAVY_FAULT_OFFSET_RANGE);
    memset(&items, 0xff, sizeof items);
    CHECK(!pulleynavy_next_numbers(&items, numbers, 3, out, 3));
    memset(&items, 0xff, sizeof items), items.is_ended = 0;
    CHECK(pulleynavy_next_numbers(&items, numbers, 3, out, 3) == 1 && kind_of(out[0].fault) == PULLEYNAVY_FAULT_UNEXPECTED_EOF);
}

/* Names and subsections continue after an entry out of order, and subsections after a malformed one. */
static void entries(void) {
    static const uint8_t names[] = {0x01, 0x01, 'a', 0x01, 0x01, 'b', 0x02, 0x01, 'c'};
    static const uint8_t parts[] = {0x01, 0x7f, 0x02, 0x00, 0x01, 0x01, 'a'};
    pulleynavy_naming named[4];
    pulleynavy_items items = pulleynavy_list_init(5, 3, 0);
    CHECK(pulleynavy_next_namings(&items, names, sizeof names, named, 4) == 3 && named[0].index == 1 && named[2].index == 2);
    CHECK(kind_of(named[1].fault) == PULLEYNAVY_FAULT_NAMES_ORDER && named[1].fault.offset == 8 && named[2].name.at == 8);
    pulleynavy_subsection part[4];
    items = pulleynavy_list_init(0, 0, 0);
    CHECK(pulleynavy_next_subsections(&items, parts, sizeof parts, part, 4) == 3 && part[1].id == 2 && part[2].contents.at == 6);
    CHECK(kind_of(part[0].fault) == PULLEYNAVY_FAULT_UNEXPECTED_EOF && !part[0].id && !part[1].fault.kind);
    items = pulleynavy_list_init(0, 0, 0);
    CHECK(pulleynavy_next_name_subsections(&items, parts, sizeof parts, part, 4) == 3 && !part[1].fault.kind);
    CHECK(kind_of(part[2].fault) == PULLEYNAVY_FAULT_NAME_SECTION_ORDER && part[2].fault.offset == 4);
}

/* Numbers with a sign, texts without a limit, types on their own and instructions. */
static void parts(void) {
    static const uint8_t number[] = {0x7f}, table[] = {0x70, 0x00, 0x03}, global[] = {0x7f, 0x01}, null[] = {0xd0, 0x70}, array[] = {0xfb, 0x06, 0x05};
    static const uint8_t wide[] = {0xff, 0xff, 0xff, 0xff, 0xff, 0xff, 0xff, 0xff, 0xff, 0x01};
    static uint8_t text[100004] = {0xa1, 0x8d, 0x06};
    CHECK(pulleynavy_read_s32(number, 1, 0, 0).value == -1 && pulleynavy_read_s33(number, 1, 0, 0).value == -1);
    CHECK(pulleynavy_read_s64(number, 1, 0, 0).value == -1 && pulleynavy_read_u64(wide, sizeof wide, 0, 0).value == UINT64_MAX);
    CHECK(kind_of(pulleynavy_read_name(text, sizeof text, 0, 0).fault) == PULLEYNAVY_FAULT_STRING_SIZE);
    CHECK(pulleynavy_read_text(text, sizeof text, 0, 0).name.size == 100001);
    CHECK(pulleynavy_read_heap_type(table, 1, 0, 0).ty.heap == PULLEYNAVY_HEAP_FUNC);
    CHECK(pulleynavy_read_reference_type(table, 1, 0, 0).ty.nullable);
    CHECK(pulleynavy_read_table_type(table, sizeof table, 0, 0).ty.initial == 3);
    CHECK(pulleynavy_read_global_type(global, sizeof global, 0, 0).ty.is_mutable);
    CHECK(pulleynavy_read_instruction(null, sizeof null, 0, 0).opcode == PULLEYNAVY_OP_REF_NULL);
    pulleynavy_instruction one = pulleynavy_read_instruction(array, sizeof array, 0, 0);
    CHECK(one.opcode == PULLEYNAVY_OP_ARRAY_NEW && one.index == 5 && one.consumed == 3);
}

/* The ends of parts that have no count. */
static void ends(void) {
    static const uint8_t left[] = {0};
    CHECK(!pulleynavy_check_custom_end(left, 0, 7).kind && !pulleynavy_check_name_end(left, 0, 7).kind);
    CHECK(kind_of(pulleynavy_check_custom_end(left, 1, 7)) == PULLEYNAVY_FAULT_CUSTOM_TRAILING);
    CHECK(kind_of(pulleynavy_check_name_end(left, 1, 7)) == PULLEYNAVY_FAULT_NAME_TRAILING);
    CHECK(pulleynavy_check_name_end(left, 1, 7).offset == 7);
}

/* The enumerators of coded fields, on worked items. */
static void enumerators(void) {
    static const uint8_t export[] = {0x01, 0x61, 0x04, 0x05}, symbol[] = {0x03, 0x10, 0x05}, relocation[] = {0x0d, 0x01, 0x02};
    static const uint8_t type[] = {0x63, 0x6e}, element[] = {0x03, 0x00, 0x00}, data[] = {0x01, 0x00};
    CHECK(pulleynavy_read_export(export, sizeof export, 0, 0).kind == PULLEYNAVY_EXTERNAL_TAG);
    pulleynavy_symbol one = pulleynavy_read_symbol(symbol, sizeof symbol, 0, 0);
    CHECK(one.kind == PULLEYNAVY_SYMBOL_SECTION && one.flags == PULLEYNAVY_SYMBOL_FLAG_UNDEFINED);
    CHECK(pulleynavy_read_relocation(relocation, sizeof relocation, 0, 0).kind == PULLEYNAVY_RELOCATION_GLOBAL_INDEX_I32);
    pulleynavy_type ty = pulleynavy_read_value_type(type, sizeof type, 0, 0).ty;
    CHECK(ty.kind == PULLEYNAVY_TYPE_REF && ty.nullable && ty.heap == PULLEYNAVY_HEAP_ANY);
    CHECK(pulleynavy_read_element(element, sizeof element, 0, 0).kind == PULLEYNAVY_ELEMENT_DECLARED);
    CHECK(pulleynavy_read_data(data, sizeof data, 0, 0).kind == PULLEYNAVY_DATA_PASSIVE);
    CHECK(pulleynavy_classify_custom((const uint8_t *)"dylink.0", 8) == PULLEYNAVY_CUSTOM_DYLINK0);
}

#define EDIT(kind, name, name_size, out_size) pulleynavy_edit(module, sizeof module, kind, name, name_size, data, 1, out, out_size)

static const uint8_t module[] = {0x00, 0x61, 0x73, 0x6d, 0x01, 0x00, 0x00, 0x00, 0x00, 0x02, 0x01, 0x61, 0x01, 0x01, 0x00};

/* An edit writes all of the stream or nothing, and says why. */
static void edits(void) {
    static const uint8_t a[] = {'a'}, data[] = {'z'}, long_name[100001], replaced[] = {0x00, 0x03, 0x01, 0x61, 'z', 0x01, 0x01, 0x00};
    uint8_t out[20], unused[sizeof out];
    memset(out, 0xaa, sizeof out), memset(unused, 0xaa, sizeof out);
    pulleynavy_edited e = EDIT(PULLEYNAVY_EDIT_REPLACE, a, 1, 15);
    CHECK(e.status == PULLEYNAVY_EDIT_STATUS_NO_ROOM && e.size == 16 && !e.fault.kind);
    CHECK(EDIT(4, a, 1, 20).status == PULLEYNAVY_EDIT_STATUS_UNKNOWN_KIND && !EDIT(UINT32_MAX, a, 1, 20).size);
    CHECK(EDIT(PULLEYNAVY_EDIT_REMOVE, (const uint8_t *)"\xff", 1, 20).status == PULLEYNAVY_EDIT_STATUS_NAME_NOT_UTF8);
    CHECK(EDIT(PULLEYNAVY_EDIT_APPEND, long_name, 100001, 20).status == PULLEYNAVY_EDIT_STATUS_SECTION_TOO_LARGE);
    CHECK(EDIT(PULLEYNAVY_EDIT_APPEND, long_name, 100000, 20).size == 15 + 4 + 3 + 100001);
    e = pulleynavy_edit(module, 14, PULLEYNAVY_EDIT_REMOVE, a, 1, data, 0, out, sizeof out);
    CHECK(e.status == PULLEYNAVY_EDIT_STATUS_MALFORMED && e.fault.kind == PULLEYNAVY_FAULT_UNEXPECTED_EOF && e.fault.offset == 14 && !e.size);
    CHECK(!memcmp(out, unused, sizeof out));
    e = EDIT(PULLEYNAVY_EDIT_REPLACE, a, 1, 16);
    CHECK(!e.status && e.size == 16 && !memcmp(out, module, 8) && !memcmp(out + 8, replaced, 8) && !memcmp(out + 16, unused, 4));
    CHECK(EDIT(PULLEYNAVY_EDIT_REMOVE, a, 1, 20).size == 11 && EDIT(PULLEYNAVY_EDIT_REMOVE, data, 1, 20).size == 15);
    CHECK(EDIT(PULLEYNAVY_EDIT_KEEP, data, 1, 20).size == 11 && EDIT(PULLEYNAVY_EDIT_KEEP, a, 1, 20).size == 15);
}

/* A custom section is written whole or not at all. */
static void encoding(void) {
    static const uint8_t alpha[] = {0xce, 0xb1}, wanted[] = {0x00, 0x04, 0x02, 0xce, 0xb1, 0x07}, data[] = {7}, zeros[126];
    uint8_t out[131], unused[sizeof out];
    memset(out, 0xaa, sizeof out), memset(unused, 0xaa, sizeof out);
    CHECK(pulleynavy_encode_custom(alpha, 2, data, 1, out, 5) == 6 && pulleynavy_encode_custom(alpha, 1, data, 1, out, 9) == 0);
    CHECK(!memcmp(out, unused, sizeof out));
    CHECK(pulleynavy_encode_custom(alpha, 2, data, 1, out, 6) == 6 && !memcmp(out, wanted, 6) && !memcmp(out + 6, unused, 4));
    CHECK(pulleynavy_encode_custom(zeros, 0, zeros, 126, out, sizeof out) == 129 && out[1] == 127);
    CHECK(pulleynavy_encode_custom(zeros, 1, zeros, 126, out, sizeof out) == 131 && out[1] == 0x80 && out[2] == 0x01);
}

int main(void) {
    CHECK(pulleynavy_version() == PULLEYNAVY_VERSION_NUMBER);
    core_modules(), parser(), feeder(), moving(), places(), batches(), lists(), entries(), parts(), ends(), enumerators(), edits(), encoding();
    return status;
}
