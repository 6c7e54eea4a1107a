/* Lists the module on standard input, and under each section its items, each at its offset. The argument is how many items a call stores
   at most: up to 64. */
#include "binary.h"
#include "customs.h"
#include "show.h"

static void put_type(pulleynavy_type ty) {
    static const char *kinds[] = {"i32", "i64", "f32", "f64", "v128", "", "i8", "i16"};
    static const char *heaps[] = {"func", "extern", "any", "eq", "i31", "struct", "array", "exn", "none", "noextern", "nofunc", "noexn"};
    if (ty.kind != 5) put("%s", kinds[ty.kind]);
    else if (ty.heap == 12) put("%s:%" PRIu32, ty.nullable ? "null" : "ref", ty.index);
    else put("%s:%s", ty.nullable ? "null" : "ref", heaps[ty.heap]);
}

static void put_limit(uint32_t is_there, uint64_t limit) {
    if (is_there) put("%" PRIu64 " ", limit);
    else put("- ");
}

static void put_table(pulleynavy_table_type ty) {
    put("table(");
    put_type(ty.element);
    put(" %s %" PRIu64 " ", yes(ty.table64), ty.initial);
    put_limit(ty.has_maximum, ty.maximum);
    put("%s )", yes(ty.shared));
}

static void put_memory(pulleynavy_memory_type ty) {
    put("memory(%s %s %" PRIu64 " ", yes(ty.memory64), yes(ty.shared), ty.initial);
    put_limit(ty.has_maximum, ty.maximum);
    put_limit(ty.has_page_size, ty.page_size_log2);
    put(")");
}

static void put_global(pulleynavy_global_type ty) {
    put("global(");
    put_type(ty.content);
    put(" %s %s )", yes(ty.is_mutable), yes(ty.shared));
}

static bool field(struct window *w) {
    pulleynavy_field f = READ(pulleynavy_read_field_type, w);
    if (!passed(w, f.fault, f.consumed)) return false;
    put("field(");
    put_type(f.ty);
    put(" %s ) ", yes(f.is_mutable));
    return true;
}

static bool value_types(struct window *w, uint64_t count) {
    put("[");
    for (uint64_t i = 0; i < count; i++) {
        pulleynavy_value v = READ(pulleynavy_read_value_type, w);
        if (!passed(w, v.fault, v.consumed)) return false;
        put_type(v.ty);
        put(" ");
    }
    put("] ");
    return true;
}

static bool function_type(struct window *w, uint32_t params) {
    put("func(");
    if (!value_types(w, params)) return false;
    pulleynavy_number results = READ(pulleynavy_read_number, w);
    if (!passed(w, results.fault, results.consumed) || !value_types(w, results.value)) return false;
    put(") ");
    return true;
}

static bool fields(struct window *w, uint32_t kind, uint32_t count) {
    put(kind == 1 ? "array " : "struct [");
    for (uint32_t i = 0; i < count; i++)
        if (!field(w)) return false;
    put(kind == 1 ? "" : "] ");
    return true;
}

static bool subtype(struct window *w) {
    pulleynavy_subtype s = READ(pulleynavy_read_subtype, w);
    if (!passed(w, s.fault, s.consumed)) return false;
    put("sub(%s ", yes(s.is_final));
    put_limit(s.has_supertype, s.supertype);
    if (!(s.kind == 0 ? function_type(w, s.count) : fields(w, s.kind, s.count))) return false;
    put(") ");
    return true;
}

static bool type_group(struct window *w) {
    pulleynavy_type_group g = READ(pulleynavy_read_type_group, w);
    if (!passed(w, g.fault, g.consumed)) return false;
    put("rec(%s [", yes(g.is_explicit));
    for (uint32_t i = 0; i < g.count; i++)
        if (!subtype(w)) return false;
    put("] )");
    return true;
}

static void put_table_item(uint64_t from, uint64_t at, const pulleynavy_table *t) {
    (void)at;
    put("table(");
    put_table(t->ty);
    put(" ");
    if (t->has_init) put_range(from, t->init);
    else put("null");
    put(" )");
}

static void put_memory_item(uint64_t from, uint64_t at, const pulleynavy_memory *m) {
    (void)from, (void)at;
    put_memory(m->ty);
}

static void put_tag_item(uint64_t from, uint64_t at, const pulleynavy_tag *t) {
    (void)from, (void)at;
    put("tag(exception %" PRIu32 " )", t->func_type_index);
}

static void put_number_item(uint64_t from, uint64_t at, const pulleynavy_number *n) {
    (void)from, (void)at;
    put("%" PRIu64, n->value);
}

static void put_global_item(uint64_t from, uint64_t at, const pulleynavy_global *g) {
    (void)at;
    put("global(");
    put_global(g->ty);
    put(" ");
    put_range(from, g->init);
    put(" )");
}

static void put_export_item(uint64_t from, uint64_t at, const pulleynavy_export *e) {
    (void)at;
    static const char *kinds[] = {"func", "table", "memory", "global", "tag"};
    put("export(");
    put_bytes(from, e->name);
    put(" %s %" PRIu32 " )", kinds[e->kind], e->index);
}

/* The elements of a segment, which have no fault. */
static void put_elements(uint64_t from, const pulleynavy_element *e) {
    struct window w = {from + e->items.at, from + e->items.at + e->items.size};
    put("#%" PRIu32 "[", e->count);
    for (uint32_t i = 0; i < e->count; i++) {
        uint64_t at = w.at;
        if (e->has_expressions) {
            pulleynavy_expression x = READ(pulleynavy_read_expression, &w);
            passed(&w, x.fault, x.consumed);
            put("%" PRIu64 ":%" PRIu64 "..%" PRIu64 " ", at, at, w.at);
        } else {
            pulleynavy_number n = READ(pulleynavy_read_number, &w);
            passed(&w, n.fault, n.consumed);
            put("%" PRIu64 ":%" PRIu64 " ", at, n.value);
        }
    }
    put("]");
}

static void put_element_item(uint64_t from, uint64_t at, const pulleynavy_element *e) {
    static const char *kinds[] = {"passive ", "active ", "declared "};
    put("element(%s", kinds[e->kind]);
    if (e->kind == PULLEYNAVY_ELEMENT_ACTIVE) {
        put_limit(e->has_table, e->table);
        put_range(from, e->offset_expression);
        put(" ");
    }
    if (e->has_expressions) {
        put_type(e->ty);
        put(" ");
    }
    put_elements(from, e);
    put(" %" PRIu64 "..%" PRIu64 " )", at, at + e->consumed);
}

static void put_data_item(uint64_t from, uint64_t at, const pulleynavy_data *d) {
    put(d->kind ? "data(active %" PRIu32 " " : "data(passive ", d->memory);
    if (d->kind) {
        put_range(from, d->offset_expression);
        put(" ");
    }
    put_bytes(from, d->bytes);
    put(" %" PRIu64 "..%" PRIu64 " )", at, at + d->consumed);
}

static void put_import(uint64_t from, pulleynavy_span module_name, uint64_t name_from, pulleynavy_span name,
                       const pulleynavy_import_type *ty) {
    put("import(");
    put_bytes(from, module_name);
    put(" ");
    put_bytes(name_from, name);
    put(" ");
    if (ty->kind == 0 || ty->kind == 5) put("%s %" PRIu32, ty->kind ? "funcexact" : "func", ty->index);
    else if (ty->kind == 1) put_table(ty->table);
    else if (ty->kind == 2) put_memory(ty->memory);
    else if (ty->kind == 3) put_global(ty->global);
    else put("tag(exception %" PRIu32 " )", ty->index);
    put(" )");
}

static void put_import_item(uint64_t from, uint64_t at, const pulleynavy_import *i) {
    (void)at;
    put_import(from, i->module_name, from, i->name, &i->ty);
}

/* Prints the line of the item at an offset, or its fault. */
static bool print_item(uint64_t at, pulleynavy_fault found) {
    if (!found.kind) printf("  %" PRIu64 " %.*s\n", at, (int)used, line);
    else printf("  "), show_fault(found);
    used = 0;
    return !found.kind;
}

/* The imports of a bundle. */
static void bundle(uint64_t from, const pulleynavy_import *g) {
    struct window w = window_of(from, g->items);
    for (uint32_t i = 0; i < g->count; i++) {
        uint64_t at = w.at;
        pulleynavy_import_item one =
            pulleynavy_read_bundled_import(g, stream + at, (size_t)(w.end - at), at, PULLEYNAVY_ALL_FEATURES);
        if (passed(&w, one.fault, one.consumed)) put_import(from, g->module_name, at, one.name, &one.ty);
        if (!print_item(at, one.fault)) return;
    }
}

/* Defines a function that prints the items of a section, as many at a time as a batch has. */
#define SECTION(item, next) \
    static void item##_section(const pulleynavy_event *e) { \
        pulleynavy_items items = pulleynavy_items_init(e, PULLEYNAVY_ALL_FEATURES); \
        pulleynavy_##item out[MOST]; \
        uint64_t at = items.offset; \
        for (size_t n; (n = next(&items, stream + e->start, (size_t)(e->end - e->start), out, batch)) > 0;) \
            for (size_t i = 0; i < n; at += out[i].consumed, i++) { \
                if (!out[i].fault.kind) put_##item##_item(e->start, at, &out[i]); \
                print_item(at, out[i].fault); \
            } \
    }

SECTION(number, pulleynavy_next_numbers)
SECTION(table, pulleynavy_next_tables)
SECTION(memory, pulleynavy_next_memories)
SECTION(tag, pulleynavy_next_tags)
SECTION(global, pulleynavy_next_globals)
SECTION(export, pulleynavy_next_exports)
SECTION(element, pulleynavy_next_elements)
SECTION(data, pulleynavy_next_data)

/* Imports, those of bundles one by one. */
static void import_section(const pulleynavy_event *e) {
    pulleynavy_items items = pulleynavy_items_init(e, PULLEYNAVY_ALL_FEATURES);
    pulleynavy_import one;
    size_t size = (size_t)(e->end - e->start);
    for (uint64_t at = items.offset; pulleynavy_next_imports(&items, stream + e->start, size, &one, 1); at = items.offset) {
        if (one.kind) {
            bundle(e->start, &one);
            continue;
        }
        if (!one.fault.kind) put_import_item(e->start, at, &one);
        print_item(at, one.fault);
    }
}

/* Types, whose groups have no cursor: the offset of the first item, and each group by the calls for its parts. */
static void type_section(const pulleynavy_event *e) {
    struct window w = {e->data_offset, e->end};
    for (uint32_t i = 0; i < e->count; i++) {
        uint64_t at = w.at;
        type_group(&w);
        if (!print_item(at, fault)) return;
    }
    set_fault(PULLEYNAVY_FAULT_SIZE_MISMATCH, w.at);
    if (w.at < w.end) print_item(w.at, fault);
}

/* The items of a section, up to the first fault; bytes after them are one. */
static void items_of(const pulleynavy_event *e) {
    static void (*const sections[])(const pulleynavy_event *) = {
        0, type_section, import_section, number_section, table_section, memory_section, global_section, export_section, 0, element_section,
        0, data_section, 0, tag_section,
    };
    sections[e->id](e);
}

/* The name and the items of a custom section on one line. */
static void custom(const pulleynavy_event *e) {
    struct window data = {e->data_offset, e->end};
    uint8_t *name = stream + e->data_offset - e->name_size;
    put_bytes(e->data_offset - e->name_size, (pulleynavy_span){0, e->name_size});
    put(" ");
    size_t before = used;
    if (!put_custom(pulleynavy_classify_custom(name, e->name_size), data)) {
        used = before;
        put("unknown");
    }
    printf("  %.*s\n", (int)used, line);
    used = 0;
}

/* An event, and its items. */
static void show(const pulleynavy_event *e) {
    show_event(e);
    if (e->kind == PULLEYNAVY_EVENT_SECTION) items_of(e);
    if (e->kind == PULLEYNAVY_EVENT_CUSTOM) custom(e);
}

/* Standard input, and how many bytes it has. */
static size_t read_all(void) {
    size_t size = 0, most = 1 << 16, got;
    stream = malloc(most);
    while (stream && (got = fread(stream + size, 1, most - size, stdin)) > 0) {
        size += got;
        if (size == most) stream = realloc(stream, most *= 2);
    }
    line = malloc(room = 4096);
    if (!stream || !line) exit(3);
    return size;
}

/* Shows the events of the stream, which has this many bytes. Returns whether it has a fault. */
static bool show_all(size_t size) {
    pulleynavy_parser parser = pulleynavy_parser_init(0, PULLEYNAVY_ALL_FEATURES);
    pulleynavy_event events[MOST];
    for (size_t at = 0;;) {
        size_t n = pulleynavy_next_events(&parser, stream + at, size - at, true, events, batch);
        for (size_t i = 0; i < n; at += events[i].consumed, i++) show(&events[i]);
        if (events[n - 1].kind >= PULLEYNAVY_EVENT_END) return events[n - 1].kind == PULLEYNAVY_EVENT_FAULT;
    }
}

int main(int count, char **words) {
    use_binary_streams();
    if (count > 1) batch = strtoul(words[1], NULL, 10);
    if (batch < 1 || batch > MOST) return 2;
    bool is_fault = show_all(read_all());
    free(stream), free(line);
    return is_fault;
}
