/* Shows the items of the known custom sections, each section on one line. */
#ifndef CUSTOMS_H
#define CUSTOMS_H
#include "reading.h"

/* Puts the item at a window's start and moves past it; returns false after a fault. */
typedef bool reader(struct window *w);

/* The same for a subsection with this id, whose bytes are the window. */
typedef bool part_reader(uint32_t id, struct window *w);

/* Stores the next items of the list that is the window; spans begin where it does. */
#define NEXT(call, items, w, out) call(&items, stream + (w).at, (size_t)((w).end - (w).at), out, batch)

static struct window window_of(uint64_t from, pulleynavy_span span) {
    return (struct window){from + span.at, from + span.at + span.size};
}

static bool read_number(struct window *w, uint64_t *value) {
    pulleynavy_number n = READ(pulleynavy_read_number, w);
    *value = n.value;
    return passed(w, n.fault, n.consumed);
}

static bool put_name(struct window *w, pulleynavy_name n) {
    uint64_t from = w->at;
    if (!passed(w, n.fault, n.consumed)) return false;
    put_bytes(from, n.name);
    return true;
}

static bool text(struct window *w) { return put_name(w, READ(pulleynavy_read_text, w)); }

/* Puts a fault in place of what was put since `before`. */
static void put_fault_over(size_t before) {
    used = before;
    put_fault();
}

/* Puts the fault of an item of a list, if it has one. */
static bool put_if_fault(pulleynavy_fault found) {
    if (!found.kind) return false;
    fault = found;
    put_fault();
    return true;
}

/* A cursor after a count, and the window from there on; returns false if the count has a fault. */
static bool begin(struct window *w, pulleynavy_items *items) {
    uint64_t count;
    if (!read_number(w, &count)) return false;
    *items = pulleynavy_list_init(w->at, (uint32_t)count, PULLEYNAVY_ALL_FEATURES);
    return true;
}

/* A list whose items have no fault. */
static bool owned(struct window *w, reader *item) {
    uint64_t count;
    if (!read_number(w, &count)) return false;
    put("[");
    for (uint64_t i = 0; i < count; i++) {
        if (!item(w)) return false;
        put(" ");
    }
    put("]");
    return true;
}

/* Defines a function that puts the items of a list, each at its offset, up to the first fault. */
#define LISTED(name, kind, next) \
    static bool name(struct window w) { \
        pulleynavy_items items; \
        pulleynavy_##kind out[MOST]; \
        put("%" PRIu64 "..%" PRIu64 " ", w.at, w.end); \
        if (!begin(&w, &items)) return false; \
        put("#%" PRIu32 "[", items.remaining); \
        uint64_t at = w.at; \
        for (size_t n; (n = NEXT(next, items, w, out)) > 0;) \
            for (size_t i = 0; i < n; at += out[i].consumed, i++) { \
                if (put_if_fault(out[i].fault)) continue; \
                put("%" PRIu64 ":", at); \
                put_##kind(w.at, at, &out[i]); \
                put(" "); \
            } \
        put("]"); \
        return true; \
    }

/* Defines functions that put the entries of a map: those out of order are faults among the others. */
#define MAPPED(name, kind, next) \
    static void put_##kind##s(struct window w, pulleynavy_items items) { \
        pulleynavy_##kind out[MOST]; \
        for (size_t n; (n = NEXT(next, items, w, out)) > 0;) \
            for (size_t i = 0; i < n; i++) { \
                if (put_if_fault(out[i].fault)) continue; \
                put_##kind(w.at, &out[i]); \
                put(" "); \
            } \
    } \
    static bool name(struct window w) { \
        pulleynavy_items items; \
        if (!begin(&w, &items)) return false; \
        put("{"); \
        put_##kind##s(w, items); \
        put("}"); \
        return true; \
    }

/* Subsections; after one that can't be read the next one follows. The ids of those with readable contents ascend where `is_ordered`.
   pulleynavy_next_name_subsections compares ids too, but before anybody has read the contents. */
static void parts(struct window w, part_reader *part, bool is_ordered) {
    pulleynavy_items items = pulleynavy_list_init(w.at, 0, PULLEYNAVY_ALL_FEATURES);
    pulleynavy_subsection out[MOST];
    uint32_t least = 0;
    put("<");
    for (size_t n; (n = NEXT(pulleynavy_next_subsections, items, w, out)) > 0;)
        for (size_t i = 0; i < n; i++) {
            size_t before = used;
            if (put_if_fault(out[i].fault)) continue;
            struct window contents = window_of(w.at, out[i].contents);
            bool is_read = part(out[i].id, &contents), is_late = is_read && is_ordered && out[i].id < least;
            if (is_late) set_fault(PULLEYNAVY_FAULT_NAME_SECTION_ORDER, contents.end - out[i].consumed);
            if (is_read && !is_late) put(" "), least = out[i].id + 1;
            else put_fault_over(before);
        }
    put(">");
}

static bool unknown_part(uint32_t id, const struct window *w) {
    put("unknown %" PRIu32 " ", id);
    put_bytes(w->at, (pulleynavy_span){0, (size_t)(w->end - w->at)});
    put(" %" PRIu64 "..%" PRIu64, w->at, w->end);
    return true;
}

/* ---- names */

static void put_naming(uint64_t from, const pulleynavy_naming *n) {
    put("name(%" PRIu32 " ", n->index);
    put_bytes(from, n->name);
    put(" )");
}

MAPPED(name_map, naming, pulleynavy_next_namings)

static void put_indirect_naming(uint64_t from, const pulleynavy_indirect_naming *n) {
    struct window names = window_of(from, n->names);
    put("names(%" PRIu32 " {", n->index);
    put_namings(names, pulleynavy_list_init(names.at, n->count, PULLEYNAVY_ALL_FEATURES));
    put("} )");
}

MAPPED(indirect_name_map, indirect_naming, pulleynavy_next_indirect_namings)

static bool module_name(struct window *w) {
    uint64_t from = w->at;
    pulleynavy_name n = READ(pulleynavy_read_name, w);
    if (!passed(w, n.fault, n.consumed)) return false;
    fault = pulleynavy_check_name_end(stream + w->at, (size_t)(w->end - w->at), w->at);
    if (fault.kind) return false;
    put("module ");
    put_bytes(from, n.name);
    put(" %" PRIu64 "..%" PRIu64, from, w->end);
    return true;
}

static bool name_part(uint32_t id, struct window *w) {
    switch (id) {
    case 0: return module_name(w);
    case 2: case 3: case 10: case 12: case 13:
        put("%" PRIu32, id);
        return indirect_name_map(*w);
    case 1: case 4: case 5: case 6: case 7: case 8: case 9: case 11:
        put("%" PRIu32, id);
        return name_map(*w);
    default: return unknown_part(id, w);
    }
}

/* ---- producers and branch hints */

static void put_producers_value(uint64_t from, uint64_t at, const pulleynavy_producers_value *v) {
    (void)at;
    put("value(");
    put_bytes(from, v->name);
    put(" ");
    put_bytes(from, v->version);
    put(" )");
}

LISTED(producers_values, producers_value, pulleynavy_next_producers_values)

static void put_producers_field(uint64_t from, uint64_t at, const pulleynavy_producers_field *f) {
    (void)at;
    put("field(");
    put_bytes(from, f->name);
    put(" ");
    producers_values((struct window){from + f->name.at + f->name.size, from + f->values.at + f->values.size});
    put(" )");
}

LISTED(producers_fields, producers_field, pulleynavy_next_producers_fields)

static void put_branch_hint(uint64_t from, uint64_t at, const pulleynavy_branch_hint *h) {
    (void)from, (void)at;
    put("hint(%" PRIu32 " %s )", h->func_offset, yes(h->taken));
}

LISTED(branch_hints, branch_hint, pulleynavy_next_branch_hints)

static void put_hinted_function(uint64_t from, uint64_t at, const pulleynavy_hinted_function *f) {
    struct window hints = {at, from + f->hints.at + f->hints.size};
    uint64_t func;
    put("function(%" PRIu32 " ", f->func);
    read_number(&hints, &func);
    branch_hints(hints);
    put(" )");
}

LISTED(hinted_functions, hinted_function, pulleynavy_next_hinted_functions)

/* ---- dynamic linking */

static bool dylink_memory(struct window *w) {
    pulleynavy_dylink_memory m = READ(pulleynavy_read_dylink_memory, w);
    put("meminfo(%" PRIu32 " %" PRIu32 " %" PRIu32 " %" PRIu32 " )", m.memory_size, m.memory_alignment, m.table_size, m.table_alignment);
    return passed(w, m.fault, m.consumed);
}

static bool dylink_export(struct window *w) {
    pulleynavy_dylink_export e = READ(pulleynavy_read_dylink_export, w);
    put("export(");
    put_bytes(w->at, e.name);
    put(" %" PRIu32 " )", e.flags);
    return passed(w, e.fault, e.consumed);
}

static bool dylink_import(struct window *w) {
    pulleynavy_dylink_import i = READ(pulleynavy_read_dylink_import, w);
    put("import(");
    put_bytes(w->at, i.module_name);
    put(" ");
    put_bytes(w->at, i.field);
    put(" %" PRIu32 " )", i.flags);
    return passed(w, i.fault, i.consumed);
}

static bool dylink_part(uint32_t id, struct window *w) {
    if (id == 0 || id > 6) return unknown_part(id, w);
    put("%" PRIu32 " ", id);
    switch (id) {
    case 1: return dylink_memory(w);
    case 3: return owned(w, dylink_export);
    case 4: return owned(w, dylink_import);
    case 6: return text(w);
    default: return owned(w, text);
    }
}

/* ---- linking and relocations */

static void put_linking_segment(uint64_t from, uint64_t at, const pulleynavy_linking_segment *s) {
    (void)at;
    put("segment(");
    put_bytes(from, s->name);
    put(" %" PRIu32 " %" PRIu32 " )", s->alignment, s->flags);
}

LISTED(linking_segments, linking_segment, pulleynavy_next_linking_segments)

static void put_init_function(uint64_t from, uint64_t at, const pulleynavy_init_function *i) {
    (void)from, (void)at;
    put("init(%" PRIu32 " %" PRIu32 " )", i->priority, i->symbol);
}

LISTED(init_functions, init_function, pulleynavy_next_init_functions)

static void put_comdat_symbol(uint64_t from, uint64_t at, const pulleynavy_comdat_symbol *s) {
    static const char *kinds[] = {"data", "func", "global", "event", "table", "section"};
    (void)from, (void)at;
    put("symbol(%s %" PRIu32 " )", kinds[s->kind], s->index);
}

LISTED(comdat_symbols, comdat_symbol, pulleynavy_next_comdat_symbols)

static void put_comdat(uint64_t from, uint64_t at, const pulleynavy_comdat *c) {
    struct window symbols = {from + c->name.at + c->name.size, from + c->symbols.at + c->symbols.size};
    uint64_t flags;
    (void)at;
    put("comdat(");
    put_bytes(from, c->name);
    read_number(&symbols, &flags);
    put(" %" PRIu64 " ", flags);
    comdat_symbols(symbols);
    put(" )");
}

LISTED(comdats, comdat, pulleynavy_next_comdats)

static void put_symbol(uint64_t from, uint64_t at, const pulleynavy_symbol *s) {
    static const char *kinds[] = {"func", "data", "global", "section", "event", "table"};
    (void)at;
    put("%s %" PRIu32, kinds[s->kind], s->flags);
    if (s->kind != PULLEYNAVY_SYMBOL_DATA) put(" %" PRIu32, s->index);
    if (s->kind == PULLEYNAVY_SYMBOL_SECTION) return;
    put(" ");
    if (s->has_name) put_bytes(from, s->name);
    else put("-");
    if (s->kind != PULLEYNAVY_SYMBOL_DATA) return;
    if (s->is_defined) put(" defined(%" PRIu32 " %" PRIu32 " %" PRIu32 " )", s->index, s->data_offset, s->data_size);
    else put(" -");
}

LISTED(symbols, symbol, pulleynavy_next_symbols)

static bool linking_part(uint32_t id, struct window *w) {
    static bool (*const lists[])(struct window) = {linking_segments, init_functions, comdats, symbols};
    if (id < 5 || id > 9) return unknown_part(id, w);
    put("%" PRIu32 " ", id);
    return id == 9 ? put_name(w, READ(pulleynavy_read_name, w)) : lists[id - 5](*w);
}

static bool linking(struct window w) {
    uint64_t from = w.at;
    pulleynavy_number version = READ(pulleynavy_read_linking_version, &w);
    if (!passed(&w, version.fault, version.consumed)) return false;
    put("version %" PRIu64 " at %" PRIu64 " %" PRIu64 "..%" PRIu64 " ", version.value, w.at, from, w.end);
    parts(w, linking_part, false);
    return true;
}

static void put_relocation(uint64_t from, uint64_t at, const pulleynavy_relocation *r) {
    (void)from, (void)at;
    put("reloc(%" PRIu32 " %" PRIu32 " %" PRIu32 " %" PRId64 " )", r->kind, r->offset, r->index, r->addend);
}

LISTED(relocation_list, relocation, pulleynavy_next_relocations)

static bool relocations(struct window w) {
    uint64_t from = w.at, section;
    if (!read_number(&w, &section)) return false;
    put("section %" PRIu64 " %" PRIu64 "..%" PRIu64 " ", section, from, w.end);
    return relocation_list(w);
}

/* ---- core dumps */

static bool process(struct window *w) {
    pulleynavy_core_process p = READ(pulleynavy_read_core_process, w);
    put_bytes(w->at, p.name);
    return passed(w, p.fault, p.consumed);
}

static bool modules(struct window *w) {
    uint64_t count, data_offset = w->at;
    if (!read_number(w, &count)) return false;
    put("[");
    for (uint64_t i = 0; i < count; i++) {
        uint64_t at = w->at;
        pulleynavy_core_module m =
            pulleynavy_read_core_module(stream + at, (size_t)(w->end - at), at, PULLEYNAVY_ALL_FEATURES, data_offset);
        if (!passed(w, m.fault, m.consumed)) return false;
        put_bytes(at, m.name);
        put(" ");
    }
    put("]");
    return true;
}

static bool instance(struct window *w) {
    pulleynavy_core_instance i = READ(pulleynavy_read_core_instance, w);
    put("instance(%" PRIu32 " ", i.module_index);
    if (!passed(w, i.fault, i.consumed) || !owned(w, number)) return false;
    put(" ");
    if (!owned(w, number)) return false;
    put(" )");
    return true;
}

static bool core_value(struct window *w) {
    static const char *kinds[] = {"missing", "i32:", "i64:", "f32:", "f64:"};
    pulleynavy_core_value v = READ(pulleynavy_read_core_value, w);
    put("%s", kinds[v.kind]);
    if (v.kind > 2) put("%" PRIu64, v.bits);
    else if (v.kind > 0) put("%" PRId64, v.integer);
    return passed(w, v.fault, v.consumed);
}

static bool frame(struct window *w) {
    pulleynavy_core_frame f = READ(pulleynavy_read_core_frame, w);
    put("frame(%" PRIu32 " %" PRIu32 " %" PRIu32 " ", f.instance, f.func, f.code_offset);
    if (!passed(w, f.fault, f.consumed) || !owned(w, core_value)) return false;
    put(" ");
    if (!owned(w, core_value)) return false;
    put(" )");
    return true;
}

static bool stack(struct window *w) {
    pulleynavy_core_thread t = READ(pulleynavy_read_core_thread, w);
    put_bytes(w->at, t.name);
    put(" ");
    return passed(w, t.fault, t.consumed) && owned(w, frame);
}

static bool instances(struct window *w) { return owned(w, instance); }

/* ---- all of them */

static bool dumped(reader *part, struct window w) {
    return part(&w) && !pulleynavy_check_custom_end(stream + w.at, (size_t)(w.end - w.at), w.at).kind;
}

/* Puts the data of a section of this kind, as `pulleynavy_classify_custom` has it; returns false where it isn't such data. */
static bool put_custom(uint32_t kind, struct window w) {
    switch (kind) {
    case PULLEYNAVY_CUSTOM_NAME: parts(w, name_part, true); return true;
    case PULLEYNAVY_CUSTOM_BRANCH_HINTS: return hinted_functions(w);
    case PULLEYNAVY_CUSTOM_PRODUCERS: return producers_fields(w);
    case PULLEYNAVY_CUSTOM_DYLINK0: parts(w, dylink_part, false); return true;
    case PULLEYNAVY_CUSTOM_LINKING: return linking(w);
    case PULLEYNAVY_CUSTOM_RELOC: return relocations(w);
    case PULLEYNAVY_CUSTOM_CORE: return dumped(process, w);
    case PULLEYNAVY_CUSTOM_CORE_MODULES: return dumped(modules, w);
    case PULLEYNAVY_CUSTOM_CORE_INSTANCES: return dumped(instances, w);
    case PULLEYNAVY_CUSTOM_CORE_STACK: return dumped(stack, w);
    default: return false;
    }
}
#endif
