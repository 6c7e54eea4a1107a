// SPDX-License-Identifier: Apache-2.0 OR MIT
// The items of each core section, as plain objects.
import * as d from "./declared.js";
import { offsetAt } from "./instance.js";

// The names of an enumeration by their numbers, as the text format has them.
const names = numbers => Object.freeze(Object.keys(numbers).map(name => name.toLowerCase().replaceAll("_", "")));
const TYPES = names(d.TypeKind), HEAPS = names(d.HeapKind), EXTERNALS = names(d.ExternalKind), COMPOSITES = names(d.CompositeKind);
const ELEMENTS = names(d.ElementKind);
const flag = (view, p) => view.getUint32(p, true) !== 0;

// ---- types

function typeAt(view, p) {
    const kind = view.getUint32(p + d.TypeLayout.kind, true);
    if (kind !== d.TypeKind.REF) return TYPES[kind];
    const heap = view.getUint32(p + d.TypeLayout.heap, true), index = view.getUint32(p + d.TypeLayout.index, true);
    return { nullable: flag(view, p + d.TypeLayout.nullable), heap: heap === d.HeapKind.CONCRETE ? index : HEAPS[heap] };
}

// A limit: a bigint of a table or memory of 64 bits, otherwise a number. Of 32 bits no valid limit exceeds 2^32; one beyond 2^53 is rounded.
const limit = (view, p, is64) => (is64 ? view.getBigUint64(p, true) : offsetAt(view, p));

function tableType(view, p) {
    const table64 = flag(view, p + d.TableTypeLayout.table64);
    return {
        element: typeAt(view, p + d.TableTypeLayout.element),
        initial: limit(view, p + d.TableTypeLayout.initial, table64),
        maximum: flag(view, p + d.TableTypeLayout.hasMaximum) ? limit(view, p + d.TableTypeLayout.maximum, table64) : null,
        table64,
        shared: flag(view, p + d.TableTypeLayout.shared),
    };
}

function memoryType(view, p) {
    const hasPageSize = flag(view, p + d.MemoryTypeLayout.hasPageSize), memory64 = flag(view, p + d.MemoryTypeLayout.memory64);
    return {
        initial: limit(view, p + d.MemoryTypeLayout.initial, memory64),
        maximum: flag(view, p + d.MemoryTypeLayout.hasMaximum) ? limit(view, p + d.MemoryTypeLayout.maximum, memory64) : null,
        memory64,
        shared: flag(view, p + d.MemoryTypeLayout.shared),
        pageSizeLog2: hasPageSize ? view.getUint32(p + d.MemoryTypeLayout.pageSizeLog2, true) : null,
    };
}

function globalType(view, p) {
    return {
        content: typeAt(view, p + d.GlobalTypeLayout.content),
        mutable: flag(view, p + d.GlobalTypeLayout.isMutable),
        shared: flag(view, p + d.GlobalTypeLayout.shared),
    };
}

const VALUE_TYPES = {
    call: "pulleynavy_next_value_types", layout: d.ValueLayout,
    make: (w, view, p) => typeAt(view, p + d.ValueLayout.ty),
};
const FIELD_TYPES = {
    call: "pulleynavy_next_field_types", layout: d.FieldLayout,
    make: (w, view, p) => ({ type: typeAt(view, p + d.FieldLayout.ty), mutable: flag(view, p + d.FieldLayout.isMutable) }),
};

// A subtype, or null after a fault.
function subtype(w) {
    const start = w.at, p = w.read("pulleynavy_read_subtype"), { view } = w.instance;
    if (!p) return null;
    const kind = view.getUint32(p + d.SubtypeLayout.kind, true), count = view.getUint32(p + d.SubtypeLayout.count, true);
    const made = {
        kind: COMPOSITES[kind], start, end: 0, final: flag(view, p + d.SubtypeLayout.isFinal),
        supertype: flag(view, p + d.SubtypeLayout.hasSupertype) ? view.getUint32(p + d.SubtypeLayout.supertype, true) : null,
    };
    if (kind === d.CompositeKind.FUNC) {
        made.params = w.some(0, VALUE_TYPES, count);
        made.results = made.params && w.counted(0, VALUE_TYPES);
        if (!made.results) return null;
    } else {
        made.fields = w.some(0, FIELD_TYPES, count);
        if (!made.fields) return null;
    }
    made.end = w.at;
    return made;
}

function typeGroup(w) {
    const start = w.at, p = w.read("pulleynavy_read_type_group"), { view } = w.instance;
    if (!p) return null;
    const explicit = flag(view, p + d.TypeGroupLayout.isExplicit), count = view.getUint32(p + d.TypeGroupLayout.count, true), types = [];
    for (let i = 0; i < count; i++) {
        const one = subtype(w);
        if (!one) return null;
        types.push(one);
    }
    return { kind: "type", start, end: w.at, explicit, types };
}

function types(w, count) {
    const items = [];
    for (let i = 0; i < count; i++) {
        const group = typeGroup(w);
        items.push(group ?? w.fault);
        if (!group) return items;
    }
    // With no item left, trailing bytes are the fault of the list.
    return items.concat(w.all(0, VALUE_TYPES, 0));
}

// ---- imports and exports

function importType(view, p) {
    const kind = view.getUint32(p + d.ImportTypeLayout.kind, true);
    if (kind === d.ExternalKind.TABLE) return tableType(view, p + d.ImportTypeLayout.table);
    if (kind === d.ExternalKind.MEMORY) return memoryType(view, p + d.ImportTypeLayout.memory);
    if (kind === d.ExternalKind.GLOBAL) return globalType(view, p + d.ImportTypeLayout.global);
    return view.getUint32(p + d.ImportTypeLayout.index, true);
}

function imported(view, start, end, module, name, p) {
    const external = EXTERNALS[view.getUint32(p + d.ImportTypeLayout.kind, true)];
    return { kind: "import", start, end, module, name, external, type: importType(view, p) };
}

// The imports of a bundle, up to the first fault. The bundle is the struct at an address.
function bundled(w, view, bundle) {
    const made = [], module = w.text(bundle + d.ImportLayout.moduleName), count = view.getUint32(bundle + d.ImportLayout.count, true);
    const items = w.part(bundle + d.ImportLayout.items), { instance } = w, p = instance.answer;
    for (let i = 0; i < count; i++) {
        const { position, at } = items, from = BigInt(items.address + position), left = BigInt(items.size - position);
        instance.calls.pulleynavy_read_bundled_import(instance.answerPointer, BigInt(bundle), from, left, BigInt(at), w.features);
        if (view.getUint32(p, true) !== 0) return [...made, instance.fault(p)];
        items.position += view.getUint32(p + d.ImportItemLayout.consumed, true);
        made.push(imported(view, at, items.at, module, items.text(p + d.ImportItemLayout.name, position), p + d.ImportItemLayout.ty));
    }
    return made;
}

function importItem(w, view, p, start, end) {
    if (view.getUint32(p + d.ImportLayout.kind, true) !== d.ImportKind.SINGLE) return bundled(w, view, p);
    return imported(view, start, end, w.text(p + d.ImportLayout.moduleName), w.text(p + d.ImportLayout.name), p + d.ImportLayout.ty);
}

function exportItem(w, view, p, start, end) {
    const external = EXTERNALS[view.getUint32(p + d.ExportLayout.kind, true)], index = view.getUint32(p + d.ExportLayout.index, true);
    return { kind: "export", start, end, name: w.text(p + d.ExportLayout.name), external, index };
}

// ---- segments

const INDICES = {
    call: "pulleynavy_next_numbers", layout: d.NumberLayout,
    make: (w, view, p) => view.getUint32(p + d.NumberLayout.value, true),
};
const EXPRESSIONS = {
    call: "pulleynavy_next_expressions", layout: d.ExpressionLayout,
    make: (w, view, p, start, end) => ({ start, end }),
};

function element(w, view, p, start, end) {
    const kind = view.getUint32(p + d.ElementLayout.kind, true), count = view.getUint32(p + d.ElementLayout.count, true);
    const hasExpressions = flag(view, p + d.ElementLayout.hasExpressions), items = w.range(p + d.ElementLayout.items);
    w.position = items.start - w.offset;
    return {
        kind: "element", start, end, mode: ELEMENTS[kind],
        table: flag(view, p + d.ElementLayout.hasTable) ? view.getUint32(p + d.ElementLayout.table, true) : null,
        offsetExpression: kind === d.ElementKind.ACTIVE ? w.range(p + d.ElementLayout.offsetExpression) : null,
        type: hasExpressions ? typeAt(view, p + d.ElementLayout.ty) : null,
        items,
        functions: hasExpressions ? null : w.some(1, INDICES, count),
        expressions: hasExpressions ? w.some(1, EXPRESSIONS, count) : null,
    };
}

function data(w, view, p, start, end) {
    const isActive = view.getUint32(p + d.DataLayout.kind, true) === d.DataKind.ACTIVE;
    return {
        kind: "data", start, end, mode: isActive ? "active" : "passive",
        memory: isActive ? view.getUint32(p + d.DataLayout.memory, true) : null,
        offsetExpression: isActive ? w.range(p + d.DataLayout.offsetExpression) : null,
        bytes: w.range(p + d.DataLayout.bytes),
    };
}

// ---- the sections

function table(w, view, p, start, end) {
    const init = flag(view, p + d.TableLayout.hasInit) ? w.range(p + d.TableLayout.init) : null;
    return { kind: "table", start, end, type: tableType(view, p + d.TableLayout.ty), init };
}

const index = (view, p) => view.getUint32(p, true);
const LISTS = {
    2: { call: "pulleynavy_next_imports", layout: d.ImportLayout, make: importItem },
    3: {
        call: "pulleynavy_next_numbers", layout: d.NumberLayout,
        make: (w, view, p, start, end) => ({ kind: "function", start, end, type: index(view, p + d.NumberLayout.value) }),
    },
    4: { call: "pulleynavy_next_tables", layout: d.TableLayout, make: table },
    5: {
        call: "pulleynavy_next_memories", layout: d.MemoryLayout,
        make: (w, view, p, start, end) => ({ kind: "memory", start, end, type: memoryType(view, p + d.MemoryLayout.ty) }),
    },
    6: {
        call: "pulleynavy_next_globals", layout: d.GlobalLayout,
        make: (w, view, p, start, end) =>
            ({ kind: "global", start, end, type: globalType(view, p + d.GlobalLayout.ty), init: w.range(p + d.GlobalLayout.init) }),
    },
    7: { call: "pulleynavy_next_exports", layout: d.ExportLayout, make: exportItem },
    9: { call: "pulleynavy_next_elements", layout: d.ElementLayout, make: element },
    11: { call: "pulleynavy_next_data", layout: d.DataLayout, make: data },
    13: {
        call: "pulleynavy_next_tags", layout: d.TagLayout,
        make: (w, view, p, start, end) => ({ kind: "tag", start, end, type: index(view, p + d.TagLayout.funcTypeIndex) }),
    },
};

/** The items of a section, from the position of its window on, with faults among them. */
export function itemsOf(w, id, count) {
    if (id === 1) return types(w, count);
    const items = w.all(0, LISTS[id], count);
    return id === 2 ? items.flat() : items;
}
