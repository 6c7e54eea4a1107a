// SPDX-License-Identifier: Apache-2.0 OR MIT
// The data of each known custom section, as plain objects.
import * as d from "./declared.js";

const names = numbers => Object.freeze(Object.keys(numbers).map(name => name.toLowerCase()));
const SYMBOLS = names(d.SymbolKind), COMDATS = names(d.ComdatKind), CORE_VALUES = names(d.CoreValueKind);
const RELOCATIONS = Object.keys(d.RelocationKind);
const flag = (view, p) => view.getUint32(p, true) !== 0;
const u32 = (view, p) => view.getUint32(p, true);

// The subsections of a section, each as `read` returns it for its id and its contents, or the fault of its contents.
function subsections(w, read, isOrdered = false) {
    let last = -1;
    const make = (outer, view, p, start, end) => {
        const id = u32(view, p + d.SubsectionLayout.id), contents = outer.range(p + d.SubsectionLayout.contents);
        const inner = outer.part(p + d.SubsectionLayout.contents), made = read(id, inner);
        if (made === null) return inner.fault;
        // The fault of the contents comes first, so `pulleynavy_next_name_subsections`, which doesn't look at them, is of no use here.
        if (isOrdered && id <= last) return w.instance.faultOf(d.FaultKind.NAME_SECTION_ORDER, start);
        last = id;
        return { kind: "unknown", id, start, end, contents, ...made };
    };
    return w.all(0, { call: "pulleynavy_next_subsections", layout: d.SubsectionLayout, make, tail: d.SubsectionLayout.contents }, 0);
}

// A count and the items of a list up to its end, as `Window.all`, or null where the count has a fault.
function listed(w, depth, list) {
    const count = w.number();
    return count < 0 ? null : { count, items: w.all(depth, list, count) };
}

// ---- names

const NAMINGS = {
    call: "pulleynavy_next_namings", layout: d.NamingLayout, tail: d.NamingLayout.name,
    make: (w, view, p, start, end) =>
        ({ kind: "name", start, end, index: u32(view, p + d.NamingLayout.index), name: w.text(p + d.NamingLayout.name) }),
};
const INDIRECT_NAMINGS = {
    call: "pulleynavy_next_indirect_namings", layout: d.IndirectNamingLayout, tail: d.IndirectNamingLayout.names,
    make: (w, view, p, start, end) => {
        const inner = w.part(p + d.IndirectNamingLayout.names), count = u32(view, p + d.IndirectNamingLayout.count);
        return { kind: "names", start, end, index: u32(view, p + d.IndirectNamingLayout.index), names: inner.all(2, NAMINGS, count) };
    },
};
// What the names of a subsection are those of.
const MAPS = { 1: "function", 4: "type", 5: "table", 6: "memory", 7: "global", 8: "element", 9: "data", 11: "tag" };
const INDIRECT_MAPS = { 2: "local", 3: "label", 10: "field", 12: "parameter", 13: "tag parameter" };

function moduleName(w) {
    const p = w.read("pulleynavy_read_name"), name = p && w.text(p + d.NameLayout.name);
    if (p) w.fault = w.checked("pulleynavy_check_name_end");
    return w.fault ? null : { kind: "module", name };
}

function nameMap(w, of, kind, list) {
    const found = listed(w, 1, list);
    return found && { kind, of, names: found.items };
}

function namePart(id, w) {
    if (id === 0) return moduleName(w);
    if (id in MAPS) return nameMap(w, MAPS[id], "names", NAMINGS);
    return id in INDIRECT_MAPS ? nameMap(w, INDIRECT_MAPS[id], "indirect names", INDIRECT_NAMINGS) : {};
}

// ---- producers and branch hints

const VALUES = {
    call: "pulleynavy_next_producers_values", layout: d.ProducersValueLayout,
    make: (w, view, p, start, end) =>
        ({ kind: "value", start, end, name: w.text(p + d.ProducersValueLayout.name), version: w.text(p + d.ProducersValueLayout.version) }),
};
const FIELDS = {
    call: "pulleynavy_next_producers_fields", layout: d.ProducersFieldLayout,
    make: (w, view, p, start, end) => {
        const values = w.part(p + d.ProducersFieldLayout.values).all(1, VALUES, u32(view, p + d.ProducersFieldLayout.count));
        return { kind: "field", start, end, name: w.text(p + d.ProducersFieldLayout.name), values };
    },
};

function producers(w) {
    const found = listed(w, 0, FIELDS);
    return found && { kind: "producers", count: found.count, fields: found.items };
}

const HINTS = {
    call: "pulleynavy_next_branch_hints", layout: d.BranchHintLayout,
    make: (w, view, p, start, end) => ({
        kind: "hint", start, end, offset: u32(view, p + d.BranchHintLayout.funcOffset),
        taken: flag(view, p + d.BranchHintLayout.taken),
    }),
};
const HINTED_FUNCTIONS = {
    call: "pulleynavy_next_hinted_functions", layout: d.HintedFunctionLayout,
    make: (w, view, p, start, end) => {
        const hints = w.part(p + d.HintedFunctionLayout.hints).all(1, HINTS, u32(view, p + d.HintedFunctionLayout.count));
        return { kind: "function", start, end, index: u32(view, p + d.HintedFunctionLayout.func), hints };
    },
};

function branchHints(w) {
    const found = listed(w, 0, HINTED_FUNCTIONS);
    return found && { kind: "branch hints", count: found.count, functions: found.items };
}

// ---- target features

const FEATURES = {
    call: "pulleynavy_next_target_features", layout: d.TargetFeatureLayout,
    make: (w, view, p, start, end) => ({
        kind: "feature", start, end, prefix: String.fromCharCode(u32(view, p + d.TargetFeatureLayout.prefix)),
        name: w.text(p + d.TargetFeatureLayout.name),
    }),
};

function targetFeatures(w) {
    const found = listed(w, 0, FEATURES);
    return found && { kind: "target features", count: found.count, features: found.items };
}

// ---- dynamic linking

const TEXTS = { call: "pulleynavy_next_texts", layout: d.NameLayout, make: (w, view, p) => w.text(p + d.NameLayout.name) };
const DYLINK_EXPORTS = {
    call: "pulleynavy_next_dylink_exports", layout: d.DylinkExportLayout,
    make: (w, view, p, start, end) =>
        ({ start, end, name: w.text(p + d.DylinkExportLayout.name), flags: u32(view, p + d.DylinkExportLayout.flags) }),
};
const DYLINK_IMPORTS = {
    call: "pulleynavy_next_dylink_imports", layout: d.DylinkImportLayout,
    make: (w, view, p, start, end) => ({
        start, end, module: w.text(p + d.DylinkImportLayout.moduleName), name: w.text(p + d.DylinkImportLayout.field),
        flags: u32(view, p + d.DylinkImportLayout.flags),
    }),
};

function dylinkMemory(w) {
    const p = w.read("pulleynavy_read_dylink_memory"), { view } = w.instance, at = d.DylinkMemoryLayout;
    return p ? {
        kind: "memory", memorySize: u32(view, p + at.memorySize), memoryAlignment: u32(view, p + at.memoryAlignment),
        tableSize: u32(view, p + at.tableSize), tableAlignment: u32(view, p + at.tableAlignment),
    } : null;
}

function targetArch(w, call) {
    const p = w.read(call);
    return p ? { kind: "target arch", name: w.text(p + d.NameLayout.name) } : null;
}

function owned(w, kind, field, list) {
    const items = w.counted(1, list);
    return items && { kind, [field]: items };
}

function dylinkPart(id, w) {
    switch (id) {
        case 1: return dylinkMemory(w);
        case 2: return owned(w, "needed", "libraries", TEXTS);
        case 3: return owned(w, "exports", "exports", DYLINK_EXPORTS);
        case 4: return owned(w, "imports", "imports", DYLINK_IMPORTS);
        case 5: return owned(w, "runtime path", "paths", TEXTS);
        case 6: return targetArch(w, "pulleynavy_read_text");
        default: return {};
    }
}

// ---- linking and relocations

const SEGMENTS = {
    call: "pulleynavy_next_linking_segments", layout: d.LinkingSegmentLayout,
    make: (w, view, p, start, end) => ({
        kind: "segment", start, end, name: w.text(p + d.LinkingSegmentLayout.name),
        alignment: u32(view, p + d.LinkingSegmentLayout.alignment),
        flags: u32(view, p + d.LinkingSegmentLayout.flags),
    }),
};
const INIT_FUNCTIONS = {
    call: "pulleynavy_next_init_functions", layout: d.InitFunctionLayout,
    make: (w, view, p, start, end) => ({
        kind: "init function", start, end, priority: u32(view, p + d.InitFunctionLayout.priority),
        symbol: u32(view, p + d.InitFunctionLayout.symbol),
    }),
};
const COMDAT_SYMBOLS = {
    call: "pulleynavy_next_comdat_symbols", layout: d.ComdatSymbolLayout,
    make: (w, view, p, start, end) => ({
        kind: "comdat symbol", start, end, symbol: COMDATS[u32(view, p + d.ComdatSymbolLayout.kind)],
        index: u32(view, p + d.ComdatSymbolLayout.index),
    }),
};
const COMDAT_LIST = {
    call: "pulleynavy_next_comdats", layout: d.ComdatLayout,
    make: (w, view, p, start, end) => {
        const symbols = w.part(p + d.ComdatLayout.symbols).all(2, COMDAT_SYMBOLS, u32(view, p + d.ComdatLayout.count));
        return { kind: "comdat", start, end, name: w.text(p + d.ComdatLayout.name), flags: u32(view, p + d.ComdatLayout.flags), symbols };
    },
};
const SYMBOL_LIST = {
    call: "pulleynavy_next_symbols", layout: d.SymbolLayout,
    make: (w, view, p, start, end) => {
        const kind = u32(view, p + d.SymbolLayout.kind), isData = kind === d.SymbolKind.DATA;
        const isDefined = flag(view, p + d.SymbolLayout.isDefined);
        return {
            kind: "symbol", start, end, symbol: SYMBOLS[kind], flags: u32(view, p + d.SymbolLayout.flags),
            name: flag(view, p + d.SymbolLayout.hasName) ? w.text(p + d.SymbolLayout.name) : null,
            index: isData && !isDefined ? null : u32(view, p + d.SymbolLayout.index),
            offset: isDefined ? u32(view, p + d.SymbolLayout.dataOffset) : null,
            size: isDefined ? u32(view, p + d.SymbolLayout.dataSize) : null,
        };
    },
};
const LINKING_LISTS = {
    5: ["segments", SEGMENTS], 6: ["init functions", INIT_FUNCTIONS], 7: ["comdats", COMDAT_LIST], 8: ["symbols", SYMBOL_LIST],
};

function linkingPart(id, w) {
    if (id === 9) return targetArch(w, "pulleynavy_read_name");
    if (!(id in LINKING_LISTS)) return {};
    const [kind, list] = LINKING_LISTS[id], found = listed(w, 1, list);
    return found && { kind, count: found.count, items: found.items };
}

function linking(w) {
    const p = w.read("pulleynavy_read_linking_version"), { view } = w.instance;
    if (!p) return null;
    const version = u32(view, p + d.NumberLayout.value), start = w.position;
    const rest = new w.constructor(w.instance, w.address + start, w.size - start, w.at, w.features);
    return { kind: "linking", version, subsections: subsections(rest, linkingPart) };
}

// The addends of these types have 64 bits, and are bigints; the others have 32.
const WIDE = new Set([
    "MEMORY_ADDR_LEB64", "MEMORY_ADDR_SLEB64", "MEMORY_ADDR_I64", "MEMORY_ADDR_REL_SLEB64", "FUNCTION_OFFSET_I64", "MEMORY_ADDR_TLS_SLEB64",
]);

function relocation(w, view, p, start, end) {
    const type = RELOCATIONS[u32(view, p + d.RelocationLayout.kind)], addend = view.getBigInt64(p + d.RelocationLayout.addend, true);
    return {
        kind: "relocation", start, end, type,
        offset: u32(view, p + d.RelocationLayout.offset), index: u32(view, p + d.RelocationLayout.index),
        addend: WIDE.has(type) ? addend : Number(addend),
        extent: u32(view, p + d.RelocationLayout.extent),
    };
}

const RELOCATION_LIST = { call: "pulleynavy_next_relocations", layout: d.RelocationLayout, make: relocation };

function relocations(w) {
    const section = w.number(), found = section < 0 ? null : listed(w, 0, RELOCATION_LIST);
    return found && { kind: "relocations", section, count: found.count, relocations: found.items };
}

// ---- core dumps

const INDICES = { call: "pulleynavy_next_numbers", layout: d.NumberLayout, make: (w, view, p) => u32(view, p + d.NumberLayout.value) };
// What reads a value of each kind: an integer, or the bits of a float. Those of 64 bits are bigints.
const CORE_VALUE = {
    [d.CoreValueKind.I32]: (view, p) => view.getInt32(p + d.CoreValueLayout.integer, true),
    [d.CoreValueKind.I64]: (view, p) => view.getBigInt64(p + d.CoreValueLayout.integer, true),
    [d.CoreValueKind.F32]: (view, p) => u32(view, p + d.CoreValueLayout.bits),
    [d.CoreValueKind.F64]: (view, p) => view.getBigUint64(p + d.CoreValueLayout.bits, true),
};
const CORE_VALUE_LIST = {
    call: "pulleynavy_next_core_values", layout: d.CoreValueLayout,
    make: (w, view, p) => {
        const kind = u32(view, p + d.CoreValueLayout.kind), value = CORE_VALUE[kind];
        return { type: CORE_VALUES[kind], value: value ? value(view, p) : null };
    },
};

// A count and as many parts, each as `read` returns it. Returns null after a fault.
function repeated(w, read) {
    const count = w.number(), parts = [];
    for (let i = 0; i < count; i++) {
        const part = read(w);
        if (part === null) return null;
        parts.push(part);
    }
    return count < 0 ? null : parts;
}

function coreProcess(w) {
    const p = w.read("pulleynavy_read_core_process");
    return p ? { kind: "core", name: w.text(p + d.CoreProcessLayout.name) } : null;
}

function coreModules(w) {
    const dataOffset = BigInt(w.at);
    const modules = repeated(w, () => {
        const from = w.position, p = w.read("pulleynavy_read_core_module", dataOffset);
        return p ? w.text(p + d.CoreModuleLayout.name, from) : null;
    });
    return modules && { kind: "core modules", modules };
}

function coreInstance(w) {
    const p = w.read("pulleynavy_read_core_instance"), module = p && u32(w.instance.view, p + d.CoreInstanceLayout.moduleIndex);
    const memories = p ? w.counted(0, INDICES) : null, globals = memories && w.counted(0, INDICES);
    return globals && { module, memories, globals };
}

function coreInstances(w) {
    const instances = repeated(w, coreInstance);
    return instances && { kind: "core instances", instances };
}

function coreFrame(w) {
    const p = w.read("pulleynavy_read_core_frame"), { view } = w.instance;
    if (!p) return null;
    const instance = u32(view, p + d.CoreFrameLayout.instance), func = u32(view, p + d.CoreFrameLayout.func);
    const codeOffset = u32(view, p + d.CoreFrameLayout.codeOffset);
    const locals = w.counted(0, CORE_VALUE_LIST), stack = locals && w.counted(0, CORE_VALUE_LIST);
    return stack && { instance, function: func, codeOffset, locals, stack };
}

function coreStack(w) {
    const p = w.read("pulleynavy_read_core_thread"), thread = p && w.text(p + d.CoreThreadLayout.name);
    const frames = p ? repeated(w, coreFrame) : null;
    return frames && { kind: "core stack", thread, frames };
}

// A section of a core dump ends with its last part.
const whole = read => w => {
    const made = read(w);
    if (made) w.fault = w.checked("pulleynavy_check_custom_end");
    return w.fault ? null : made;
};

// ---- all of them

const READERS = {
    [d.CustomKind.NAME]: w => ({ kind: "name", subsections: subsections(w, namePart, true) }),
    [d.CustomKind.BRANCH_HINTS]: branchHints,
    [d.CustomKind.PRODUCERS]: producers,
    [d.CustomKind.DYLINK0]: w => ({ kind: "dylink.0", subsections: subsections(w, dylinkPart) }),
    [d.CustomKind.LINKING]: linking,
    [d.CustomKind.RELOC]: relocations,
    [d.CustomKind.CORE]: whole(coreProcess),
    [d.CustomKind.CORE_MODULES]: whole(coreModules),
    [d.CustomKind.CORE_INSTANCES]: whole(coreInstances),
    [d.CustomKind.CORE_STACK]: whole(coreStack),
};

// Sections to which the library gives no kind, by their names.
const NAMED = { target_features: targetFeatures };

/** What the data of a custom section of this kind and name says, or its fault. Returns null where neither is known. */
export function contentsOf(w, kind, name) {
    const reader = READERS[kind] ?? (Object.hasOwn(NAMED, name) ? NAMED[name] : null);
    return reader ? reader(w) ?? w.fault : null;
}
