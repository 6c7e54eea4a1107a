// SPDX-License-Identifier: Apache-2.0 OR MIT
// Every field of every event and item, and lists that are longer than what a call of the library stores.
import assert from "node:assert/strict";
import { readFileSync } from "node:fs";
import test from "node:test";
import { load } from "../node.js";

const { parse } = await load();
const HEADER = "\0asm\x01\0\0\0", char = String.fromCharCode, latin = text => Buffer.from(text, "latin1");
const leb = value => (value < 128 ? char(value) : char((value & 127) | 128) + leb(value >>> 7));
const sized = text => leb(text.length) + text;
const section = (id, content) => char(id) + sized(content);
const custom = (name, data) => section(0, sized(name) + data);

// What was found, with the bytes of each range in place of its offsets, so that the bytes say which range it has to be.
function withBytes(part, bytes) {
    if (Array.isArray(part)) return part.map(one => withBytes(one, bytes));
    if (part === null || typeof part !== "object") return part;
    const { start, end, ...rest } = part, found = start === undefined ? {} : { raw: bytes.toString("latin1", start, end) };
    for (const [key, value] of Object.entries(rest)) found[key] = withBytes(value, bytes);
    return found;
}

// The event after the header of a module with these sections.
function eventOf(sections, place = 1) {
    const bytes = latin(HEADER + sections);
    return withBytes([...parse(bytes)][place], bytes);
}
const itemsOf = (id, content) => eventOf(section(id, content)).items;
const contentsOf = (name, data) => eventOf(custom(name, data)).contents;
// What was expected so far.
const expected = [];

function same(found, wanted) {
    assert.deepEqual(found, wanted);
    expected.push(wanted);
}

test("the fields of events", () => {
    const names = { 1: "type", 2: "import", 3: "function", 4: "table", 5: "memory", 6: "global", 7: "export", 9: "element", 11: "data", 13: "tag" };
    for (const [id, name] of Object.entries(names)) {
        same(eventOf(section(id, "\0")), { kind: "section", raw: "\0", offset: 8, id: Number(id), name, count: 0, items: [] });
    }
    same(eventOf("", 0), { kind: "version", raw: HEADER, offset: 0, version: 1, encoding: "module" });
    same(eventOf(section(8, "\x05")), { kind: "start", raw: "\x05", offset: 8, id: 8, index: 5 });
    same(eventOf(section(12, "\x02") + section(11, "\x02\x01\0\x01\0")), { kind: "data count", raw: "\x02", offset: 8, id: 12, count: 2 });
    const functions = section(3, "\x01\x05") + section(10, "\x01\x02\0\x0b");
    same(eventOf(functions, 2), { kind: "code", raw: "\x01\x02\0\x0b", offset: 12, id: 10, count: 1, size: 3 });
    same(eventOf(functions, 3), { kind: "body", raw: "\0\x0b", offset: 15 });
    same(eventOf(custom("x", "yz")), { kind: "custom", raw: "\x01xyz", offset: 8, id: 0, name: "x", dataStart: 12, contents: null });
    same(eventOf(section(100, "yz")), { kind: "unknown", raw: "yz", offset: 8, id: 100 });
    same(eventOf(""), { kind: "end", offset: 8 });
    const fault = { kind: "fault", offset: 8, fault: "MALFORMED_SECTION_ID", code: 7, number: null, text: "malformed section id" };
    same(eventOf("\x80"), fault);
});

test("the fields of items", () => {
    const reference = { nullable: true, heap: "func" };
    const types = [
        { kind: "func", raw: "\x60\x01\x7f\x01\x70", final: true, supertype: null, params: ["i32"], results: [reference] },
        { kind: "struct", raw: "\x50\x01\x07\x5f\x01\x78\x01", final: false, supertype: 7, fields: [{ type: "i8", mutable: true }] },
        { kind: "array", raw: "\x5e\x7e\0", final: true, supertype: null, fields: [{ type: "i64", mutable: false }] },
    ];
    const group = types.map(one => one.raw).join("");
    same(itemsOf(1, "\x02\x4e\x03" + group + types[2].raw), [
        { kind: "type", raw: "\x4e\x03" + group, explicit: true, types },
        { kind: "type", raw: types[2].raw, explicit: false, types: [types[2]] },
    ]);
    const table = { element: reference, initial: 1, maximum: 2, table64: false, shared: false };
    const memory = { initial: 1, maximum: 2, memory64: false, shared: true, pageSizeLog2: 3 };
    const imports = [
        ["func", "\0\x05", 5], ["table", "\x01\x70\x01\x01\x02", table], ["memory", "\x02\x0b\x01\x02\x03", memory],
        ["global", "\x03\x7f\x01", { content: "i32", mutable: true, shared: false }], ["tag", "\x04\0\x06", 6], ["funcexact", "\x20\x07", 7],
    ].map(([external, bytes, type]) => ({ kind: "import", raw: "\x01m\x01n" + bytes, module: "m", name: "n", external, type }));
    same(itemsOf(2, char(imports.length) + imports.map(one => one.raw).join("")), imports);
    same(itemsOf(3, "\x02\x05\x80\x01"), [{ kind: "function", raw: "\x05", type: 5 }, { kind: "function", raw: "\x80\x01", type: 128 }]);
    same(itemsOf(4, "\x01\x40\0\x70\x01\x01\x02\xd0\x70\x0b"), [
        { kind: "table", raw: "\x40\0\x70\x01\x01\x02\xd0\x70\x0b", type: table, init: { raw: "\xd0\x70\x0b" } }]);
    same(itemsOf(5, "\x01\x0b\x01\x02\x03"), [{ kind: "memory", raw: "\x0b\x01\x02\x03", type: memory }]);
    same(itemsOf(13, "\x01\0\x06"), [{ kind: "tag", raw: "\0\x06", type: 6 }]);
    same(itemsOf(6, "\x01\x7e\x02\x42\x05\x0b"), [
        { kind: "global", raw: "\x7e\x02\x42\x05\x0b", type: { content: "i64", mutable: false, shared: true }, init: { raw: "\x42\x05\x0b" } }]);
    const exported = ["func", "table", "memory", "global", "tag"];
    same(itemsOf(7, "\x05" + exported.map((_, kind) => "\x01e" + char(kind, 9)).join("")),
        exported.map((external, kind) => ({ kind: "export", raw: "\x01e" + char(kind, 9), name: "e", external, index: 9 })));
});

test("the fields of segments", () => {
    const reference = { nullable: true, heap: "func" }, offset = { raw: "\x41\x05\x0b" }, expressions = [{ raw: "\xd2\x03\x0b" }, { raw: "\xd0\x70\x0b" }];
    const listed = expressions.map(one => one.raw).join(""), head = { kind: "element", table: null, offsetExpression: null, type: null };
    const functions = { items: { raw: "\x06\x07" }, functions: [6, 7], expressions: null };
    const segments = [
        { ...head, raw: "\0\x41\x05\x0b\x02\x06\x07", mode: "active", offsetExpression: offset, ...functions },
        { ...head, raw: "\x01\0\x02\x06\x07", mode: "passive", ...functions },
        { ...head, raw: "\x02\x04\x41\x05\x0b\0\x02\x06\x07", mode: "active", table: 4, offsetExpression: offset, ...functions },
        { ...head, raw: "\x07\x70\x02" + listed, mode: "declared", type: reference, items: { raw: listed }, functions: null, expressions },
    ];
    same(itemsOf(9, char(segments.length) + segments.map(one => one.raw).join("")), segments);
    same(itemsOf(11, "\x02\x01\x02hi\x02\x03\x41\x05\x0b\x01x"), [
        { kind: "data", raw: "\x01\x02hi", mode: "passive", memory: null, offsetExpression: null, bytes: { raw: "hi" } },
        { kind: "data", raw: "\x02\x03\x41\x05\x0b\x01x", mode: "active", memory: 3, offsetExpression: offset, bytes: { raw: "x" } },
    ]);
});

test("the fields of names", () => {
    const maps = { 1: "function", 4: "type", 5: "table", 6: "memory", 7: "global", 8: "element", 9: "data", 11: "tag" };
    const indirect = { 2: "local", 3: "label", 10: "field", 12: "parameter", 13: "tag parameter" };
    const subsection = (id, kind, content, more) => ({ kind, raw: char(id) + sized(content), id: Number(id), contents: { raw: content }, ...more });
    const subsections = [subsection(0, "module", "\x01m", { name: "m" })];
    for (let id = 1; id < 14; id++) {
        const naming = { kind: "name", raw: char(id) + "\x01" + char(96 + id), index: id, name: char(96 + id) };
        const list = { kind: "names", raw: char(id + 50) + "\x01" + naming.raw, index: id + 50, names: [naming] };
        const [kind, of, one] = id in maps ? ["names", maps[id], naming] : ["indirect names", indirect[id], list];
        subsections.push(subsection(id, kind, "\x01" + one.raw, { of, names: [one] }));
    }
    subsections.push(subsection(77, "unknown", "yz", {}));
    same(contentsOf("name", subsections.map(one => one.raw).join("")), { kind: "name", subsections });
});

test("the fields of producers, target features and branch hints", () => {
    const values = [{ kind: "value", raw: "\x01C\x0217", name: "C", version: "17" }, { kind: "value", raw: "\x01D\0", name: "D", version: "" }];
    const field = { kind: "field", raw: "\x03sdk\x02" + values[0].raw + values[1].raw, name: "sdk", values };
    same(contentsOf("producers", "\x01" + field.raw), { kind: "producers", count: 1, fields: [field] });
    const features = ["+", "-", "=", "*"].map(prefix => ({ kind: "feature", raw: prefix + "\x04simd", prefix, name: "simd" }));
    same(contentsOf("target_features", "\x04" + features.map(one => one.raw).join("")), { kind: "target features", count: 4, features });
    const hints = [{ kind: "hint", raw: "\x05\x01\x01", offset: 5, taken: true }, { kind: "hint", raw: "\x06\x01\0", offset: 6, taken: false }];
    const hinted = { kind: "function", raw: "\x09\x02" + hints[0].raw + hints[1].raw, index: 9, hints };
    same(contentsOf("metadata.code.branch_hint", "\x01" + hinted.raw), { kind: "branch hints", count: 1, functions: [hinted] });
});

test("the fields of dynamic linking", () => {
    const part = (id, kind, content, more) => ({ kind, raw: char(id) + sized(content), id, contents: { raw: content }, ...more });
    const subsections = [
        part(1, "memory", "\x05\x06\x07\x08", { memorySize: 5, memoryAlignment: 6, tableSize: 7, tableAlignment: 8 }),
        part(2, "needed", "\x02\x01a\x01b", { libraries: ["a", "b"] }),
        part(3, "exports", "\x01\x01e\x05", { exports: [{ raw: "\x01e\x05", name: "e", flags: 5 }] }),
        part(4, "imports", "\x01\x01m\x01i\x06", { imports: [{ raw: "\x01m\x01i\x06", module: "m", name: "i", flags: 6 }] }),
        part(5, "runtime path", "\x01\x01p", { paths: ["p"] }),
        part(6, "target arch", "\x06wasm64", { name: "wasm64" }),
        part(77, "unknown", "yz", {}),
    ];
    same(contentsOf("dylink.0", subsections.map(one => one.raw).join("")), { kind: "dylink.0", subsections });
});

test("the fields of linking", () => {
    const part = (id, kind, count, items) => {
        const content = char(count) + items.map(one => one.raw).join("");
        return { kind, raw: char(id) + sized(content), id, contents: { raw: content }, count, items };
    };
    const symbol = (raw, symbol, more) => ({ kind: "symbol", raw, symbol, flags: 0, name: null, index: null, offset: null, size: null, ...more });
    const comdats = ["data", "func", "global", "event", "table", "section"].map((symbol, kind) => ({ kind: "comdat symbol", raw: char(kind, 7), symbol, index: 7 }));
    const symbols = [
        symbol("\0\0\x05\x01f", "func", { index: 5, name: "f" }), symbol("\x01\0\x01d\x02\x03\x04", "data", { name: "d", index: 2, offset: 3, size: 4 }),
        symbol("\x01\x10\x01u", "data", { flags: 16, name: "u" }), symbol("\x02\0\x06\x01g", "global", { index: 6, name: "g" }),
        symbol("\x03\x02\x07", "section", { flags: 2, index: 7 }), symbol("\x04\x10\x08", "event", { flags: 16, index: 8 }),
        symbol("\x05\0\x09\x01t", "table", { index: 9, name: "t" }),
    ];
    const subsections = [
        part(5, "segments", 1, [{ kind: "segment", raw: "\x01s\x03\x05", name: "s", alignment: 3, flags: 5 }]),
        part(6, "init functions", 1, [{ kind: "init function", raw: "\x05\x06", priority: 5, symbol: 6 }]),
        part(7, "comdats", 1, [{ kind: "comdat", raw: "\x01c\0\x06" + comdats.map(one => one.raw).join(""), name: "c", flags: 0, symbols: comdats }]),
        part(8, "symbols", 7, symbols),
        { kind: "target arch", raw: "\x09\x07\x06wasm32", id: 9, contents: { raw: "\x06wasm32" }, name: "wasm32" },
        { kind: "unknown", raw: "\x4d\x02yz", id: 77, contents: { raw: "yz" } },
    ];
    same(contentsOf("linking", "\x02" + subsections.map(one => one.raw).join("")), { kind: "linking", version: 2, subsections });
});

test("the fields of relocations", () => {
    // The types by their numbers, with the bytes that each fills in: 5 or 10 for LEB128, else 4 or 8. Those of memory and offsets have an addend.
    const rows = [
        ["FUNCTION_INDEX_LEB", 5], ["TABLE_INDEX_SLEB", 5], ["TABLE_INDEX_I32", 4], ["MEMORY_ADDR_LEB", 5, 3], ["MEMORY_ADDR_SLEB", 5, 3], ["MEMORY_ADDR_I32", 4, 3],
        ["TYPE_INDEX_LEB", 5], ["GLOBAL_INDEX_LEB", 5], ["FUNCTION_OFFSET_I32", 4, 3], ["SECTION_OFFSET_I32", 4, 3], ["EVENT_INDEX_LEB", 5],
        ["MEMORY_ADDR_REL_SLEB", 5, 3], ["TABLE_INDEX_REL_SLEB", 5], ["GLOBAL_INDEX_I32", 4], ["MEMORY_ADDR_LEB64", 10, 3n], ["MEMORY_ADDR_SLEB64", 10, 3n],
        ["MEMORY_ADDR_I64", 8, 3n], ["MEMORY_ADDR_REL_SLEB64", 10, 3n], ["TABLE_INDEX_SLEB64", 10], ["TABLE_INDEX_I64", 8], ["TABLE_NUMBER_LEB", 5],
        ["MEMORY_ADDR_TLS_SLEB", 5, 3], ["FUNCTION_OFFSET_I64", 8, 3n], ["MEMORY_ADDR_LOCREL_I32", 4, 3], ["TABLE_INDEX_REL_SLEB64", 10],
        ["MEMORY_ADDR_TLS_SLEB64", 10, 3n], ["FUNCTION_INDEX_I32", 4],
    ];
    const relocations = rows.map(([type, extent, addend], number) => (
        { kind: "relocation", raw: char(number) + "\x05\x06" + (addend ? "\x03" : ""), type, offset: 5, index: 6, addend: addend ?? 0, extent }));
    same(contentsOf("reloc.CODE", "\x0a" + char(rows.length) + relocations.map(one => one.raw).join("")), { kind: "relocations", section: 10, count: 27, relocations });
});

test("the fields of core dumps", () => {
    same(contentsOf("core", "\0\x01p"), { kind: "core", name: "p" });
    same(contentsOf("coremodules", "\x02\0\x01a\0\x01b"), { kind: "core modules", modules: ["a", "b"] });
    same(contentsOf("coreinstances", "\x01\0\x02\x02\x03\x04\x01\x05"), { kind: "core instances", instances: [{ module: 2, memories: [3, 4], globals: [5] }] });
    const locals = [{ type: "i32", value: -1 }, { type: "missing", value: null }], stack = [{ type: "i64", value: 7n }];
    same(contentsOf("corestack", "\0\x01t\x01\0\x04\x05\x06\x02\x7f\x7f\x01\x01\x7e\x07"),
        { kind: "core stack", thread: "t", frames: [{ instance: 4, function: 5, codeOffset: 6, locals, stack }] });
});

test("each field that the types declare was expected", () => {
    const declared = readFileSync(new URL("../pulleynavy.d.ts", import.meta.url), "utf8").split("// ---- the parser")[0];
    const known = new Set(["start", "end", "bytes"]);
    JSON.stringify(expected, (key, value) => {
        known.add(key);
        return typeof value === "bigint" ? `${value}` : value;
    });
    const names = [...declared.matchAll(/readonly (\w+)\??:/g)].map(([, name]) => name);
    assert.ok(names.length > 100);
    assert.deepEqual(names.filter(name => !known.has(name)), []);
});

// ---- long lists

const COUNT = 10_000, all = make => Array.from({ length: COUNT }, (_, number) => make(number));
const many = make => leb(COUNT) + all(make).join(""), numbers = all(number => number);

test("lists inside items have all their items", () => {
    const field = number => (number % 3 ? "\x7f\x01" : "\x78\0"), mutable = numbers.map(number => number % 3 > 0);
    const [types] = itemsOf(1, "\x01\x60" + many(number => (number % 3 ? "\x7f" : "\x7e")) + many(number => (number % 2 ? "\x7d" : "\x7c")));
    assert.deepEqual(types.types[0].params, numbers.map(number => (number % 3 ? "i32" : "i64")));
    assert.deepEqual(types.types[0].results, numbers.map(number => (number % 2 ? "f32" : "f64")));
    assert.deepEqual(itemsOf(1, "\x01\x5f" + many(field))[0].types[0].fields.map(one => one.mutable), mutable);
    assert.equal(itemsOf(1, "\x01\x4e" + many(() => "\x60\0\0"))[0].types.length, COUNT);
    const named = number => sized(`${number}`);
    assert.deepEqual(itemsOf(2, "\x01\x01m\0\x7e\0\x05" + many(named)).map(one => one.name), numbers.map(String));
    assert.deepEqual(itemsOf(2, "\x01\x01m\0\x7f" + many(number => named(number) + "\0\x05")).map(one => one.name), numbers.map(String));
    assert.deepEqual(itemsOf(9, "\x01\x01\0" + many(leb))[0].functions, numbers);
    assert.deepEqual(itemsOf(9, "\x01\x05\x70" + many(number => "\xd2" + leb(number) + "\x0b"))[0].expressions, numbers.map(number => ({ raw: "\xd2" + leb(number) + "\x0b" })));
});

test("lists of custom sections have all their items", () => {
    const naming = number => leb(number) + sized(`${number}`), named = numbers.map(String), nameOf = one => one.name;
    const names = id => content => contentsOf("name", section(id, content)).subsections[0].names;
    assert.deepEqual(names(1)(many(naming)).map(nameOf), named);
    assert.deepEqual(names(2)("\x01\x05" + many(naming))[0].names.map(nameOf), named);
    assert.deepEqual(names(2)(many(number => leb(number) + "\x01" + naming(number))).map(one => one.names[0].name), named);
    const value = number => sized(`${number}`) + "\0";
    assert.deepEqual(contentsOf("producers", "\x01\x03sdk" + many(value)).fields[0].values.map(nameOf), named);
    assert.deepEqual(contentsOf("producers", many(() => "\x03sdk\0")).fields.map(nameOf), numbers.map(() => "sdk"));
    assert.deepEqual(contentsOf("target_features", many(number => "+" + sized(`${number}`))).features.map(nameOf), named);
    const hint = number => leb(number) + "\x01\x01", offsetOf = one => one.offset;
    assert.deepEqual(contentsOf("metadata.code.branch_hint", "\x01\x05" + many(hint)).functions[0].hints.map(offsetOf), numbers);
    assert.deepEqual(contentsOf("metadata.code.branch_hint", many(number => leb(number) + "\0")).functions.map(one => one.index), numbers);
    assert.deepEqual(contentsOf("reloc.CODE", "\x0a" + many(number => "\0" + leb(number) + "\x06")).relocations.map(offsetOf), numbers);
});

test("lists of linking have all their items", () => {
    const named = numbers.map(String), nameOf = one => one.name, name = number => sized(`${number}`);
    const dylink = (id, content) => contentsOf("dylink.0", section(id, content)).subsections[0];
    assert.deepEqual(dylink(2, many(name)).libraries, named);
    assert.deepEqual(dylink(3, many(number => name(number) + "\x05")).exports.map(nameOf), named);
    assert.deepEqual(dylink(4, many(number => "\x01m" + name(number) + "\x05")).imports.map(nameOf), named);
    assert.deepEqual(dylink(5, many(name)).paths, named);
    assert.equal(contentsOf("dylink.0", all(() => "\x4d\0").join("")).subsections.length, COUNT);
    const linking = (id, content) => contentsOf("linking", "\x02" + section(id, content)).subsections[0].items;
    assert.deepEqual(linking(5, many(number => name(number) + "\0\0")).map(nameOf), named);
    assert.deepEqual(linking(6, many(number => leb(number) + "\0")).map(one => one.priority), numbers);
    assert.deepEqual(linking(7, many(number => name(number) + "\0\0")).map(nameOf), named);
    assert.deepEqual(linking(7, "\x01\x01c\0" + many(number => "\0" + leb(number)))[0].symbols.map(one => one.index), numbers);
    assert.deepEqual(linking(8, many(number => "\0\0\x05" + name(number))).map(nameOf), named);
});

test("lists of core dumps have all their items", () => {
    const number = value => (value < 64 ? char(value) : char((value & 127) | 128) + number(value >> 7));
    assert.deepEqual(contentsOf("coremodules", many(one => "\0" + sized(`${one}`))).modules, numbers.map(String));
    const [instance] = contentsOf("coreinstances", "\x01\0\x02" + many(leb) + many(leb)).instances;
    assert.deepEqual([instance.memories, instance.globals], [numbers, numbers]);
    assert.equal(contentsOf("coreinstances", many(() => "\0\x02\0\0")).instances.length, COUNT);
    const values = many(one => "\x7f" + number(one)), frame = "\0\x04\x05\x06" + values + values;
    const [{ locals, stack }] = contentsOf("corestack", "\0\x01t\x01" + frame).frames;
    assert.deepEqual([locals.map(one => one.value), stack.map(one => one.value)], [numbers, numbers]);
    assert.equal(contentsOf("corestack", "\0\x01t" + many(() => "\0\x04\x05\x06\0\0")).frames.length, COUNT);
});
