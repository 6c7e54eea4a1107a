// SPDX-License-Identifier: Apache-2.0 OR MIT
// Modules by hand, and what the package does besides reading.
import assert from "node:assert/strict";
import { spawnSync } from "node:child_process";
import { readFileSync } from "node:fs";
import test from "node:test";
import { setImmediate } from "node:timers/promises";
import { ALL_FEATURES, COMPACT_IMPORTS, MEMORY64, VERSION, faultText, fromModule, load, typeText } from "../node.js";
import { watched } from "./watched.js";

const wasm = readFileSync(new URL("../pulleynavy.wasm", import.meta.url));
const { parse, Parser, ParserStream, strip, edit, encodeCustom } = await load(wasm);
// The bytes of a text whose characters are bytes.
const bytes = text => new Uint8Array(Buffer.from(text, "latin1"));
const HEADER = "\0asm\x01\0\0\0";
const FUNCTIONS = HEADER + "\x03\x02\x01\0\x0a\x04\x01\x02\0\x0b";
const IMPORTS = HEADER + "\x02\x1c\x03\x01m\x01a\0\x05\x01m\x01b\x02\0\x01\x01n\0\x7f\x02\x01c\x04\0\x03\x01d\0\x04";
const itemsOf = (text, options) => [...parse(bytes(text), options)].find(event => event.kind === "section").items;
// An object without the offsets of its bytes.
const content = ({ start, end, ...rest }) => rest;

test("imports, and those of bundles", () => {
    const items = itemsOf(IMPORTS);
    assert.deepEqual(items.map(content), [
        { kind: "import", module: "m", name: "a", external: "func", type: 5 },
        { kind: "import", module: "m", name: "b", external: "memory",
            type: { initial: 1, maximum: null, memory64: false, shared: false, pageSizeLog2: null } },
        { kind: "import", module: "n", name: "c", external: "tag", type: 3 },
        { kind: "import", module: "n", name: "d", external: "func", type: 4 },
    ]);
    assert.deepEqual(items.map(it => [it.start, it.end]), [[11, 17], [17, 24], [29, 34], [34, 38]]);
});

test("tables, memories, tags and globals", () => {
    const sections = "\x04\x05\x01\x70\x01\x01\x02\x05\x04\x01\x03\x01\x02\x0d\x03\x01\0\x07\x06\x06\x01\x7f\x01\x41\0\x0b";
    const events = [...parse(bytes(HEADER + sections))];
    const [table, memory, tag, global] = events.slice(1, 5).map(event => event.items[0]);
    const element = { nullable: true, heap: "func" };
    const type = { element, initial: 1, maximum: 2, table64: false, shared: false };
    assert.deepEqual(table, { kind: "table", start: 11, end: 15, type, init: null });
    assert.deepEqual(memory.type, { initial: 1, maximum: 2, memory64: false, shared: true, pageSizeLog2: null });
    assert.equal(tag.type, 7);
    assert.deepEqual(global.type, { content: "i32", mutable: true, shared: false });
    assert.deepEqual(global.init, { start: 31, end: 34 });
    assert.deepEqual([typeText(element), typeText("i32"), typeText({ nullable: false, heap: 3 })], ["(ref null func)", "i32", "(ref 3)"]);
});

test("a table without a maximum", () => {
    assert.deepEqual(itemsOf(HEADER + "\x04\x04\x01\x70\0\x05")[0].type,
        { element: { nullable: true, heap: "func" }, initial: 5, maximum: null, table64: false, shared: false });
});

test("more items than a call stores", () => {
    const count = 10000, leb = size => String.fromCharCode(size & 127 | 128, size >> 7 & 127 | 128, size >> 14);
    const names = Array.from({ length: count }, (_, number) => `e${number}`);
    const content = leb(count) + names.map(name => String.fromCharCode(name.length) + name + "\0\0").join("");
    const items = itemsOf(HEADER + "\x07" + leb(content.length) + content);
    assert.deepEqual(items.map(it => it.name), names);
    assert.deepEqual(items.map(it => it.end - it.start), names.map(name => name.length + 3));
    assert.equal(items.at(-1).end, HEADER.length + 4 + content.length);
});

test("exports with names that are not ASCII, and a byte order mark", () => {
    const items = itemsOf(HEADER + "\x07\x11\x03\x02\xc3\xa9\x04\x05\x01a\x03\0\x04\xef\xbb\xbfb\0\x01");
    assert.deepEqual(items.map(it => [it.name, it.external, it.index]), [["é", "tag", 5], ["a", "global", 0], ["\ufeffb", "func", 1]]);
});

test("segments", () => {
    const events = [...parse(bytes(HEADER + "\x09\x0c\x02\x01\0\x01\x05\x02\x03\x41\0\x0b\0\0\x0b\x0b\x02\x01\x02xy\0\x41\0\x0b\x01z"))];
    assert.deepEqual(events[1].items.map(content), [
        { kind: "element", mode: "passive", table: null, offsetExpression: null, type: null, items: { start: 14, end: 15 },
            functions: [5], expressions: null },
        { kind: "element", mode: "active", table: 3, offsetExpression: { start: 17, end: 20 }, type: null, items: { start: 22, end: 22 },
            functions: [], expressions: null },
    ]);
    assert.deepEqual(events[2].items.map(content), [
        { kind: "data", mode: "passive", memory: null, offsetExpression: null, bytes: { start: 27, end: 29 } },
        { kind: "data", mode: "active", memory: 0, offsetExpression: { start: 30, end: 33 }, bytes: { start: 34, end: 35 } },
    ]);
});

test("limits of 64 bits are bigints, others numbers", () => {
    const limitOf = flags => itemsOf(HEADER + "\x05\x0a\x01" + flags + "\xff\xff\xff\xff\xff\xff\xff\x0f")[0].type.initial;
    assert.equal(limitOf("\x00"), 2 ** 53 - 1);
    assert.equal(limitOf("\x04"), 2n ** 53n - 1n);
    assert.deepEqual(itemsOf(HEADER + "\x05\x04\x01\x05\x01\x02")[0].type, { initial: 1n, maximum: 2n, memory64: true, shared: false, pageSizeLog2: null });
    assert.deepEqual(itemsOf(HEADER + "\x04\x05\x01\x70\x05\x01\x02")[0].type,
        { element: { nullable: true, heap: "func" }, initial: 1n, maximum: 2n, table64: true, shared: false });
    assert.equal(itemsOf(HEADER + "\x05\x0c\x01\x04\xff\xff\xff\xff\xff\xff\xff\xff\xff\x01")[0].type.initial, 2n ** 64n - 1n);
    // A limit of 32 bits that no valid module has.
    assert.equal(itemsOf(HEADER + "\x05\x0a\x01\x00\x81\x80\x80\x80\x80\x80\x80\x10")[0].type.initial, 2 ** 53);
});

test("types with their offsets", () => {
    const [group, single] = itemsOf(HEADER + "\x01\x0e\x02\x4e\x02\x60\x01\x7f\0\x50\0\x5f\0\x60\0\0");
    assert.deepEqual([group.explicit, group.start, group.end, single.explicit, single.start, single.end], [true, 11, 21, false, 21, 24]);
    assert.deepEqual([...group.types, ...single.types], [
        { kind: "func", start: 13, end: 17, final: true, supertype: null, params: ["i32"], results: [] },
        { kind: "struct", start: 17, end: 21, final: false, supertype: null, fields: [] },
        { kind: "func", start: 21, end: 24, final: true, supertype: null, params: [], results: [] },
    ]);
});

test("addends of 64 bits are bigints, others numbers", () => {
    const zero = "\x80".repeat(7), addends = [zero + "\x70", "\x7f", "\x05", zero + "\x10"];
    const data = "\x0areloc.CODE\x0a\x05" + addends.map(addend => "\x0e\0\0" + addend).join("") + "\x05\0\0\x7f";
    const [, custom] = parse(bytes(HEADER + "\0" + String.fromCharCode(data.length) + data));
    assert.deepEqual(custom.contents.relocations.map(one => one.addend), [-(2n ** 53n), -1n, 5n, 2n ** 53n, -1]);
});

test("the type of each addend is that of its number in the binary format", () => {
    // An addend of 10 bytes is one of 64 bits.
    const wide = [14, 15, 16, 17, 22, 25], narrow = [3, 4, 5, 8, 9, 11, 21, 23];
    for (const type of Array(27).keys()) {
        const addend = wide.includes(type) ? "\x80".repeat(9) + "\x7f" : narrow.includes(type) ? "\x7e" : "";
        const data = "\x0areloc.CODE\x0a\x01" + String.fromCharCode(type) + "\0\0" + addend;
        const [, custom] = parse(bytes(HEADER + "\0" + String.fromCharCode(data.length) + data));
        const wanted = wide.includes(type) ? -(2n ** 63n) : narrow.includes(type) ? -2 : 0;
        assert.equal(custom.contents.relocations[0].addend, wanted, type);
    }
});

test("values of 64 bits in a core dump are bigints, others numbers", () => {
    const values = "\x7f\x7f" + "\x7e\x7f" + "\x7d\xff\xff\xff\xff" + "\x7c" + "\xff".repeat(8) + "\x01";
    const data = "\x09corestack\0\x01m\x01\0\0\0\0\x05" + values + "\0";
    const [, custom] = parse(bytes(HEADER + "\0" + String.fromCharCode(data.length) + data));
    assert.deepEqual(custom.contents.frames[0].locals, [
        { type: "i32", value: -1 }, { type: "i64", value: -1n }, { type: "f32", value: 2 ** 32 - 1 }, { type: "f64", value: 2n ** 64n - 1n },
        { type: "missing", value: null },
    ]);
});

test("events of functions and their bodies", () => {
    assert.deepEqual([...parse(bytes(FUNCTIONS))], [
        { kind: "version", offset: 0, start: 0, end: 8, version: 1, encoding: "module" },
        { kind: "section", offset: 8, start: 10, end: 12, id: 3, name: "function", count: 1,
            items: [{ kind: "function", start: 11, end: 12, type: 0 }] },
        { kind: "code", offset: 12, start: 14, end: 18, id: 10, count: 1, size: 3 },
        { kind: "body", offset: 15, start: 16, end: 18 },
        { kind: "end", offset: 18 },
    ]);
});

test("names", () => {
    const events = [...parse(bytes(HEADER + "\0\x10\x04name\0\x02\x01m\x01\x05\x01\x07\x02\xc3\xa9\0\x02\x01x"))];
    const custom = events.filter(event => event.kind === "custom");
    assert.deepEqual(custom.map(event => [event.name, event.dataStart]), [["name", 15], ["x", 30]]);
    assert.deepEqual(custom[0].contents.subsections, [
        { kind: "module", id: 0, start: 15, end: 19, contents: { start: 17, end: 19 }, name: "m" },
        { kind: "names", id: 1, start: 19, end: 26, contents: { start: 21, end: 26 }, of: "function",
            names: [{ kind: "name", start: 22, end: 26, index: 7, name: "é" }] },
    ]);
    assert.equal(custom[1].contents, null);
});

test("an entry out of order is a fault between entries with their offsets", () => {
    const [, custom] = parse(bytes(HEADER + "\0\x11\x04name\x01\x0a\x03\x01\x01a\x01\x01b\x02\x01c"));
    const [first, fault, last] = custom.contents.subsections[0].names;
    assert.deepEqual([first.start, first.end, fault.fault, fault.offset, last.start, last.end], [18, 21, "NAMES_ORDER", 21, 24, 27]);
});

test("bytes after the name of a module are a fault at the first of them", () => {
    const [, custom] = parse(bytes(HEADER + "\0\x0a\x04name\0\x03\x01m\0"));
    assert.deepEqual(custom.contents.subsections.map(part => [part.fault, part.offset]), [["NAME_TRAILING", 19]]);
});

test("a component has sections, and no items", () => {
    const events = [...parse(bytes("\0asm\x0d\0\x01\0\x01\x01\0"))];
    assert.deepEqual(events.map(event => event.kind), ["version", "unknown", "end"]);
    assert.equal(events[0].encoding, "component");
});

test("a malformed section is the last event", () => {
    const fault = [...parse(bytes(HEADER + "\x80"))].at(-1);
    assert.deepEqual([fault.kind, fault.fault, fault.offset, fault.code], ["fault", "MALFORMED_SECTION_ID", 8, 7]);
});

test("a malformed item is a fault among the items, and the stream goes on", () => {
    const events = [...parse(bytes(HEADER + "\x07\x04\x01\x01a\x05"))];
    assert.deepEqual(events[1].items, [
        { kind: "fault", offset: 13, fault: "LEADING_BYTE", code: 25 + 5 * 256, number: 5, text: "invalid leading byte for external kind" },
    ]);
    assert.equal(faultText(events[1].items[0]), "invalid leading byte for external kind: 5 (at offset 0xd)");
    assert.equal(events.at(-1).kind, "end");
});

test("every prefix of a module ends in a fault or an end, and throws nothing", () => {
    for (const text of [FUNCTIONS, IMPORTS]) {
        for (let size = 0; size < text.length; size++) {
            const last = [...parse(bytes(text.slice(0, size)))].at(-1);
            assert.ok(size === 8 ? last.kind === "end" : last.kind === "fault", `${size}: ${last.kind}`);
        }
    }
});

test("features: bundles of imports only where they are asked for", () => {
    assert.equal(itemsOf(IMPORTS, { features: COMPACT_IMPORTS }).length, 4);
    const items = itemsOf(IMPORTS, { features: MEMORY64 });
    assert.deepEqual(items.map(it => it.kind), ["import", "import", "fault"]);
    assert.deepEqual([items[2].offset, items[2].fault], [27, "COMPACT_7F"]);
    assert.equal(ALL_FEATURES, MEMORY64 | COMPACT_IMPORTS);
    const parser = new Parser({ features: MEMORY64 });
    assert.equal([...parser.push(bytes(IMPORTS)), ...parser.finish()][1].items[2].fault, "COMPACT_7F");
});

test("without items", () => {
    const events = [...parse(bytes(IMPORTS + "\0\x0b\x04name\x01\x04\x01\0\x01a"), { items: false })];
    assert.deepEqual([events[1].items, events[1].count, events[2].contents], [[], 3, null]);
});

test("interleaved parsers are independent", () => {
    const texts = [FUNCTIONS, IMPORTS, HEADER + "\x80", FUNCTIONS + "\0\x02\x01x"], wanted = texts.map(text => [...parse(bytes(text))]);
    const running = texts.map(text => parse(bytes(text))), parsers = texts.map(() => new Parser());
    const said = texts.map(() => []), pushed = texts.map(() => []);
    for (let at = 0; at < IMPORTS.length; at++) {
        texts.forEach((text, i) => {
            const { value } = running[i].next();
            if (value) said[i].push(value);
            pushed[i].push(...parsers[i].push(bytes(text.slice(at, at + 1))));
        });
    }
    parsers.forEach((parser, i) => pushed[i].push(...parser.finish()));
    assert.deepEqual([said, pushed], [wanted, wanted]);
});

test("input of each kind, and input that is none", () => {
    const array = bytes(FUNCTIONS), shared = new Uint8Array(new SharedArrayBuffer(array.length)), wanted = [...parse(array)];
    shared.set(array);
    const padded = new Uint8Array([1, 2, ...array, 3]);
    for (const input of [array.buffer.slice(array.byteOffset, array.byteOffset + array.length), shared, shared.buffer, Buffer.from(array),
        new DataView(padded.buffer, 2, array.length), new Int8Array(array)]) {
        assert.deepEqual([...parse(input)], wanted);
    }
    for (const input of [undefined, null, 8, "abc", [0, 1], {}]) {
        assert.throws(() => parse(input), TypeError);
        assert.throws(() => new Parser().push(input), TypeError);
        assert.throws(() => strip(input), TypeError);
        assert.throws(() => edit(input, []), TypeError);
        assert.throws(() => edit(array, [{ append: "a", data: input }]), TypeError);
        assert.throws(() => encodeCustom("a", input), TypeError);
    }
});

test("a section larger than a chunk makes the storage grow", () => {
    const size = 1_000_000, data = new Uint8Array(8 + 1 + 3 + 2 + size);
    data.set(bytes(HEADER + "\0" + String.fromCharCode((size + 2) & 127 | 128, (size + 2) >> 7 & 127 | 128, (size + 2) >> 14) + "\x01x"));
    const parser = new Parser(), events = [];
    for (let at = 0; at < data.length; at += 1000) events.push(...parser.push(data.subarray(at, at + 1000)));
    events.push(...parser.finish());
    assert.deepEqual(events.map(event => event.kind), ["version", "custom", "end"]);
    assert.deepEqual([events[1].name, events[1].dataStart, events[1].end], ["x", 14, data.length]);
    assert.deepEqual(new Parser().push(data), events.slice(0, 2));
});

test("after the last event a parser returns none", () => {
    const parser = new Parser();
    assert.equal(parser.push(bytes("abcd")).at(-1).kind, "fault");
    assert.deepEqual([parser.push(bytes("abcd")), parser.finish()], [[], []]);
});

test("a stream that ends early, and a fault, through ParserStream", async () => {
    for (const text of [FUNCTIONS.slice(0, 9), HEADER + "\x80" + "x".repeat(100_000)]) {
        const events = [];
        for await (const event of new Blob([bytes(text)]).stream().pipeThrough(new ParserStream())) events.push(event);
        assert.deepEqual(events, [...parse(bytes(text))]);
    }
});

test("a stream with a fault at its start ends its source", async () => {
    for (const [head, kinds] of [["abcd", ["fault"]], [HEADER + "\0\x02\x01x\x80", ["version", "custom", "fault"]]]) {
        let pulled = 0, cancelled = 0;
        const source = new ReadableStream({
            pull(controller) {
                controller.enqueue(pulled++ ? new Uint8Array(65536) : bytes(head));
                if (pulled > 2000) controller.close();
            },
            cancel() {
                cancelled++;
            },
        });
        const found = [];
        for await (const event of source.pipeThrough(new ParserStream())) found.push(event.kind);
        // The source is cancelled after the reader has ended.
        await setImmediate();
        assert.deepEqual([found, cancelled], [kinds, 1]);
        assert.ok(pulled < 10, `${pulled} chunks are read`);
    }
});

test("a fault at the end of input does not cancel the source", async () => {
    let cancelled = 0;
    const start = controller => {
        controller.enqueue(bytes(FUNCTIONS.slice(0, 9)));
        controller.close();
    };
    const found = [], source = new ReadableStream({ start, cancel: () => cancelled++ });
    for await (const event of source.pipeThrough(new ParserStream())) found.push(event.kind);
    await setImmediate();
    assert.deepEqual([found, cancelled], [["version", "fault"], 0]);
});

test("events with their bytes are the whole stream, and are copies", () => {
    const text = IMPORTS + FUNCTIONS.slice(8) + "\0\x02\x01x\x64\x01y", input = bytes(text), options = { bytes: true };
    for (const size of [1, 2, 5, 100]) {
        const parser = new Parser(options), events = [];
        for (let at = 0; at < input.length; at += size) events.push(...parser.push(input.subarray(at, at + size)));
        events.push(...parser.finish());
        assert.equal(events.map(event => Buffer.from(event.bytes ?? []).toString("latin1")).join(""), text);
        assert.deepEqual([...parse(input, options)], events);
        assert.deepEqual(events.map(({ bytes, ...rest }) => rest), [...parse(input)]);
        for (const { bytes } of events.slice(0, -1)) assert.equal(bytes.byteLength, bytes.buffer.byteLength);
    }
    const [version] = parse(input, options);
    input.fill(0);
    assert.deepEqual(version.bytes, bytes(HEADER));
});

test("a stream returns the source map that a module names", async () => {
    const url = "a.wasm.map", section = "\x10sourceMappingURL" + String.fromCharCode(url.length) + url;
    const module = bytes(FUNCTIONS + "\0" + String.fromCharCode(section.length) + section);
    const events = new Blob([module]).stream().pipeThrough(new ParserStream({ items: false, bytes: true }));
    for await (const event of events) {
        if (event.name !== "sourceMappingURL") continue;
        // One byte of data is the size of the URL.
        const data = event.bytes.subarray(event.dataStart - event.offset);
        assert.equal(new TextDecoder().decode(data.subarray(1)), url);
        return;
    }
    assert.fail("the section is missing");
});

test("stripping", () => {
    const module = bytes(HEADER + "\0\x05\x04name\0\x02\x01x");
    assert.deepEqual(strip(module), { fault: null, bytes: bytes(HEADER) });
    assert.deepEqual(strip(module, { keepNames: true }).bytes, bytes(HEADER + "\0\x05\x04name"));
    assert.equal(module.length, 19);
    assert.deepEqual([strip(bytes("abcd")).fault.fault, strip(bytes("abcd")).bytes], ["BAD_MAGIC", null]);
});

test("edits", () => {
    const data = bytes("z"), types = "\x01\x01\0", module = bytes(HEADER + "\0\x02\x01a" + types + "\0\x03\x01bx\0\x02\x01a");
    const rows = [
        [[{ append: "\u03b1", data }], Buffer.from(module).toString("latin1") + "\0\x04\x02\xce\xb1z"],
        [[{ replace: "a", data }], HEADER + "\0\x03\x01az" + types + "\0\x03\x01bx\0\x03\x01az"],
        [[{ remove: "a" }], HEADER + types + "\0\x03\x01bx"],
        [[{ keep: "b" }], HEADER + types + "\0\x03\x01bx"],
        [[{ keep: "" }, { append: "c", data }, { replace: "c", data: bytes("") }, { append: "", data: bytes("") }], HEADER + types + "\0\x02\x01c\0\x01\0"],
    ];
    for (const [edits, wanted] of rows) assert.deepEqual(edit(module, new Set(edits)), { fault: null, bytes: bytes(wanted) });
    const copy = edit(Buffer.from(module), []).bytes;
    assert.deepEqual(copy.fill(0), new Uint8Array(module.length));
    assert.deepEqual([edit(bytes("abcd"), []), edit(bytes("abcd"), [{ remove: "a" }, { append: "a".repeat(100_001), data }])].map(
        ({ fault, bytes }) => [fault.fault, fault.offset, bytes]), [["BAD_MAGIC", 0, null], ["BAD_MAGIC", 0, null]]);
    // An encoder makes U+FFFD of a lone surrogate, which is another name.
    const replacement = edit(module, [{ append: "\ufffd", data }]).bytes;
    for (const name of ["\ud800", "\udfff", "a\ud83d", "\ude00\ud83d"]) {
        for (const one of [{ append: name, data }, { replace: name, data }, { remove: name }, { keep: name }]) assert.throws(() => edit(replacement, [one]), TypeError);
        assert.throws(() => encodeCustom(name, data), TypeError);
    }
    assert.deepEqual(encodeCustom("\ud83d\ude00\ufffd", data), bytes("\0\x09\x07\xf0\x9f\x98\x80\xef\xbf\xbdz"));
    for (const wrong of [{}, { data }, null, "remove", { remove: 5 }, { append: "a" }, { append: "a", data: "text" }]) {
        assert.throws(() => edit(module, [wrong]), TypeError);
    }
});

test("custom sections", () => {
    const zeros = String.fromCharCode(0).repeat(126), longest = "a".repeat(100_000);
    assert.deepEqual(encodeCustom("", bytes("")), bytes("\0\x01\0"));
    assert.deepEqual(encodeCustom("", bytes(zeros)), bytes("\0\x7f\0" + zeros));
    assert.deepEqual(encodeCustom("a", bytes(zeros)), bytes("\0\x80\x01\x01a" + zeros));
    assert.equal(encodeCustom(longest, bytes("")).length, 1 + 3 + 3 + 100_000);
    assert.throws(() => encodeCustom(longest + "a", bytes("")), { name: "RangeError", message: /too large/ });
    assert.throws(() => edit(bytes(HEADER), [{ replace: longest + "a", data: bytes("") }]), { name: "RangeError", message: /too large/ });
    assert.throws(() => encodeCustom(5, bytes("")), TypeError);
});

// ---- the module

test("a memory that cannot grow is a RangeError, and the next parse works", () => {
    const script = `
        import assert from "node:assert/strict";
        import { load } from ${JSON.stringify(new URL("../node.js", import.meta.url).href)};
        const { parse, Parser, strip, edit, encodeCustom } = await load();
        const large = new Uint8Array(8_000_000), small = new Uint8Array([0, 97, 115, 109, 1, 0, 0, 0]);
        large.set([...small, 0, 0xf4, 0xa3, 0xe8, 0x03, 1, 120]);
        for (let i = 0; i < 20; i++) {
            assert.throws(() => [...parse(large)], RangeError);
            assert.throws(() => strip(large), RangeError);
            assert.throws(() => edit(large, [{ remove: "a" }]), RangeError);
            assert.throws(() => edit(small, [{ append: "a", data: large }]), RangeError);
            assert.throws(() => encodeCustom("a", large), RangeError);
            assert.throws(() => new Parser().push(large), RangeError);
            assert.equal([...parse(small)].at(-1).kind, "end");
        }
        const parser = new Parser();
        assert.throws(() => parser.push(large), RangeError);
        assert.throws(() => parser.push(large), /has thrown before/);`;
    const done = spawnSync(process.execPath, ["--wasm-max-mem-pages=64", "--input-type=module", "-e", script], { encoding: "utf8" });
    assert.deepEqual([done.status, done.stderr], [0, ""]);
});

test("a file that is not the module of this version", async () => {
    await assert.rejects(load(bytes(HEADER)), /not the module of pulleynavy/);
    await assert.rejects(load(bytes("abcd")), WebAssembly.CompileError);
    const other = () => ({ pulleynavy_version: () => 7 });
    watched(other, () => assert.throws(() => fromModule(new WebAssembly.Module(wasm)), /its version is 7/));
    assert.equal(JSON.parse(readFileSync(new URL("../package.json", import.meta.url), "utf8")).version, VERSION);
});

test("the parser from each kind of source", async () => {
    const url = new URL("../pulleynavy.wasm", import.meta.url), data = `data:application/wasm;base64,${wasm.toString("base64")}`;
    const response = new Response(wasm, { headers: { "content-type": "application/wasm" } });
    for (const source of [undefined, url, data, new URL(data), response, wasm, new Uint8Array(wasm).buffer, new WebAssembly.Module(wasm)]) {
        const { parse } = await load(source);
        assert.equal([...parse(bytes(FUNCTIONS))].length, 5);
    }
    for (const status of [300, 400, 403, 404, 410, 500, 503, 599]) {
        await assert.rejects(load(new Response(wasm, { status })), new RegExp(`status ${status}`));
    }
    assert.equal([...(await load(new Response(wasm, { status: 201 }))).parse(bytes(HEADER))].length, 2);
});
