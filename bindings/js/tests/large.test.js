// SPDX-License-Identifier: Apache-2.0 OR MIT
// Offsets beyond 2^32: a stream of more than 4 GiB, of which a parser holds one section at a time.
import assert from "node:assert/strict";
import test from "node:test";
import { load } from "../node.js";

const { Parser, parse } = await load();
const latin = text => Buffer.from(text, "latin1");
const HEADER = latin("\0asm\x01\0\0\0"), SIZE = 2 ** 24, COUNT = 257;
// A custom section of SIZE bytes, with its id and its size.
const FILLER = Buffer.concat([latin("\0\xfb\xff\xff\x07\x01z"), Buffer.alloc(SIZE - 7)]);
const sized = text => String.fromCharCode(text.length) + text, section = (id, content) => String.fromCharCode(id) + sized(content);
const custom = (name, data) => section(0, sized(name) + data);
// Sections with items and faults among them, custom sections that are malformed in each of their parts, a body, and a fault at the end.
const SECTIONS = [
    section(1, "\x02\x60\x01\x7f\0\x60\x01\x05\0"), section(2, "\x02\x01m\x01f\0\0\x01m\0\x7f\x02\x01g\x03\x7f\0\x01\xff\x03\x7f\0"), section(3, "\x01\0"),
    section(4, "\x01\x70\0\x05"), section(5, "\x01\0\x01"), section(6, "\x01\x7f\0\x41\x05\x0b"), section(7, "\x01\x01e\x05"), section(9, "\x01\0\x41\0\x0b\x01\0"),
    section(10, "\x01\x02\0\x0b"), section(11, "\x01\0\x41\0\x0b\x02hi"),
    custom("name", "\x01\x07\x02\x01\x01a\x01\x01b"), custom("name", "\x02\x03\x01\0\x01"), custom("name", "\0\x02\0\0"), custom("name", "\x02\x01\0\x01\x01\0"),
    custom("reloc.CODE", "\x03\x01\x05"), custom("reloc.CODE", "\x80"), custom("core", "\0\x01pp"), custom("coremodules", "\x02\0\x01a\x07"),
    custom("coreinstances", "\x01\0\x02\x01"), custom("producers", "\x01\x03sdk\x01\x01a"), custom("linking", "\x02\x08\x02\x01\x09"),
    custom("dylink.0", "\x03\x02\x01\x05"), custom("target_features", "\x02+\x01a"), section(100, "\0"), "\x80",
];
const REST = latin(SECTIONS.join(""));
// The fields that are offsets of the stream. Those of relocations, hints and symbols have other origins.
const PLACES = new Set(["start", "end", "dataStart"]), OTHER = new Set(["relocation", "hint", "symbol"]);

function shifted(part, by) {
    if (Array.isArray(part)) return part.map(one => shifted(one, by));
    if (part === null || typeof part !== "object") return part;
    return Object.fromEntries(Object.entries(part).map(([key, value]) => {
        const isPlace = PLACES.has(key) || (key === "offset" && !OTHER.has(part.kind));
        return [key, isPlace ? value + by : shifted(value, by)];
    }));
}

test("offsets beyond 2^32", () => {
    const parser = new Parser(), events = parser.push(HEADER);
    for (let i = 0; i < COUNT; i++) events.push(...parser.push(FILLER));
    events.push(...parser.push(REST), ...parser.finish());
    const [version, ...wanted] = parse(Buffer.concat([HEADER, REST])), fillers = events.splice(1, COUNT);
    assert.deepEqual(events, [version, ...shifted(wanted, COUNT * SIZE)]);
    fillers.forEach((event, i) => {
        const offset = 8 + i * SIZE;
        assert.deepEqual(event, { kind: "custom", offset, start: offset + 5, end: offset + SIZE, id: 0, name: "z", dataStart: offset + 7, contents: null });
    });
    // One event for each section, and one for the body.
    assert.equal(wanted.length, SECTIONS.length + 1);
    assert.equal(JSON.stringify(wanted, (key, value) => (typeof value === "bigint" ? 0 : value)).split('"kind":"fault"').length - 1, 17);
});
