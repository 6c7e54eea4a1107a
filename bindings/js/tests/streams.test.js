// SPDX-License-Identifier: Apache-2.0 OR MIT
// Compares whole and chunked streams with the lines of tools/golden.jsonl, and with those of $PULLEYNAVY_STREAMS, a file of the same form.
import assert from "node:assert/strict";
import { readFileSync } from "node:fs";
import test from "node:test";
import { load } from "../node.js";
import { eventLine, itemLines, withoutRanges } from "./lines.js";

const { parse, Parser, ParserStream, strip, edit } = await load();
const file = process.env.PULLEYNAVY_STREAMS ?? new URL("../../../tools/golden.jsonl", import.meta.url);
const rows = readFileSync(file, "ascii").trim().split("\n").map(row => JSON.parse(row));
const streams = rows.map(row => ({
    ...row, bytes: new Uint8Array(Buffer.from(row.hex, "hex")), lines: withoutRanges(row.lines),
}));

function compare(bytes, said, wanted) {
    for (let at = 0; at < Math.max(said.length, wanted.length); at++) {
        assert.equal(said[at], wanted[at], `line ${at + 1} of ${Buffer.from(bytes).toString("hex").slice(0, 400)}`);
    }
}

const linesOf = (events, bytes) => events.flatMap(event => [eventLine(event), ...itemLines(event, bytes)]);
const eventsAlone = lines => lines.filter(line => !line.startsWith("  "));

function* chunks(bytes, size) {
    for (let at = 0; at < bytes.length; at += size) yield bytes.subarray(at, at + size);
}

function chunked(bytes, size, options) {
    const parser = new Parser(options), events = [];
    for (const chunk of chunks(bytes, size)) events.push(...parser.push(chunk));
    return [...events, ...parser.finish()];
}

test(`${streams.length} streams in memory, with their items`, () => {
    for (const { bytes, lines } of streams) compare(bytes, linesOf([...parse(bytes)], bytes), lines);
});

test("memory does not grow", { skip: !globalThis.gc || streams.length < 10_000 }, () => {
    const third = Math.floor(streams.length / 3), held = [];
    for (const [number, { bytes }] of streams.entries()) {
        for (const event of parse(bytes)) assert.ok(event.kind);
        if (number % third !== 0) continue;
        globalThis.gc();
        const { heapUsed, external } = process.memoryUsage();
        held.push(heapUsed + external);
    }
    assert.ok(held.at(-1) < held[1] + 2 ** 20, held.join());
});

test("the same streams without items", () => {
    for (const { bytes, lines } of streams) compare(bytes, [...parse(bytes, { items: false })].map(eventLine), eventsAlone(lines));
});

for (const size of [1, 7, 100, 65536]) {
    test(`the same streams in chunks of ${size} bytes`, () => {
        for (const { bytes, lines } of streams) compare(bytes, linesOf(chunked(bytes, size), bytes), lines);
    });
}

test("the same events from a stream of chunks", async () => {
    for (const { bytes, lines } of streams.slice(0, 100)) {
        const events = [], readable = new ReadableStream({
            start(controller) {
                for (const chunk of chunks(bytes, 7)) controller.enqueue(chunk);
                controller.close();
            },
        });
        for await (const event of readable.pipeThrough(new ParserStream())) events.push(event);
        compare(bytes, linesOf(events, bytes), lines);
    }
});

test("every event and item is the same object, however the stream is chunked", () => {
    for (const { bytes } of streams) assert.deepEqual(chunked(bytes, 7), [...parse(bytes)]);
});

test("stripping leaves the bytes of all other sections, or reports the fault of the stream", () => {
    for (const { bytes } of streams) {
        const events = [...parse(bytes, { items: false })], last = events.at(-1), { fault, bytes: rest } = strip(bytes);
        if (last.kind === "fault") {
            assert.deepEqual([fault, rest], [last, null]);
            continue;
        }
        const kept = events.filter(event => event.kind !== "custom" && event.kind !== "end");
        const wanted = kept.map((event, i) => bytes.subarray(event.offset, events[events.indexOf(event) + 1].offset));
        assert.deepEqual([fault, Buffer.from(rest)], [null, Buffer.concat(wanted)]);
    }
});

test("stripping leaves what the model does", { skip: !streams.some(one => one.stripped !== undefined) }, () => {
    for (const { bytes, stripped } of streams) {
        const { bytes: rest } = strip(bytes);
        assert.equal(rest && Buffer.from(rest).toString("hex"), stripped);
    }
});

test("edits leave what the model does", { skip: !streams.some(one => one.edit !== undefined) }, () => {
    for (const { bytes, edit: [kind, name, data], edited } of streams) {
        const { fault, bytes: rest } = edit(bytes, [{ [kind]: name, data: Buffer.from(data) }]);
        assert.deepEqual([fault, rest && Buffer.from(rest).toString("hex")], [strip(bytes).fault, edited]);
    }
});
