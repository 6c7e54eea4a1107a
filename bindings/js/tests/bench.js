// SPDX-License-Identifier: Apache-2.0 OR MIT
// Times the parser on modules that it makes, or on files: node tests/bench.js [FILE..]
// Each time is the least of the rounds of two seconds.
import { readFileSync } from "node:fs";
import { load } from "../node.js";

const { parse, Parser } = await load();
const CHUNK = 65536, ROUNDS = 2000;

function leb(value) {
    const bytes = [];
    for (; value > 127; value >>>= 7) bytes.push(value & 127 | 128);
    return [...bytes, value];
}

function section(id, items) {
    const content = [leb(items.length), ...items].map(one => Buffer.from(one));
    return Buffer.concat([Buffer.from([id, ...leb(content.reduce((size, one) => size + one.length, 0))]), ...content]);
}

const repeated = (count, make) => Array.from({ length: count }, (_, i) => make(i));
const text = word => [...leb(word.length), ...Buffer.from(word)];
const sized = bytes => [...leb(bytes.length), ...bytes];
const module = (...sections) => Buffer.concat([Buffer.from("\0asm\x01\0\0\0", "latin1"), ...sections]);
const segment = i => [0, 0x41, ...leb(i & 63), 0x0b, 3, 1, 2, 3];

function made() {
    const bodies = repeated(40_000, () => sized([0, ...new Array(205).fill(1), 0x0b]));
    return {
        "100,000 data segments": module(section(11, repeated(100_000, segment))),
        "40,000 functions and bodies, 20,000 exports and data segments": module(
            section(1, repeated(20, i => [0x60, 2, 0x7f, 0x7e, ...(i & 1 ? [1, 0x7d] : [0])])),
            section(3, repeated(40_000, i => leb(i % 20))),
            section(5, [[1, 1, 2]]), section(6, repeated(10, () => [0x7f, 1, 0x41, 0, 0x0b])),
            section(7, repeated(20_000, i => [...text(`function${i}`), 0, ...leb(i)])),
            section(10, bodies), section(11, repeated(20_000, segment))),
    };
}

const files = process.argv.slice(2).map(path => [path, readFileSync(path)]);

function time(what, run) {
    let least = Infinity, count = 0;
    for (const end = performance.now() + ROUNDS; performance.now() < end;) {
        const from = performance.now();
        count = run();
        least = Math.min(least, performance.now() - from);
    }
    console.log(`    ${what}: ${count} in ${least.toFixed(1)} ms`);
}

function counted(events) {
    let count = 0;
    for (const event of events) count += 1 + (event.items?.length ?? 0);
    return count;
}

function chunked(bytes, options) {
    const parser = new Parser(options);
    let count = 0;
    for (let at = 0; at < bytes.length; at += CHUNK) count += counted(parser.push(bytes.subarray(at, at + CHUNK)));
    return count + counted(parser.finish());
}

for (const [name, bytes] of files.length ? files : Object.entries(made())) {
    console.log(`${name}, ${(bytes.length / 1e6).toFixed(1)} MB`);
    time("events", () => counted(parse(bytes, { items: false })));
    time("events and items", () => counted(parse(bytes)));
    time(`events in chunks of ${CHUNK} bytes`, () => chunked(bytes, { items: false }));
    time(`events and items in chunks of ${CHUNK} bytes`, () => chunked(bytes));
}
