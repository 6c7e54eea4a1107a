// SPDX-License-Identifier: Apache-2.0 OR MIT
// The instances of the module: each parser has its own, and idle ones are used again.
import assert from "node:assert/strict";
import { readFileSync } from "node:fs";
import test from "node:test";
import { CALLS } from "../declared.js";
import { fromModule } from "../node.js";
import { watched } from "./watched.js";

const wasm = readFileSync(new URL("../pulleynavy.wasm", import.meta.url));
const bytes = text => new Uint8Array(Buffer.from(text, "latin1"));
const HEADER = "\0asm\x01\0\0\0";
const FUNCTIONS = HEADER + "\x03\x02\x01\0\x0a\x04\x01\x02\0\x0b";

test("the module has no imports, two pages of memory, and traps for good after a trap", () => {
    const module = new WebAssembly.Module(wasm), { exports } = new WebAssembly.Instance(module);
    assert.deepEqual(WebAssembly.Module.imports(module), []);
    assert.deepEqual(Object.keys(exports).sort(), ["__heap_base", "memory", ...CALLS].sort());
    assert.equal(exports.memory.buffer.byteLength, 2 * 65536);
    assert.equal(exports.pulleynavy_read_number.length, 5);
    assert.ok(exports.pulleynavy_version() > 0);
    assert.throws(() => exports.pulleynavy_parser_init(0xfffffff0n, 0n, 0), WebAssembly.RuntimeError);
    assert.throws(() => exports.pulleynavy_version(), WebAssembly.RuntimeError);
});

test("a parser keeps the bytes of one section alone", () => {
    watched(() => ({}), made => {
        const { Parser } = fromModule(new WebAssembly.Module(wasm)), parser = new Parser();
        const section = new Uint8Array(10_000), names = new Set();
        section.set(bytes("\0\x8d\x4e\x01x"));
        parser.push(bytes(HEADER));
        for (let i = 0; i < 5000; i++) for (const event of parser.push(section)) names.add(`${event.kind} ${event.end - event.start}`);
        assert.deepEqual([...names], ["custom 9997"]);
        assert.ok(made.at(-1).exports.memory.buffer.byteLength < 500_000);
    });
});

test("an instance is used again, also after a loop that ends early", () => {
    watched(() => ({}), made => {
        const { parse } = fromModule(new WebAssembly.Module(wasm));
        for (let i = 0; i < 10; i++) for (const event of parse(bytes(FUNCTIONS))) if (i % 2) break;
        assert.equal(made.length, 1);
    });
});

test("an instance that trapped is discarded", () => {
    let isBroken = false;
    const trapping = exports => ({
        pulleynavy_next_events: (parser, ...rest) => exports.pulleynavy_next_events(isBroken ? 0xfffffff0n : parser, ...rest),
    });
    watched(trapping, made => {
        const { parse, Parser } = fromModule(new WebAssembly.Module(wasm)), wanted = [...parse(bytes(FUNCTIONS))], parser = new Parser();
        isBroken = true;
        assert.throws(() => [...parse(bytes(FUNCTIONS))], WebAssembly.RuntimeError);
        assert.throws(() => parser.push(bytes(FUNCTIONS)), WebAssembly.RuntimeError);
        isBroken = false;
        const before = made.length;
        assert.deepEqual([...parse(bytes(FUNCTIONS))], wanted);
        assert.equal(made.length, before + 1);
        assert.throws(() => parser.push(bytes(FUNCTIONS)), /has thrown before/);
    });
});

// A parser or a loop over a stream, one step at a time, and what it has to say.
class Running {
    constructor({ parse, Parser }, text, isChunked, draw) {
        this.draw = draw;
        this.input = bytes(text);
        this.wanted = [...parse(this.input)];
        this.found = [];
        this.at = 0;
        this.parser = isChunked ? new Parser() : null;
        this.events = isChunked ? null : parse(this.input);
    }

    // Takes a step. Returns whether there is another one.
    step() {
        if (!this.parser) {
            const { value, done } = this.events.next();
            if (value) this.found.push(value);
            return !done;
        }
        this.found.push(...this.parser.push(this.input.subarray(this.at, (this.at += 1 + this.draw(40)))));
        if (this.at < this.input.length) return true;
        // A parser that has ended says nothing more.
        this.found.push(...this.parser.finish(), ...this.parser.finish(), ...this.parser.push(this.input));
        return false;
    }

    // Stops early.
    leave() {
        this.events?.return();
    }
}

// Numbers below `most` that are the same in each run.
function drawer(seed) {
    let state = seed;
    return most => (state = (state * 1103515245 + 12345) % 2 ** 31) % most;
}

test("10,000 parsers in any order are independent", () => {
    const package_ = fromModule(new WebAssembly.Module(wasm)), { strip, edit, encodeCustom } = package_, draw = drawer(1), running = [];
    const sections = ["\0\x02\x01x", "\0\x0b\x04name\x01\x04\x01\x05\x01f", "\x64\x03abc", "\x80", "\x07\x05\x01\x01a\0\x05"], stripped = bytes(FUNCTIONS);
    for (let begun = 0; begun < 10_000 || running.length;) {
        if (begun < 10_000 && running.length < 12 && draw(3) === 0) {
            const tail = Array.from({ length: draw(4) }, () => sections[draw(sections.length)]).join("");
            running.push(new Running(package_, (draw(9) ? FUNCTIONS : "abcd") + tail, begun++ % 2, draw));
        } else if (running.length) {
            const place = draw(running.length), one = running[place], isLeft = draw(20) === 0;
            if (isLeft) one.leave();
            if (!isLeft && one.step()) continue;
            running.splice(place, 1);
            assert.deepEqual(one.found, one.wanted.slice(0, isLeft ? one.found.length : undefined));
        }
        if (draw(10) === 0) assert.deepEqual(strip(bytes(FUNCTIONS + "\0\x02\x01x")).bytes, stripped);
        if (draw(10) === 0) assert.deepEqual(edit(stripped, [{ remove: "x" }, { keep: "y" }]).bytes, stripped);
        if (draw(10) === 0) assert.throws(() => encodeCustom("a".repeat(100_001), stripped), RangeError);
    }
});

test("running parsers have an instance each, and few idle ones are kept", () => {
    watched(() => ({}), made => {
        const { parse, Parser } = fromModule(new WebAssembly.Module(wasm));
        const finish = parsers => parsers.forEach(parser => parser.finish());
        const begin = count => Array.from({ length: count }, () => new Parser());
        const before = made.length, first = begin(100);
        assert.ok(made.length >= before + 99);
        finish(first);
        finish(first);
        // Of a hundred idle instances, eight wait for their next use.
        const idle = made.length, second = begin(100);
        assert.equal(made.length, idle + 92);
        finish(second);
        const loops = Array.from({ length: 10 }, () => parse(bytes(FUNCTIONS))), used = made.length;
        for (const loop of loops) loop.next();
        assert.equal(made.length, used + 2);
        for (const loop of loops) loop.return();
    });
});

test("an instance with more than 64 MiB is not kept", () => {
    watched(() => ({}), made => {
        const { parse, strip } = fromModule(new WebAssembly.Module(wasm)), small = bytes(FUNCTIONS);
        for (const [size, isKept] of [[2 ** 25, true], [2 ** 26, false]]) {
            const large = new Uint8Array(size);
            for (const use of [() => [...parse(large)], () => strip(large)]) {
                const before = made.length;
                use();
                for (let i = 0; i < 3; i++) strip(small);
                assert.equal(made.length, before + !isKept, `${size} bytes`);
            }
        }
    });
});
