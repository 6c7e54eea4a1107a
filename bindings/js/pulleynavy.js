// SPDX-License-Identifier: Apache-2.0 OR MIT
// A streaming parser for WebAssembly binaries. README.md says how to use it, pulleynavy.d.ts what every object has.
import { CALLS, EventLayout, FeedLayout, VERSION } from "./declared.js";
import { contentsOf } from "./customs.js";
import { edit, encodeCustom, strip } from "./edits.js";
import { CHUNK, Instance, batchOf, bytesOf, offsetAt } from "./instance.js";
import { itemsOf } from "./items.js";
import { Window } from "./window.js";

export { VERSION } from "./declared.js";

/** The features of a parser: 64-bit memories and tables, compact imports, and both, which is the default. */
export const MEMORY64 = 1, COMPACT_IMPORTS = 2, ALL_FEATURES = 3;
/** The names of sections by their ids, such as "import" for 2 (core specification, Binary format, Modules, Sections). */
export const SECTIONS = Object.freeze([
    "custom", "type", "import", "function", "table", "memory", "global", "export", "start", "element", "code", "data", "data count", "tag",
]);
// At most this many instances wait for their next use, none with more memory than this.
const MOST_IDLE = 8, MOST_MEMORY = 2 ** 26;
const MOST_EVENTS = BigInt(batchOf(EventLayout.SIZE));

/**
 * Returns a type in the text format, such as `i32` or `(ref null func)`.
 *
 * @param {import("./pulleynavy.js").StorageType} type
 * @returns {string}
 */
export function typeText(type) {
    return typeof type === "string" ? type : `(ref ${type.nullable ? "null " : ""}${type.heap})`;
}

/**
 * Returns a fault as one line: its message, its number, if it has one, and its offset in hexadecimal.
 *
 * @param {import("./pulleynavy.js").Fault} fault
 * @returns {string}
 */
export function faultText(fault) {
    return `${fault.text}${fault.number === null ? "" : `: ${fault.number}`} (at offset 0x${fault.offset.toString(16)})`;
}

// Reads one event after the other of the bytes that the feeder of an instance holds.
class Reader {
    constructor(instance, { features = ALL_FEATURES, items = true, bytes = false } = {}) {
        this.instance = instance;
        this.features = features;
        this.hasItems = items;
        this.hasBytes = bytes;
        this.offset = 0;
        // The events that are stored and not read, and the address that their bytes are counted from.
        this.next = this.last = 0;
        this.base = 0;
        instance.calls.pulleynavy_feed_init(instance.feedPointer, 0n, features);
    }

    // Takes the whole stream at once: any bytes are a feeder, so this one holds them all and is finished.
    hold(bytes) {
        const { instance } = this;
        instance.reserve(bytes.length);
        instance.bytes.set(bytes, instance.storage);
        instance.view.setUint32(instance.feed + FeedLayout.end, bytes.length, true);
        this.finish();
    }

    // Takes a chunk of at most CHUNK bytes, which the feeder appends to those that are not read yet.
    push(chunk) {
        const { instance } = this, { calls, feedPointer, storagePointer } = instance;
        const piece = [BigInt(instance.chunk), BigInt(chunk.length)];
        instance.bytes.set(chunk, instance.chunk);
        while (!calls.pulleynavy_feed_push(feedPointer, storagePointer, instance.capacitySize, ...piece)) {
            instance.reserve(2 * instance.capacity);
        }
    }

    finish() {
        this.instance.calls.pulleynavy_feed_finish(this.instance.feedPointer);
    }

    // Stores the next events. A feeder begins with its parser, whose bytes are those from `mark` to `end`.
    fill() {
        const { instance } = this, { view, feed } = instance, mark = view.getUint32(feed + FeedLayout.mark, true);
        const size = view.getUint32(feed + FeedLayout.end, true) - mark, isAll = view.getUint8(feed + FeedLayout.isFinished);
        this.base = instance.storage + mark;
        const bytes = [BigInt(this.base), BigInt(size)];
        const stored = instance.nextEvents(instance.feedPointer, ...bytes, isAll, instance.eventsPointer, MOST_EVENTS);
        this.next = instance.events;
        this.last = this.next + Number(stored) * EventLayout.SIZE;
    }

    // The next event, or null where it takes more bytes to know it.
    step() {
        if (this.next === this.last) this.fill();
        const { instance, offset, next: p } = this, { view } = instance, mark = instance.feed + FeedLayout.mark;
        const kind = view.getUint32(p + EventLayout.kind, true), consumed = view.getUint32(p + EventLayout.consumed, true);
        const first = view.getUint32(mark, true), start = offsetAt(view, p + EventLayout.start), end = offsetAt(view, p + EventLayout.end);
        this.next += EventLayout.SIZE;
        this.offset += consumed;
        view.setUint32(mark, first + consumed, true);
        switch (kind) {
            case 0: return null;
            case 6: return this.withBytes({ kind: "body", offset, start, end }, first, consumed);
            case 9: return { kind: "end", offset };
            case 10: return instance.fault(p + EventLayout.fault);
            default: return this.withBytes(this.event(kind, p, offset, start, end), first, consumed);
        }
    }

    // An event with a copy of its bytes, if they are asked for.
    withBytes(event, first, size) {
        const { bytes, storage } = this.instance;
        if (this.hasBytes) event.bytes = bytes.slice(storage + first, storage + first + size);
        return event;
    }

    event(kind, p, offset, start, end) {
        const { view } = this.instance, id = view.getUint32(p + EventLayout.id, true), count = view.getUint32(p + EventLayout.count, true);
        switch (kind) {
            case 1: return { kind: "version", offset, start, end, version: count, encoding: id ? "component" : "module" };
            case 2: return this.section(id, count, p, offset, start, end);
            case 3: return { kind: "start", offset, start, end, id: 8, index: count };
            case 4: return { kind: "data count", offset, start, end, id: 12, count };
            case 5: return { kind: "code", offset, start, end, id: 10, count, size: view.getUint32(p + EventLayout.size, true) };
            case 7: return this.custom(p, offset, start, end);
            default: return { kind: "unknown", offset, start, end, id };
        }
    }

    // The content of the section that was read, from an offset on.
    content(p, start, end) {
        const { instance, features } = this, at = instance.view.getUint32(p + EventLayout.at, true);
        return new Window(instance, this.base + at, end - start, start, features);
    }

    section(id, count, p, offset, start, end) {
        const dataStart = offsetAt(this.instance.view, p + EventLayout.dataOffset);
        let items = [];
        if (this.hasItems) {
            const window = this.content(p, start, end);
            window.position = dataStart - start;
            items = itemsOf(window, id, count);
        }
        return { kind: "section", offset, start, end, id, name: SECTIONS[id], count, items };
    }

    custom(p, offset, start, end) {
        const { instance } = this, { view } = instance, dataStart = offsetAt(view, p + EventLayout.dataOffset);
        const nameSize = view.getUint32(p + EventLayout.nameSize, true), nameAt = dataStart - start - nameSize;
        const content = this.content(p, start, end), name = instance.textOf(content.address + nameAt, nameSize);
        let contents = null;
        if (this.hasItems) {
            const kind = instance.calls.pulleynavy_classify_custom(BigInt(content.address + nameAt), BigInt(nameSize));
            const skipped = dataStart - start;
            const data = new Window(instance, content.address + skipped, content.size - skipped, dataStart, this.features);
            contents = contentsOf(data, kind, name);
        }
        return { kind: "custom", offset, start, end, id: 0, name, dataStart, contents };
    }
}

const isLast = event => event.kind === "end" || event.kind === "fault";

// The instances of a module that are not in use.
class Pool {
    constructor(module) {
        this.module = module;
        this.idle = [];
    }

    take() {
        return this.idle.pop() ?? new Instance(this.module);
    }

    give(instance) {
        const isSmall = instance.memory.buffer.byteLength <= MOST_MEMORY;
        if (isSmall && this.idle.length < MOST_IDLE) this.idle.push(instance);
    }
}

function* parse(pool, bytes, options) {
    let instance = pool.take();
    try {
        const reader = new Reader(instance, options);
        reader.hold(bytes);
        for (let event = reader.step(); ; event = reader.step()) {
            yield event;
            if (isLast(event)) return;
        }
    } catch (error) {
        // An instance that trapped is not used again.
        instance = null;
        throw error;
    } finally {
        if (instance) pool.give(instance);
    }
}

// Parses chunked input. `events` gets the events that are complete.
class Feeder {
    constructor(pool, options) {
        this.pool = pool;
        this.instance = pool.take();
        this.reader = new Reader(this.instance, options);
        this.isDone = false;
    }

    push(bytes) {
        const events = [];
        for (let at = 0; at < bytes.length && !this.isDone; at += CHUNK) {
            this.run(events, reader => reader.push(bytes.subarray(at, at + CHUNK)));
        }
        return events;
    }

    finish() {
        const events = [];
        if (!this.isDone) this.run(events, reader => reader.finish());
        return events;
    }

    // After a trap or a growth that failed the parser cannot go on.
    run(events, change) {
        if (!this.instance) throw new Error("this parser has thrown before");
        const { instance, reader } = this;
        this.instance = null;
        change(reader);
        while (!this.isDone) {
            const event = reader.step();
            if (!event) break;
            events.push(event);
            this.isDone = isLast(event);
        }
        if (this.isDone) this.pool.give(instance);
        else this.instance = instance;
    }
}

// Throws a TypeError if the module is another one, or of another version.
function checked(module) {
    const exported = new Set(WebAssembly.Module.exports(module).map(one => one.name));
    const missing = ["memory", "__heap_base", ...CALLS].find(name => !exported.has(name));
    if (missing) throw new TypeError(`not the module of pulleynavy ${VERSION}: it has no ${missing}`);
    const pool = new Pool(module), instance = pool.take(), version = instance.calls.pulleynavy_version();
    const wanted = VERSION.split(".").reduce((number, part) => number * 256 + Number(part), 0);
    if (version !== wanted) throw new TypeError(`not the module of pulleynavy ${VERSION}: its version is ${version}`);
    pool.give(instance);
    return pool;
}

/**
 * Returns the functions of a compiled `pulleynavy.wasm`: `parse`, `strip`, `edit`, `encodeCustom`, `Parser` and `ParserStream`.
 *
 * @param {WebAssembly.Module} module
 * @returns {import("./pulleynavy.js").Pulleynavy}
 * @throws {TypeError} if it is another module, or of another version
 */
export function fromModule(module) {
    const pool = checked(module);
    class Parser {
        #feeder;

        constructor(options) {
            this.#feeder = new Feeder(pool, options);
        }

        push(chunk) {
            return this.#feeder.push(bytesOf(chunk));
        }

        finish() {
            return this.#feeder.finish();
        }
    }
    class ParserStream extends TransformStream {
        constructor(options) {
            const parser = new Parser(options), send = (events, controller) => {
                for (const event of events) controller.enqueue(event);
                // After a fault there is no event, so the source need not go on.
                if (events.at(-1)?.kind === "fault") controller.terminate();
            };
            super({
                transform: (chunk, controller) => send(parser.push(chunk), controller),
                flush: controller => send(parser.finish(), controller),
            });
        }
    }
    return {
        parse: (bytes, options) => parse(pool, bytesOf(bytes), options),
        strip: (bytes, options) => strip(pool, bytesOf(bytes), options),
        edit: (bytes, edits) => edit(pool, bytesOf(bytes), edits),
        encodeCustom: (name, data) => encodeCustom(pool, name, bytesOf(data)),
        Parser,
        ParserStream,
    };
}

// The module next to this file. Bundlers know this form of a URL.
function besideThis() {
    if (!import.meta.url) throw new TypeError("a script that is no module does not know where pulleynavy.wasm is: pass it, or import pulleynavy/inline");
    return new URL("./pulleynavy.wasm", import.meta.url);
}

async function received(response) {
    if (!response.ok) throw new Error(`${response.url}: status ${response.status}`);
    return response.arrayBuffer();
}

/**
 * Compiles the parser: by default `pulleynavy.wasm` next to this file, or that of a URL or a response, its bytes, or a compiled module.
 *
 * @param {URL | string | Response | ArrayBuffer | ArrayBufferView | WebAssembly.Module} source
 * @returns {Promise<import("./pulleynavy.js").Pulleynavy>}
 * @throws {TypeError} if it is another module, or of another version; and without `source` in a script for browsers that is no module
 * @throws {Error} if the response for a URL is not successful
 */
export async function load(source = besideThis()) {
    if (source instanceof WebAssembly.Module) return fromModule(source);
    if (source instanceof URL || typeof source === "string") source = await fetch(source);
    return fromModule(await WebAssembly.compile(source instanceof Response ? await received(source) : source));
}
