// SPDX-License-Identifier: Apache-2.0 OR MIT
// An instance of the parser, with the places in its memory that JavaScript uses.
import { FaultKind, FaultLayout } from "./declared.js";

const PAGE = 65536;
// The most bytes that a chunk brings at once.
export const CHUNK = 65536;
// How many bytes of events or items one call stores, and how deep lists of items nest.
const BATCH = 32768, DEPTHS = 3;
const ANSWER = 512, FEED = 128, CURSOR = 32, TEXT = 80;
// Beyond this an address has more than 32 bits.
const MOST = 2 ** 32;
// A name may start with a byte order mark, which is part of it.
const decoder = new TextDecoder("utf-8", { ignoreBOM: true });
const FAULTS = new Map(Object.entries(FaultKind).map(([name, number]) => [number, name]));

/** The u64 at an address, as a number: an offset, since no stream of JavaScript's has 2^53 bytes, or a number of 32 bits. */
export function offsetAt(view, p) {
    const high = view.getUint32(p + 4, true);
    return high === 0 ? view.getUint32(p, true) : high * MOST + view.getUint32(p, true);
}

/** The bytes of a typed array, a view or a buffer. Throws a TypeError if the source is none of these. */
export function bytesOf(source) {
    if (source instanceof Uint8Array) return source;
    if (ArrayBuffer.isView(source)) return new Uint8Array(source.buffer, source.byteOffset, source.byteLength);
    if (Object.prototype.toString.call(source).endsWith("ArrayBuffer]")) return new Uint8Array(source);
    throw new TypeError("the input is not a typed array or an ArrayBuffer");
}

export class Instance {
    constructor(module) {
        const { memory, __heap_base: base, ...calls } = new WebAssembly.Instance(module).exports;
        this.memory = memory;
        this.calls = calls;
        this.nextEvents = calls.pulleynavy_next_events;
        this.texts = new Map();
        this.free = Math.ceil(Number(base.value) / 16) * 16;
        this.answer = this.take(ANSWER);
        this.feed = this.take(FEED);
        this.text = this.take(TEXT);
        this.cursors = Array.from({ length: DEPTHS }, () => this.take(CURSOR));
        this.batches = Array.from({ length: DEPTHS }, () => this.take(BATCH));
        this.events = this.take(BATCH);
        this.chunk = this.take(CHUNK);
        this.storage = this.free;
        this.capacity = 0;
        this.pointers();
        this.reserve(PAGE);
    }

    take(size) {
        this.free += size;
        return this.free - size;
    }

    // Pointers and sizes are bigints for the calls; these never change.
    pointers() {
        this.answerPointer = BigInt(this.answer);
        this.feedPointer = BigInt(this.feed);
        this.eventsPointer = BigInt(this.events);
        this.storagePointer = BigInt(this.storage);
        this.cursorPointers = this.cursors.map(BigInt);
        this.batchPointers = this.batches.map(BigInt);
    }

    // Makes the storage at least this large. Throws a RangeError, and changes nothing, if memory cannot grow.
    reserve(size) {
        const missing = Math.ceil((this.storage + size - this.memory.buffer.byteLength) / PAGE);
        if (this.storage + size > MOST) throw new RangeError(`no memory for ${size} bytes`);
        if (missing > 0) this.grow(missing);
        if (this.view?.buffer !== this.memory.buffer) {
            this.view = new DataView(this.memory.buffer);
            this.bytes = new Uint8Array(this.memory.buffer);
        }
        this.capacity = Math.max(this.capacity, size);
        this.capacitySize = BigInt(this.capacity);
    }

    // The count of pages is a bigint where addresses have 64 bits.
    grow(pages) {
        try {
            this.memory.grow(pages);
        } catch (error) {
            if (!(error instanceof TypeError)) throw error;
            this.memory.grow(BigInt(pages));
        }
    }

    // The text of these bytes, which are UTF-8.
    textOf(start, size) {
        if (size > 24) return decoder.decode(this.bytes.subarray(start, start + size));
        let text = "";
        for (let p = start; p < start + size; p++) {
            const byte = this.bytes[p];
            if (byte > 127) return decoder.decode(this.bytes.subarray(start, start + size));
            text += String.fromCharCode(byte);
        }
        return text;
    }

    // The message of a fault with this number.
    message(code) {
        let text = this.texts.get(code);
        if (text === undefined) {
            const size = Number(this.calls.pulleynavy_format_message(code, BigInt(this.text), BigInt(TEXT)));
            this.texts.set(code, (text = this.textOf(this.text, size)));
        }
        return text;
    }

    // The fault at an address, whose kind is not 0.
    fault(p) {
        const { view } = this, number = view.getUint32(p + FaultLayout.hasNumber, true) ? offsetAt(view, p + FaultLayout.number) : null;
        return this.faultOf(view.getUint32(p + FaultLayout.kind, true), offsetAt(view, p + FaultLayout.offset), number);
    }

    faultOf(code, offset, number = null) {
        return { kind: "fault", offset, fault: FAULTS.get(code & 255), code, number, text: this.message(code) };
    }
}

export const batchOf = size => Math.floor(BATCH / size);
