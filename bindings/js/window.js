// SPDX-License-Identifier: Apache-2.0 OR MIT
// The bytes of a section or a part of one, and the items in them.
import { ItemsLayout, NumberLayout, SpanLayout } from "./declared.js";
import { batchOf } from "./instance.js";

// Every item begins with its fault, and then has how many bytes it takes.
const CONSUMED = NumberLayout.consumed;

export class Window {
    // The bytes at `address` are at `offset` of the stream.
    constructor(instance, address, size, offset, features) {
        this.instance = instance;
        this.address = address;
        this.size = size;
        this.offset = offset;
        this.features = features;
        this.pointer = BigInt(address);
        this.length = BigInt(size);
        this.position = 0;
        this.fault = null;
    }

    /** Where it is in the stream. */
    get at() {
        return this.offset + this.position;
    }

    // Reads the item at the position and moves past it. Returns the address of its struct, or 0 after a fault, which `fault` then is.
    read(call, ...more) {
        const { instance, position } = this, p = instance.answer;
        const from = BigInt(this.address + position), left = BigInt(this.size - position);
        instance.calls[call](instance.answerPointer, from, left, BigInt(this.offset + position), this.features, ...more);
        if (instance.view.getUint32(p, true) !== 0) {
            this.fault = instance.fault(p);
            return 0;
        }
        this.position += instance.view.getUint32(p + CONSUMED, true);
        return p;
    }

    // Reads a u32. Returns -1 after a fault.
    number() {
        const p = this.read("pulleynavy_read_number");
        return p ? this.instance.view.getUint32(p + NumberLayout.value, true) : -1;
    }

    // Puts a cursor at the position, before `count` items.
    begin(depth, count) {
        const { instance, at } = this, { view } = instance, p = instance.cursors[depth];
        view.setUint32(p + ItemsLayout.offset, at % 2 ** 32, true);
        view.setUint32(p + ItemsLayout.offset + 4, Math.floor(at / 2 ** 32), true);
        view.setUint32(p + ItemsLayout.position, this.position, true);
        view.setUint32(p + ItemsLayout.position + 4, 0, true);
        view.setUint32(p + ItemsLayout.remaining, count, true);
        view.setUint32(p + ItemsLayout.features, this.features, true);
        view.setUint32(p + ItemsLayout.last, 0, true);
        view.setUint32(p + ItemsLayout.hasLast, 0, true);
    }

    // Stores the next items, at most `most`, and returns how many.
    store(depth, call, most) {
        const { instance } = this, cursor = instance.cursorPointers[depth], batch = instance.batchPointers[depth];
        return Number(instance.calls[call](cursor, this.pointer, this.length, batch, BigInt(most)));
    }

    // All items of a list of `count` items up to its end, as `make` returns them, with faults among them. Where items may be out of
    // order, `tail` is the field with the span at the end of an item, which says where the item is.
    all(depth, { call, layout, make, tail = 0 }, count) {
        const items = [], { instance, offset } = this, { view } = instance;
        const size = layout.SIZE, first = instance.batches[depth], most = batchOf(size);
        let at = this.at;
        this.begin(depth, count);
        for (let stored = most; stored === most;) {
            stored = this.store(depth, call, most);
            for (let p = first, end = p + stored * size; p < end; p += size) {
                if (view.getUint32(p, true) !== 0) {
                    items.push(instance.fault(p));
                    continue;
                }
                const consumed = view.getUint32(p + CONSUMED, true);
                if (tail !== 0) at = offset + this.endOf(p + tail) - consumed;
                items.push(make(this, view, p, at, at + consumed));
                at += consumed;
            }
        }
        return items;
    }

    // The next `count` items, as `make` returns them. Returns null after a fault, which `fault` then is.
    some(depth, { call, layout, make }, count) {
        const items = [], { instance } = this, { view } = instance;
        const size = layout.SIZE, first = instance.batches[depth], most = batchOf(size);
        let at = this.at;
        if (count > 0) this.begin(depth, count);
        for (let left = count; left > 0;) {
            const stored = this.store(depth, call, Math.min(left, most));
            for (let p = first, end = p + stored * size; p < end; p += size) {
                if (view.getUint32(p, true) !== 0) {
                    this.fault = instance.fault(p);
                    return null;
                }
                const consumed = view.getUint32(p + CONSUMED, true);
                items.push(make(this, view, p, at, at + consumed));
                at += consumed;
            }
            left -= stored;
        }
        this.position = at - this.offset;
        return items;
    }

    // A count and as many items, as `some`.
    counted(depth, list) {
        const count = this.number();
        return count < 0 ? null : this.some(depth, list, count);
    }

    // Where a span ends, in bytes from the start.
    endOf(p) {
        const { view } = this.instance;
        return view.getUint32(p + SpanLayout.at, true) + view.getUint32(p + SpanLayout.size, true);
    }

    // A span of an item of a list as offsets of the stream.
    range(p) {
        const { view } = this.instance, start = this.offset + view.getUint32(p + SpanLayout.at, true);
        return { start, end: start + view.getUint32(p + SpanLayout.size, true) };
    }

    // The text of a span. Of what `read` returned, `from` is where it was.
    text(p, from = 0) {
        const { instance } = this, { view } = instance;
        return instance.textOf(this.address + from + view.getUint32(p + SpanLayout.at, true), view.getUint32(p + SpanLayout.size, true));
    }

    // The bytes of a span, as a window.
    part(p) {
        const { instance, address, offset, features } = this, at = instance.view.getUint32(p + SpanLayout.at, true);
        return new Window(instance, address + at, instance.view.getUint32(p + SpanLayout.size, true), offset + at, features);
    }

    // The fault of a check of the remaining bytes, or null.
    checked(call) {
        const { instance, position } = this;
        instance.calls[call](instance.answerPointer, BigInt(this.address + position), BigInt(this.size - position), BigInt(this.at));
        return instance.view.getUint32(instance.answer, true) ? instance.fault(instance.answer) : null;
    }
}
