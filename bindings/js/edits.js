// SPDX-License-Identifier: Apache-2.0 OR MIT
// New custom sections, and streams whose custom sections are edited or removed.
import { EditKind, EditStatus, EditedLayout, StrippedLayout } from "./declared.js";
import { bytesOf, offsetAt } from "./instance.js";

// The kind of an edit by the key that names its section, and whether it has data.
const KINDS = new Map([
    ["append", [EditKind.APPEND, true]], ["replace", [EditKind.REPLACE, true]], ["remove", [EditKind.REMOVE, false]], ["keep", [EditKind.KEEP, false]],
]);
const NONE = new Uint8Array(0);
const encoder = new TextEncoder();

// A name as bytes. Throws a TypeError if it is not a string, or not one of Unicode: an encoder replaces a lone surrogate by U+FFFD.
function nameOf(name) {
    if (typeof name !== "string") throw new TypeError("the name of a section is not a string");
    if (/\p{Surrogate}/u.test(name)) throw new TypeError("the name of a section has a lone surrogate");
    return encoder.encode(name);
}

function tooLarge(name) {
    return new RangeError(`the custom section "${name.slice(0, 40)}" is too large`);
}

// The kind of an edit, its name and its data. Throws a TypeError if it is no edit.
function partsOf(edit) {
    for (const [key, [kind, hasData]] of KINDS) {
        if (edit?.[key] !== undefined) return { kind, text: edit[key], name: nameOf(edit[key]), data: hasData ? bytesOf(edit.data) : NONE };
    }
    throw new TypeError("an edit has none of append, replace, remove and keep");
}

// Copies bytes to the storage, one after the other. Returns their pointers and sizes, and the pointer after them.
function stored(instance, parts) {
    instance.reserve(parts.reduce((size, part) => size + part.length, 0));
    let at = instance.storage;
    const pointers = parts.map(part => {
        instance.bytes.set(part, at);
        at += part.length;
        return [BigInt(at - part.length), BigInt(part.length)];
    });
    return [...pointers, at];
}

// The bytes that a call writes to `out`, which gets room for this many.
function written(instance, out, size, write) {
    instance.reserve(out - instance.storage + size);
    write(BigInt(size));
    return instance.bytes.slice(out, out + size);
}

/** Strips a stream, as `strip` of the package does. */
export function strip(pool, bytes, { keepNames = false } = {}) {
    const instance = pool.take();
    instance.reserve(bytes.length);
    instance.bytes.set(bytes, instance.storage);
    instance.calls.pulleynavy_strip(instance.answerPointer, instance.storagePointer, BigInt(bytes.length), keepNames ? 1 : 0);
    const { view, answer } = instance, isFault = view.getUint32(answer + StrippedLayout.fault, true) !== 0;
    const fault = isFault ? instance.fault(answer + StrippedLayout.fault) : null, size = view.getUint32(answer + StrippedLayout.size, true);
    const stripped = isFault ? null : instance.bytes.slice(instance.storage, instance.storage + size);
    pool.give(instance);
    return { fault, bytes: stripped };
}

/** The bytes of a custom section, as `encodeCustom` of the package returns them. */
export function encodeCustom(pool, text, data) {
    const name = nameOf(text), instance = pool.take(), [names, contents, out] = stored(instance, [name, data]);
    const write = room => Number(instance.calls.pulleynavy_encode_custom(...names, ...contents, BigInt(out), room));
    const size = write(0n), section = written(instance, out, size, write);
    pool.give(instance);
    if (size === 0) throw tooLarge(text);
    return section;
}

// A stream after one edit: its bytes, or its fault, or an error.
function edited(instance, bytes, { kind, text, name, data }) {
    const { answer, answerPointer, calls } = instance, [stream, names, contents, out] = stored(instance, [bytes, name, data]);
    const write = room => calls.pulleynavy_edit(answerPointer, ...stream, kind, ...names, ...contents, BigInt(out), room);
    write(0n);
    const status = instance.view.getUint32(answer + EditedLayout.status, true), size = offsetAt(instance.view, answer + EditedLayout.size);
    if (status === EditStatus.MALFORMED) return { fault: instance.fault(answer + EditedLayout.fault), bytes: null };
    if (status !== EditStatus.NO_ROOM) return { fault: null, bytes: null, error: tooLarge(text) };
    return { fault: null, bytes: written(instance, out, size, write) };
}

// A copy of a stream, or its fault.
function unedited(pool, bytes) {
    const { fault } = strip(pool, bytes);
    return { fault, bytes: fault ? null : new Uint8Array(bytes) };
}

/** A stream after edits, as `edit` of the package returns it. */
export function edit(pool, bytes, edits) {
    const all = [...edits].map(partsOf);
    if (!all.length) return unedited(pool, bytes);
    const instance = pool.take();
    let result = { fault: null, bytes };
    for (const one of all) {
        result = edited(instance, result.bytes, one);
        if (!result.bytes) break;
    }
    pool.give(instance);
    if (result.error) throw result.error;
    return result;
}
