// SPDX-License-Identifier: Apache-2.0 OR MIT
// The worker: parses a file and keeps its tree, so that the page only asks for what it shows.
import { fromModule } from "./pulleynavy.js";
import { detailsOf, rowOf } from "./labels.js";
import { Model, childrenOf, endOf, firstOf, placeIn } from "./model.js";
import { faultOf } from "./text.js";

const STEP = 2 ** 20, MOST_IN_BAR = 100;
let parser = null, file = null, model = new Model();

// Parses a file step by step, so that other requests come between. Returns why it stopped early, or "".
async function parse() {
    const reader = new parser.Parser();
    try {
        for (let at = 0; at < file.size; at += STEP) {
            const chunk = new Uint8Array(await file.slice(at, at + STEP).arrayBuffer());
            for (const event of reader.push(chunk)) model.add(event);
            if (model.isStopped) return "";
            postMessage({ read: Math.min(at + STEP, file.size) });
        }
        for (const event of reader.finish()) model.add(event);
        return "";
    } catch (error) {
        return error instanceof RangeError ? "Out of memory: a section is too large for this page." : `Not read: ${error.message}`;
    }
}

// The segments of the bar. Where there are many sections, small ones that follow each other share a segment.
function bar(rest) {
    const segments = [], least = model.parts.length > MOST_IN_BAR ? file.size / MOST_IN_BAR : 0;
    model.parts.forEach((part, place) => {
        const size = Math.min(endOf(part), file.size) - firstOf(part), isBad = model.marked.has(part), last = segments.at(-1);
        const isSmall = size < least, [head, name] = rowOf({ part }, model);
        if (part.kind === "fault") return;
        if (isSmall && last?.isSmall && last.size < least) {
            Object.assign(last, { title: "small sections", size: last.size + size, isBad: last.isBad || isBad });
        } else segments.push({ title: name || head, place, size, isBad, isSmall, id: part.id ?? 0 });
    });
    return rest ? [...segments, { title: "not read", place: model.parts.length - 1, size: rest, isRest: true }] : segments;
}

function row(index) {
    const { part, level, size, place, isOpen } = model.rows[index], [head, name = "", tail = ""] = rowOf(model.rows[index], model);
    return {
        index, head, name, tail, level, size, place, offset: firstOf(part), isOpen: childrenOf(part).length ? isOpen : null,
        isBad: part.kind === "fault", isMarked: model.marked.has(part),
    };
}

const CALLS = {
    async open(module, given) {
        const began = performance.now();
        parser = fromModule(module);
        file = given;
        const problem = await parse(), last = model.parts.at(-1);
        const isWhole = last?.kind !== "fault" && !problem, read = model.parts.findLast(part => part.kind !== "fault")?.end ?? 0;
        return {
            problem, isWhole, count: model.show(""), bar: bar(Math.max(0, file.size - read)),
            sections: model.parts.filter(part => part.id !== undefined).length,
            faults: model.faults.map(({ fault, path }) => ({ offset: fault.offset, text: faultOf(fault), path })),
            took: performance.now() - began,
        };
    },
    /** The rows from the first one on, and one more row, in order. */
    rows: (first, count, also) => [...new Set([also, ...Array.from({ length: count }, (_, i) => first + i)])]
        .filter(index => model.rows[index]).sort((a, b) => a - b).map(row),
    details(index) {
        const { part } = model.rows[index], first = firstOf(part), start = part.start ?? first, place = placeIn(model.parts, first);
        const custom = part.kind === "custom" ? { name: part.name, dataStart: part.dataStart } : null;
        return { first, start, end: endOf(part), isBad: part.kind === "fault", place, rows: detailsOf(part, model), custom };
    },
    async strip(keepNames) {
        const { fault, bytes } = parser.strip(await file.arrayBuffer(), { keepNames });
        return fault ? { why: faultOf(fault) } : { bytes };
    },
    /** The bytes of a custom section with the data of a file. */
    encode: async (name, data) => parser.encodeCustom(name, await data.arrayBuffer()),
};

onmessage = async ({ data: { id, call, args } }) => {
    try {
        postMessage({ id, value: call in CALLS ? await CALLS[call](...args) : model[call](...args) });
    } catch (error) {
        postMessage({ id, error: error.message });
    }
};
