// SPDX-License-Identifier: Apache-2.0 OR MIT
// Events and their items as the lines of tools/golden.jsonl, which the models in tools/model write too.
import { RelocationKind } from "../declared.js";

const encoder = new TextEncoder();
const bytesOf = it => (typeof it === "string" ? encoder.encode(it) : it);
const hex = it => "x" + Array.from(bytesOf(it), byte => byte.toString(16).padStart(2, "0")).join("");
const range = r => `${r.start}..${r.end}`;
const limit = n => (n === null ? "- " : `${n} `);
const fault = f => `fault ${f.offset} ${f.text}${f.number === null ? "" : `: ${f.number}`}`;
const each = (items, text) => items.map(it => `${it.kind === "fault" ? fault(it) : text(it)} `).join("");

// ---- items

const type = t => (typeof t === "string" ? t : `${t.nullable ? "null" : "ref"}:${t.heap}`);
const table = t => `table(${type(t.element)} ${t.table64} ${t.initial} ${limit(t.maximum)}${t.shared} )`;
const memory = t => `memory(${t.memory64} ${t.shared} ${t.initial} ${limit(t.maximum)}${limit(t.pageSizeLog2)})`;
const global = t => `global(${type(t.content)} ${t.mutable} ${t.shared} )`;
const tag = index => `tag(exception ${index} )`;
const field = f => `field(${type(f.type)} ${f.mutable} ) `;
const types = list => `[${list.map(t => type(t) + " ").join("")}] `;

function subtype(s) {
    const fields = () => s.fields.map(field).join("");
    const body = {
        func: () => `func(${types(s.params)}${types(s.results)}) `,
        array: () => `array ${fields()}`,
        struct: () => `struct [${fields()}] `,
    };
    return `sub(${s.final} ${limit(s.supertype)}${body[s.kind]()}) `;
}

function imported(it) {
    const types = { func: i => `func ${i}`, funcexact: i => `funcexact ${i}`, table, memory, global, tag };
    return `import(${hex(it.module)} ${hex(it.name)} ${types[it.external](it.type)} )`;
}

/** Where the number in LEB128 at an offset ends. */
function afterNumber(bytes, at) {
    while (bytes[at] > 127) at++;
    return at + 1;
}

function element(it, bytes) {
    let at = it.items.start;
    const index = value => {
        const text = `${at}:${value} `;
        at = afterNumber(bytes, at);
        return text;
    };
    const all = it.functions ? it.functions.map(index) : it.expressions.map(e => `${e.start}:${range(e)} `);
    const offset = it.mode === "active" ? `${limit(it.table)}${range(it.offsetExpression)} ` : "";
    return `element(${it.mode} ${offset}${it.type ? type(it.type) + " " : ""}#${all.length}[${all.join("")}] ${range(it)} )`;
}

function data(it, bytes) {
    const mode = it.mode === "active" ? `active ${it.memory} ${range(it.offsetExpression)}` : "passive";
    return `data(${mode} ${hex(bytes.subarray(it.bytes.start, it.bytes.end))} ${range(it)} )`;
}

const ITEMS = {
    type: it => `rec(${it.explicit} [${it.types.map(subtype).join("")}] )`,
    import: imported,
    function: it => `${it.type}`,
    table: it => `table(${table(it.type)} ${it.init ? range(it.init) : "null"} )`,
    memory: it => memory(it.type),
    tag: it => tag(it.type),
    global: it => `global(${global(it.type)} ${range(it.init)} )`,
    export: it => `export(${hex(it.name)} ${it.external} ${it.index} )`,
    element,
    data,
};

// ---- custom sections

const afterText = (bytes, at, text) => afterNumber(bytes, at) + bytesOf(text).length;
const listed = (start, end, items, text, count) => `${start}..${end} #${count}[${each(items, it => `${it.start}:${text(it)}`)}]`;
const texts = list => `[${list.map(text => hex(text) + " ").join("")}]`;
const naming = n => `name(${n.index} ${hex(n.name)} )`;
const indirect = n => `names(${n.index} {${each(n.names, naming)}} )`;

function unknown(part, bytes) {
    return `unknown ${part.id} ${hex(bytes.subarray(part.contents.start, part.contents.end))} ${range(part.contents)}`;
}

function namePart(part, bytes) {
    switch (part.kind) {
        case "module": return `module ${hex(part.name)} ${range(part.contents)}`;
        case "names": return `${part.id}{${each(part.names, naming)}}`;
        case "indirect names": return `${part.id}{${each(part.names, indirect)}}`;
        default: return unknown(part, bytes);
    }
}

// A nested list begins behind what is before its count. Its count is that of its own bytes.
function nested(bytes, start, end, items, text) {
    return listed(start, end, items, text, countAt(bytes, start));
}

function countAt(bytes, at) {
    let value = 0;
    for (let shift = 0; ; shift += 7, at++) {
        value += (bytes[at] & 127) * 2 ** shift;
        if (bytes[at] < 128) return value;
    }
}

function producers(contents, bytes, start, end) {
    const value = v => `value(${hex(v.name)} ${hex(v.version)} )`;
    const one = f => `field(${hex(f.name)} ${nested(bytes, afterText(bytes, f.start, f.name), f.end, f.values, value)} )`;
    return listed(start, end, contents.fields, one, contents.count);
}

function hints(contents, bytes, start, end) {
    const hint = h => `hint(${h.offset} ${h.taken} )`;
    const one = f => `function(${f.index} ${nested(bytes, afterNumber(bytes, f.start), f.end, f.hints, hint)} )`;
    return listed(start, end, contents.functions, one, contents.count);
}

function dylinkPart(part, bytes) {
    const all = (items, text) => `${part.id} [${items.map(it => text(it) + " ").join("")}]`;
    switch (part.kind) {
        case "memory": return `1 meminfo(${part.memorySize} ${part.memoryAlignment} ${part.tableSize} ${part.tableAlignment} )`;
        case "needed": return `2 ${texts(part.libraries)}`;
        case "exports": return all(part.exports, e => `export(${hex(e.name)} ${e.flags} )`);
        case "imports": return all(part.imports, i => `import(${hex(i.module)} ${hex(i.name)} ${i.flags} )`);
        case "runtime path": return `5 ${texts(part.paths)}`;
        case "target arch": return `6 ${hex(part.name)}`;
        default: return unknown(part, bytes);
    }
}

function symbol(s) {
    const name = s.name === null ? "-" : hex(s.name);
    if (s.symbol === "section") return `section ${s.flags} ${s.index}`;
    if (s.symbol !== "data") return `${s.symbol} ${s.flags} ${s.index} ${name}`;
    return `data ${s.flags} ${name} ${s.index === null ? "-" : `defined(${s.index} ${s.offset} ${s.size} )`}`;
}

function comdat(c, bytes) {
    const start = afterNumber(bytes, afterText(bytes, c.start, c.name));
    return `comdat(${hex(c.name)} ${c.flags} ${nested(bytes, start, c.end, c.symbols, s => `symbol(${s.symbol} ${s.index} )`)} )`;
}

function linkingPart(part, bytes) {
    const shown = {
        segments: s => `segment(${hex(s.name)} ${s.alignment} ${s.flags} )`,
        "init functions": i => `init(${i.priority} ${i.symbol} )`,
        comdats: c => comdat(c, bytes),
        symbols: symbol,
    };
    if (part.kind === "target arch") return `9 ${hex(part.name)}`;
    if (!(part.kind in shown)) return unknown(part, bytes);
    return `${part.id} ${listed(part.contents.start, part.contents.end, part.items, shown[part.kind], part.count)}`;
}

function relocations(contents, bytes, start, end) {
    const one = r => `reloc(${RelocationKind[r.type]} ${r.offset} ${r.index} ${r.addend} )`;
    const list = listed(afterNumber(bytes, start), end, contents.relocations, one, contents.count);
    return `section ${contents.section} ${start}..${end} ${list}`;
}

const numbers = list => `[${list.map(n => `${n} `).join("")}]`;
const values = list => `[${list.map(v => (v.type === "missing" ? "missing " : `${v.type}:${v.value} `)).join("")}]`;
const frame = f => `frame(${f.instance} ${f.function} ${f.codeOffset} ${values(f.locals)} ${values(f.stack)} ) `;
const parts = (contents, bytes, part) => `<${each(contents.subsections, it => part(it, bytes))}>`;
const CONTENTS = {
    name: (c, bytes) => parts(c, bytes, namePart),
    producers,
    "branch hints": hints,
    "dylink.0": (c, bytes) => parts(c, bytes, dylinkPart),
    linking: (c, bytes, start, end) =>
        `version ${c.version} at ${afterNumber(bytes, start)} ${start}..${end} ${parts(c, bytes, linkingPart)}`,
    relocations,
    core: c => hex(c.name),
    "core modules": c => texts(c.modules),
    "core instances": c => `[${c.instances.map(i => `instance(${i.module} ${numbers(i.memories)} ${numbers(i.globals)} ) `).join("")}]`,
    "core stack": c => `${hex(c.thread)} [${c.frames.map(frame).join("")}]`,
};

// ---- events

const EVENTS = {
    version: e => `version ${e.start} ${e.end} ${e.version} ${e.encoding}`,
    section: e => `section ${e.id} ${e.start} ${e.end} ${e.count}`,
    start: e => `start ${e.start} ${e.end} ${e.index}`,
    "data count": e => `datacount ${e.start} ${e.end} ${e.count}`,
    code: e => `code ${e.start} ${e.end} ${e.count} ${e.size}`,
    body: e => `body ${e.start} ${e.end}`,
    custom: e => `custom ${e.start} ${e.end} ${e.dataStart}`,
    unknown: e => `unknown ${e.id} ${e.start} ${e.end}`,
    end: e => `end ${e.offset}`,
    fault,
};

/** The line of an event. */
export const eventLine = event => EVENTS[event.kind](event);

/** The lines of the items of an event, which is one of the stream `bytes`. */
export function itemLines(event, bytes) {
    if (event.kind === "custom") {
        const text = CONTENTS[event.contents?.kind];
        return [`  ${hex(event.name)} ${text ? text(event.contents, bytes, event.dataStart, event.end) : "unknown"}`];
    }
    if (event.kind !== "section") return [];
    return event.items.map(it => `  ${it.kind === "fault" ? fault(it) : `${it.start} ${ITEMS[it.kind](it, bytes)}`}`);
}

/** The lines of a model without the offsets of lists of elements, which the package leaves out. */
export const withoutRanges = lines => lines.map(line => rounded(line.replace(/^(  \d+ element\(.*) \d+\.\.\d+ (#\d+\[)/, "$1 $2")));

// A line of a model with the limits of 32-bit memories and tables as numbers, which are rounded beyond 2^53.
function rounded(line) {
    const number = text => (text === "-" ? text : `${Number(text)}`);
    return line.replace(/(memory\(false \w+|table\(\S+ false) (\d+) (\d+|-)/g, (all, head, low, high) => `${head} ${number(low)} ${number(high)}`);
}
