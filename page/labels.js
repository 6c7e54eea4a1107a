// SPDX-License-Identifier: Apache-2.0 OR MIT
// What the page says about a part: its row in the tree, and its details.
import { typeText } from "./pulleynavy.js";
import { childrenOf, endOf, firstOf, spaceOf } from "./model.js";
import { faultOf, hex, numbers, plural, shown } from "./text.js";

const LONGEST = 2000, MOST = 200;
// What the items of a section are called where it is not the name of the section.
const ITEMS = { element: ["segment"], data: ["segment"], memory: ["memory", "memories"] };
const OWNERS = { local: "func", label: "func", field: "type", parameter: "type", "tag parameter": "tag" };
const WORDS = { external: "kind", init: "initial value", memory64: "64-bit", table64: "64-bit", pageSizeLog2: "page size (log2)" };
// Fields that the row, its children or other lines of the details show.
const SKIPPED = new Set([
    "kind", "start", "end", "bodies", "contents", "fault", "code", "encoding", "explicit", "owned", "id", "of", "dataStart",
]);
// What the prefix of a target feature says of it.
const PREFIXES = { "+": "used", "-": "not allowed beside this file", "=": "required" };
const NUMBERED = new Set(["start", "export", "symbol", "comdat symbol"]), OFFSET = new Set(["relocation", "hint", "symbol"]);
// Fields that are an index of this space.
const INDICES = { type: "type", supertype: "type", memory: "memory", table: "table", function: "func" };

const bytesIn = ({ start, end }) => plural(end - start, "byte");
const range = it => `${hex(it.start)} to ${hex(it.end)}, ${bytesIn(it)}`;
const limits = t => `${t.initial}${t.maximum === null ? " or more" : ` to ${t.maximum}`}`;
const inside = part => plural(childrenOf(part).length, "item");

function signature(t) {
    if (t.params) return `(${t.params.map(typeText).join(", ")}) → (${t.results.map(typeText).join(", ")})`;
    return `${t.kind} (${t.fields.map(field => `${field.mutable ? "mut " : ""}${typeText(field.type)}`).join(", ")})`;
}

function typed(t, model) {
    if (typeof t === "number") return model.types[t] ? signature(model.types[t]) : `type ${t}`;
    if (t.element) return `${typeText(t.element)}, ${limits(t)}`;
    if (t.memory64 !== undefined) return `${limits(t)} pages${t.memory64 ? ", 64-bit" : ""}${t.shared ? ", shared" : ""}`;
    return `${t.mutable ? "mut " : ""}${typeText(t.content)}`;
}

// An index with its name, as `func 3 add`.
const reference = (model, space, index) => `${space} ${index} ${shown(model.nameOf(space, index))}`.trim();
const nameOfSymbol = (model, symbol) =>
    shown(symbol?.name ?? (symbol?.symbol && symbol.index !== null ? model.nameOf(spaceOf(symbol.symbol), symbol.index) : ""));

// The rows: what it is, its name, and what else there is to say. The first two of an item with an index are its index and its name.

const typeTail = (part, model) => ["", "", typed(part.type, model)];
const ROWS = {
    version: part => [`${part.encoding}, version ${part.version}`],
    section: part => [part.name, "", plural(part.count, ...(ITEMS[part.name] ?? [part.name]))],
    code: part => ["code", "", plural(part.count, "body", "bodies")],
    start: (part, model) => ["start", "", reference(model, "func", part.index)],
    "data count": part => ["data count", "", plural(part.count, "segment")],
    custom: part => ["custom", shown(part.name), bytesIn({ start: part.dataStart, end: part.end })],
    unknown: part => [`${part.contents ? "subsection" : "section"} ${part.id}`, "", bytesIn(part)],
    fault: part => [`fault: ${shown(faultOf(part))}`],
    body: part => ["", "", `body, ${bytesIn(part)}`],
    type: part => [plural(part.types.length, "type"), "", part.types.length === 1 ? signature(part.types[0]) : "group"],
    import: (part, model) => ["", "", `import ${shown(`${part.module}.${part.name}`)}, ${typed(part.type, model)}`],
    function: typeTail, table: typeTail, memory: typeTail, global: typeTail, tag: typeTail,
    export: (part, model) => ["export", shown(part.name), reference(model, spaceOf(part.external), part.index)],
    element: part => ["", "", `${part.mode}, ${plural((part.functions ?? part.expressions).length, "element")}`],
    data: part => ["", "", `${part.mode}, ${bytesIn(part.bytes)}`],
    name: (part, model, within) => [`${spaceOf(within.of ?? within.owned)} ${part.index}`, shown(part.name), "name"],
    names: (part, model) => [part.of ? `${part.of} names` : reference(model, OWNERS[part.owned], part.index), "", inside(part)],
    "indirect names": part => [`${part.of} names`, "", inside(part)],
    module: part => ["module name", shown(part.name)],
    value: part => [shown(part.name), "", shown(part.version)],
    field: part => [shown(part.name), "", inside(part)],
    feature: part => [shown(part.name), "", PREFIXES[part.prefix] ?? `prefix ${part.prefix.charCodeAt(0)}`],
    hint: part => [`at ${hex(part.offset)} of the body`, "", part.taken ? "likely taken" : "likely not taken"],
    symbol: (part, model) => [`${part.symbol} symbol`, nameOfSymbol(model, part), part.index === null ? "undefined" : ""],
    "comdat symbol": (part, model) => [reference(model, spaceOf(part.symbol), part.index)],
    "init function": (part, model) => ["init function", nameOfSymbol(model, model.symbols[part.symbol]), `priority ${part.priority}`],
    relocation: ({ type, index, offset }, model) => {
        const target = type.startsWith("TYPE_INDEX") ? reference(model, "type", index) : `symbol ${index}`;
        return [type, `${target} ${nameOfSymbol(model, model.symbols[target[0] === "s" ? index : -1])}`.trim(), `at ${hex(offset)}`];
    },
};

/** The head, the name and the tail of a row. */
export function rowOf({ part, within }, model) {
    const identity = model.identityOf(part), own = part.hints || part.memorySize !== undefined ? null : ROWS[part.kind];
    const row = own?.(part, model, within) ?? [part.kind ?? shown(part.name), part.kind ? shown(part.name ?? "") : ""];
    if (!identity) return row;
    const isType = part.params || part.fields;
    return [`${identity[0]} ${identity[1]}`, shown(model.nameOf(...identity)), isType ? signature(part) : own ? row[2] : inside(part)];
}

function valueText(model, key, value, part) {
    if (value === null) return "none";
    if (typeof value === "boolean") return value ? "yes" : "no";
    if (typeof value === "string") return shown(value, LONGEST);
    if (typeof value === "number" && key in INDICES) {
        const isType = INDICES[key] === "type" && model.types[value];
        return reference(model, INDICES[key], value) + (isType ? `: ${signature(model.types[value])}` : "");
    }
    if (key === "index" && typeof value === "number") return reference(model, spaceOf(part.external ?? part.symbol ?? "func"), value);
    if (typeof value !== "object") return numbers.format(value);
    if (Array.isArray(value)) return listText(model, part.kind === "element" && key === "functions" ? "index" : "", value, part);
    if (value.heap !== undefined) return typeText(value);
    if (value.params || value.fields) return signature(value);
    if (value.start !== undefined) return range(value);
    if (value.initial !== undefined || value.content !== undefined) return typed(value, model);
    return Object.entries(value).map(([name, it]) => `${wordOf(name)} ${valueText(model, name, it, part)}`).join(", ");
}

function listText(model, key, list, part) {
    const said = list.slice(0, MOST).map(it => valueText(model, key, it, part)).join("; "), more = list.length - MOST;
    return more > 0 ? `${said}; and ${numbers.format(more)} more` : said || "none";
}

const wordOf = key => WORDS[key] ?? key.replace(/[A-Z]/g, char => ` ${char.toLowerCase()}`);

/** Pairs of a term and what it is. */
export function detailsOf(part, model) {
    const first = firstOf(part), identity = model.identityOf(part), { contents } = part, children = childrenOf(part);
    const isFault = part.kind === "fault", rows = [["offset", isFault ? hex(first) : range({ start: first, end: endOf(part) })]];
    if (!isFault && part.start !== first) rows.push(["content", range(part)]);
    if (identity) rows.push(["index", reference(model, ...identity)]);
    for (const [key, value] of Object.entries({ ...(contents?.kind === "fault" || contents?.start >= 0 ? {} : contents), ...part })) {
        const isOther = key === "index" ? !NUMBERED.has(part.kind) : key === "offset" ? !OFFSET.has(part.kind) : SKIPPED.has(key);
        if (!isOther && value !== children) rows.push([wordOf(key), valueText(model, key, value, part)]);
    }
    return rows;
}
