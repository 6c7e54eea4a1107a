// SPDX-License-Identifier: Apache-2.0 OR MIT
// The parsed file as a tree: parts, their items, the index of each item in its index space, and names by index.

const NONE = [];
// The fields that hold the children of a part.
const LISTS = [
    "items", "bodies", "subsections", "fields", "features", "functions", "relocations", "names", "values", "hints", "symbols", "exports", "imports",
];
// The kinds whose `offset` is their first byte. Elsewhere `offset` is a field of the item.
const EVENTS = new Set(["version", "section", "start", "data count", "code", "body", "custom", "unknown", "fault"]);
const DEFINED = new Set(["function", "table", "memory", "global", "tag", "element", "data"]);
const SPACES = { function: "func", funcexact: "func", body: "func" };

/** The index space of a kind of item. */
export const spaceOf = word => SPACES[word] ?? word;
export const firstOf = part => (EVENTS.has(part.kind) ? part.offset ?? part.start : part.start);
export const endOf = part => part.end ?? part.offset + 1;

/** The parts inside a part. */
export function childrenOf(part) {
    if (part.kind === "custom" && part.contents) return part.contents.kind === "fault" ? [part.contents] : childrenOf(part.contents);
    if (part.kind === "type") return part.explicit ? part.types : NONE;
    // The fields of a struct, and the functions of a segment, are part of it.
    if (part.kind !== "element" && part.final === undefined) for (const key of LISTS) if (Array.isArray(part[key])) return part[key];
    return NONE;
}

/** The place of the last part that begins at an offset or before it, or -1. */
export const placeIn = (parts, offset) => parts.findLastIndex(part => firstOf(part) <= offset);

const nodesOf = (parts, within, level) =>
    parts.map((part, place) => ({ part, within, place, level, size: parts.length, isOpen: false, nodes: null }));

export class Model {
    constructor() {
        // `counts` is how many indices of each space are taken, `otherNames` has the names of imports and exports.
        Object.assign(this, { counts: {}, imported: 0, types: [], symbols: NONE, names: {}, otherNames: {}, code: null });
        // The faults with the places that lead to them, and the parts that have a fault inside.
        Object.assign(this, { parts: [], faults: [], marked: new Set() });
    }

    /** Adds an event of the stream. */
    add(event) {
        if (event.kind === "body") this.code.bodies.push(Object.assign(event, { index: this.next("func") }));
        if (event.kind === "body" || event.kind === "end") return;
        if (event.kind === "code") {
            this.counts.func = this.imported;
            this.code = Object.assign(event, { bodies: [] });
        }
        this.isStopped = event.kind === "fault";
        this.parts.push(event);
        this.scan(event, [this.parts.length - 1], []);
        if (event.kind === "section" && event.name === "import") this.imported = this.counts.func ?? 0;
    }

    next(space) {
        return (this.counts[space] = (this.counts[space] ?? 0) + 1) - 1;
    }

    // Numbers the items inside a part, and notes their names and faults.
    scan(part, path, above) {
        if (part.kind === "fault") {
            this.faults.push({ fault: part, path });
            for (const it of above) this.marked.add(it);
            return;
        }
        if (part.kind === "symbols") this.symbols = part.items;
        childrenOf(part).forEach((child, place) => {
            if (part.kind === "section") this.number(child);
            else if (part.kind === "names" && part.of) this.name(this.names, spaceOf(part.of), child.index, child.name);
            else if (part.kind === "indirect names") child.owned = part.of;
            else if (part.kind === "segments") this.name(this.otherNames, "data", place, child.name);
            if (part.kind !== "section" || child.kind === "fault") this.scan(child, [...path, place], [...above, part]);
        });
    }

    number(item) {
        for (const type of item.types ?? NONE) {
            type.index = this.next("type");
            this.types.push(type);
        }
        if (item.kind === "import") item.index = this.next(spaceOf(item.external));
        else if (DEFINED.has(item.kind)) item.index = this.next(spaceOf(item.kind));
        const name = item.kind === "import" ? `${item.module}.${item.name}` : item.name;
        if (item.external) this.name(this.otherNames, spaceOf(item.external), item.index, name);
    }

    name(names, space, index, name) {
        const known = (names[space] ??= new Map());
        if (name && !known.has(index)) known.set(index, name);
    }

    /** The name of an item: that of the name section, else that of its import or export, else "". */
    nameOf(space, index) {
        return this.names[space]?.get(index) ?? this.otherNames[space]?.get(index) ?? "";
    }

    /** The index space and the index of an item, or null. */
    identityOf(part) {
        if (part.kind === "type" && part.types.length === 1) return ["type", part.types[0].index];
        if (part.kind === "import") return [spaceOf(part.external), part.index];
        if (part.final !== undefined) return ["type", part.index];
        return part.index !== undefined && (part.kind === "body" || DEFINED.has(part.kind)) ? [spaceOf(part.kind), part.index] : null;
    }

    /** Shows all parts, of which none is open, or those in which a word occurs, without regard to case. Returns how many rows there are. */
    show(word) {
        const found = [];
        const visit = (part, within) => {
            if (this.textOf(part).toLowerCase().includes(word)) found.push({ part, within });
            for (const child of childrenOf(part)) visit(child, part);
        };
        if (word) for (const part of this.parts) visit(part, null);
        this.top = nodesOf(word ? found.map(it => it.part) : this.parts, null, 1);
        found.forEach(({ within }, place) => (this.top[place].within = within));
        return this.flatten();
    }

    // What a search looks at.
    textOf(part) {
        if (part.kind === "fault") return part.text;
        const identity = this.identityOf(part);
        const words = [part.id && !part.name && part.kind, part.module, part.name, part.version, identity && this.nameOf(...identity)];
        return words.filter(Boolean).join(" ");
    }

    flatten() {
        const rows = [];
        const visit = node => {
            rows.push(node);
            if (node.isOpen) node.nodes.forEach(visit);
        };
        this.top.forEach(visit);
        this.rows = rows;
        return rows.length;
    }

    /** Opens or closes a row. Returns how many rows there are. */
    toggle(row, isOpen, node = this.rows[row]) {
        node.nodes ??= nodesOf(childrenOf(node.part), node.part, node.level + 1);
        node.isOpen = isOpen;
        return this.flatten();
    }

    /** The row of the parent, or -1. */
    parentOf(row) {
        const { level } = this.rows[row];
        while (row >= 0 && this.rows[row].level >= level) row--;
        return row;
    }

    /** Opens the parts along a path of places. Returns how many rows there are, and the one it leads to. */
    reveal([first, ...places]) {
        let node = this.top[first];
        for (const place of places) {
            if (!node.isOpen) this.toggle(0, true, node);
            node = node.nodes[place];
        }
        return { count: this.rows.length, row: this.rows.indexOf(node) };
    }

    /** The places of the innermost part that an offset is in. Bytes between items are of the part around them. */
    pathTo(offset) {
        const path = [];
        for (let parts = this.parts; parts.length; parts = childrenOf(parts[path.at(-1)])) {
            const place = placeIn(parts, offset);
            if (place < 0 || path.length && offset >= endOf(parts[place])) break;
            path.push(place);
        }
        return path;
    }
}
