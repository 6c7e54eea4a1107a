// SPDX-License-Identifier: Apache-2.0 OR MIT
// What `tsc --strict` accepts and refuses of a program that uses the package. It is compiled, and not run.
import { EventKind, ExportLayout } from "../declared.js";
import type { Contents, CoreValue, Edit, Event, Fault, Import, Relocation, StorageType, TypeGroup } from "../pulleynavy.js";
import { MEMORY64, faultText, fromModule, load, typeText } from "../pulleynavy.js";

const never = (value: never): string => value;
const wide = (value: bigint): bigint => value / 2n;
const offset = (value: number): number => value;

function shown(event: Event): string {
    switch (event.kind) {
        case "version": return `${event.version} ${event.encoding}`;
        case "section": return section(event);
        case "start": return `${event.index}`;
        case "data count": return `${event.count}`;
        case "code": return `${event.count} ${event.size}`;
        case "body": return `${event.end - event.start} ${event.bytes?.length}`;
        case "custom": return `${event.name} ${event.contents && contents(event.contents)}`;
        case "unknown": return `${event.id}`;
        case "end": return `${event.offset}`;
        case "fault": return faultText(event);
        default: return never(event);
    }
}

const widths = (group: TypeGroup): number[] => group.types.map(one => (one.kind === "func" ? one.params : one.fields).length);

function section(event: Event & { kind: "section" }): string {
    switch (event.name) {
        case "type": return event.items.map(it => (it.kind === "fault" ? it.text : widths(it))).join();
        case "import": return event.items.map(it => (it.kind === "fault" ? it.text : imported(it))).join();
        case "global": return event.items.map(it => (it.kind === "fault" ? it.text : typeText(it.type.content))).join();
        case "element": return event.items.map(it => (it.kind === "element" && it.mode === "active" ? it.offsetExpression : 0)).join();
        case "data": return event.items.map(it => (it.kind === "data" && it.mode === "active" ? it.memory + it.bytes.end : 0)).join();
        default: return `${event.items.length}`;
    }
}

function imported(it: Import): string {
    switch (it.external) {
        case "func": case "funcexact": case "tag": return `${it.type + 1}`;
        case "table": return `${typeText(it.type.element)} ${it.type.table64 ? wide(it.type.maximum ?? 0n) : (it.type.maximum ?? 0) / 2}`;
        case "memory": return `${it.type.memory64 ? wide(it.type.initial) : it.type.initial / 2}`;
        case "global": return `${it.type.mutable}`;
        default: return never(it);
    }
}

function contents(it: Contents | Fault): string {
    switch (it.kind) {
        case "fault": return faultText(it);
        case "name": return it.subsections.map(one => (one.kind === "names" ? one.names.length : one.kind)).join();
        case "linking": return it.subsections.map(one => (one.kind === "symbols" ? one.items.length : one.kind)).join();
        case "relocations": return it.relocations.map(one => (one.kind === "fault" ? one.number ?? 0 : addend(one) + one.offset)).join();
        case "target features": return it.features.map(one => (one.kind === "fault" ? one.text : `${one.prefix}${one.name}`)).join();
        case "core stack": return it.frames.flatMap(frame => frame.locals.map(value)).join();
        default: return it.kind;
    }
}

const addend = (it: Relocation): number => (it.type === "MEMORY_ADDR_I64" ? Number(wide(it.addend)) : it.type === "MEMORY_ADDR_I32" ? offset(it.addend) : 0);

function value(it: CoreValue): string {
    switch (it.type) {
        case "missing": return `${it.value}`;
        case "i32": case "f32": return `${offset(it.value)}`;
        case "i64": case "f64": return `${wide(it.value)}`;
        default: return never(it);
    }
}

export async function all(response: Response, module: WebAssembly.Module): Promise<string[]> {
    const { parse, Parser, ParserStream, strip, edit, encodeCustom } = await load();
    for (const source of [new URL("https://localhost/pulleynavy.wasm"), "pulleynavy.wasm", response, module]) await load(source);
    const parser = new Parser({ features: MEMORY64, items: false, bytes: true }), lines: string[] = [];
    for (const event of parse(new Uint8Array(8))) lines.push(shown(event));
    lines.push(...parser.push(new ArrayBuffer(8)).map(shown), ...parser.finish().map(shown));
    const events: ReadableStream<Event> | undefined = response.body?.pipeThrough(new ParserStream());
    const stripped = strip(new Uint8Array(8), { keepNames: true });
    lines.push(stripped.fault ? faultText(stripped.fault) : `${stripped.bytes.length}`);
    const edits: readonly Edit[] = [{ remove: "a" }, { append: "b", data: encodeCustom("c", new ArrayBuffer(2)) }];
    lines.push(edit(new Uint8Array(8), edits).fault?.text ?? "");
    lines.push(`${events?.locked} ${EventKind.END} ${ExportLayout.SIZE}`);
    return [...fromModule(module).parse(new DataView(new ArrayBuffer(8)))].map(shown).concat(lines);
}

// @ts-expect-error: a text is no input
fromModule(null as unknown as WebAssembly.Module).parse("abc");
// @ts-expect-error: an edit that appends has data
export const appended: Edit = { append: "a" };
// @ts-expect-error: an event cannot be changed
export const change = (event: Event): void => void (event.kind = "end");
// @ts-expect-error: there is no such type
export const wrong: StorageType = "i128";
