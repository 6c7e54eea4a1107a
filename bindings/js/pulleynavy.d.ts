// SPDX-License-Identifier: Apache-2.0 OR MIT
import type { RelocationKind } from "./declared.js";

declare global {
    // These merge with the declarations of the library dom or of Node, if there are any.
    interface TransformStream<I = any, O = any> {}
    namespace WebAssembly {
        interface Module {}
    }
}

/** A range of bytes: `start` is the offset of the first one, `end` the offset after the last one, in bytes from the start of the stream. */
export interface Range {
    readonly start: number;
    readonly end: number;
}

// ---- events

/** A part of the stream. `start` and `end` are the offsets of its content; `offset` is where the part begins, with its id and size. */
export interface Part extends Range {
    readonly offset: number;
    /** A copy of the bytes of the part, from `offset` on, with its id and size. It is there only with `bytes: true`. */
    readonly bytes?: Uint8Array;
}
/** The header of a module or component. */
export interface Version extends Part {
    readonly kind: "version";
    /** The 16-bit version: 1 for a module, 13 for a component. */
    readonly version: number;
    /** Whether the stream is a module or a component. */
    readonly encoding: "module" | "component";
}
interface SectionOf<Id extends number, Name extends string, Item> extends Part {
    readonly kind: "section";
    readonly id: Id;
    readonly name: Name;
    /** The announced number of items. */
    readonly count: number;
    /** The items, with faults among them. Empty with `items: false`. */
    readonly items: readonly (Item | Fault)[];
}
/** A section of items. `name` says which section, and so the type of its items. */
export type Section =
    | SectionOf<1, "type", TypeGroup>
    | SectionOf<2, "import", Import>
    | SectionOf<3, "function", FunctionItem>
    | SectionOf<4, "table", Table>
    | SectionOf<5, "memory", Memory>
    | SectionOf<6, "global", Global>
    | SectionOf<7, "export", Export>
    | SectionOf<9, "element", Element>
    | SectionOf<11, "data", Data>
    | SectionOf<13, "tag", Tag>;
/** The start section. */
export interface Start extends Part {
    readonly kind: "start";
    readonly id: 8;
    /** The index of the start function. */
    readonly index: number;
}
/** The data count section. */
export interface DataCount extends Part {
    readonly kind: "data count";
    readonly id: 12;
    /** The announced number of data segments. */
    readonly count: number;
}
/** The start of a code section, whose content is that of the whole section. `count` events of kind "body" follow. */
export interface Code extends Part {
    readonly kind: "code";
    readonly id: 10;
    /** The announced number of bodies. */
    readonly count: number;
    /** The size of the content after the count, in bytes. */
    readonly size: number;
}
/** The body of a function. Its content is the locals and the instructions, which are not decoded. */
export interface Body extends Part {
    readonly kind: "body";
}
/** A custom section. */
export interface Custom extends Part {
    readonly kind: "custom";
    readonly id: 0;
    /** The name of the section. */
    readonly name: string;
    /** The offset of the data, which follows the name. */
    readonly dataStart: number;
    /** The contents of a known section, or the fault of its data. Null for other names, and with `items: false`. */
    readonly contents: Contents | Fault | null;
}
/** A section with an unknown id, and any section of a component. */
export interface Unknown extends Part {
    readonly kind: "unknown";
    /** The id of the section. */
    readonly id: number;
}
/** The end of the stream. */
export interface End {
    readonly kind: "end";
    /** The offset of the end, which is the size of the stream in bytes. */
    readonly offset: number;
}
/** A fault: the last event of a malformed stream, or a malformed item in the place of the item. */
export interface Fault {
    readonly kind: "fault";
    /** The offset of the fault, in bytes from the start of the stream. */
    readonly offset: number;
    /** The kind of the fault, such as "UNEXPECTED_EOF": a name of `FaultKind` in `declared.js`. */
    readonly fault: string;
    /** The number of the fault in the C library: its kind in the lowest 8 bits, and its detail above them. */
    readonly code: number;
    /** The number of the fault, if it has one: a version, a length or a byte; otherwise null. */
    readonly number: number | null;
    /** The message, without the number and the offset. */
    readonly text: string;
}
/** An event of a stream. `kind` says which; the last one is of kind "end" or "fault". */
export type Event = Version | Section | Start | DataCount | Code | Body | Custom | Unknown | End | Fault;

// ---- items

/** An abstract heap type, by its name in the text format. */
export type HeapType = "func" | "extern" | "any" | "eq" | "i31" | "struct" | "array" | "exn" | "none" | "noextern" | "nofunc" | "noexn";
/** A reference type. */
export interface ReferenceType {
    /** Whether the reference may be null. */
    readonly nullable: boolean;
    /** The type of what the reference refers to: an abstract type, or the index of a type of the module. */
    readonly heap: HeapType | number;
}
/** A value type: the name of a number or vector type, or a reference type. */
export type ValueType = "i32" | "i64" | "f32" | "f64" | "v128" | ReferenceType;
/** The type of the values that a field stores: a value type, or a packed integer. */
export type StorageType = ValueType | "i8" | "i16";
/** The limits of a table, in elements, or of a memory, in pages. */
interface Limits<Size extends number | bigint> {
    /** The initial number of elements or pages. A number beyond 2^53, which no valid module has, is rounded. */
    readonly initial: Size;
    /** The maximum number of elements or pages, or null. */
    readonly maximum: Size | null;
    /** Whether threads share it. */
    readonly shared: boolean;
}
interface TableOf<Size extends number | bigint, Is64 extends boolean> extends Limits<Size> {
    /** The type of the elements. */
    readonly element: ReferenceType;
    /** Whether indices have 64 bits. */
    readonly table64: Is64;
}
/** The type of a table. The limits of one with 64-bit indices are bigints. */
export type TableType = TableOf<number, false> | TableOf<bigint, true>;
interface MemoryOf<Size extends number | bigint, Is64 extends boolean> extends Limits<Size> {
    /** Whether addresses have 64 bits. */
    readonly memory64: Is64;
    /** The base-2 logarithm of the page size in bytes, or null for pages of 65,536 bytes. */
    readonly pageSizeLog2: number | null;
}
/** The type of a memory. The limits of one with 64-bit addresses are bigints. */
export type MemoryType = MemoryOf<number, false> | MemoryOf<bigint, true>;
/** The type of a global. */
export interface GlobalType {
    /** The type of the value. */
    readonly content: ValueType;
    /** Whether the value is mutable. */
    readonly mutable: boolean;
    /** Whether threads share the global. */
    readonly shared: boolean;
}
/** What all types of a group have. */
interface Subtype extends Range {
    /** Whether no type may extend this one. */
    readonly final: boolean;
    /** The index of the type that this one extends, or null. */
    readonly supertype: number | null;
}
/** A function type. */
export interface FunctionType extends Subtype {
    readonly kind: "func";
    /** The types of the parameters. */
    readonly params: readonly ValueType[];
    /** The types of the results. */
    readonly results: readonly ValueType[];
}
/** An array or structure type. An array has one field. */
export interface CompositeType extends Subtype {
    readonly kind: "array" | "struct";
    /** The fields of a structure, or the element of an array. */
    readonly fields: readonly { readonly type: StorageType; readonly mutable: boolean }[];
}
/** A group of types. A single type that is not encoded as a group is a group of one, with `explicit` false. */
export interface TypeGroup extends Range {
    readonly kind: "type";
    /** Whether the group is encoded as a group. */
    readonly explicit: boolean;
    /** The types of the group, in order. */
    readonly types: readonly (FunctionType | CompositeType)[];
}
interface ImportOf<External extends string, Type> extends Range {
    readonly kind: "import";
    /** The name of the module to import from. */
    readonly module: string;
    /** The name of the import in that module. */
    readonly name: string;
    /** The kind of the import. */
    readonly external: External;
    /** The type of the import; for a function or a tag, its type index. */
    readonly type: Type;
}
/** An import. The imports of a bundle are items of their own. */
export type Import =
    | ImportOf<"func" | "funcexact" | "tag", number>
    | ImportOf<"table", TableType>
    | ImportOf<"memory", MemoryType>
    | ImportOf<"global", GlobalType>;
/** A function that the module defines. */
export interface FunctionItem extends Range {
    readonly kind: "function";
    /** The index of the function's type. */
    readonly type: number;
}
/** A table. */
export interface Table extends Range {
    readonly kind: "table";
    /** The type of the table. */
    readonly type: TableType;
    /** The range of the constant expression of the initial elements, including `end`, or null. */
    readonly init: Range | null;
}
/** A memory. */
export interface Memory extends Range {
    readonly kind: "memory";
    /** The type of the memory. */
    readonly type: MemoryType;
}
/** A global. */
export interface Global extends Range {
    readonly kind: "global";
    /** The type of the global. */
    readonly type: GlobalType;
    /** The range of the constant expression of the initial value, including `end`. */
    readonly init: Range;
}
/** A tag of exceptions. */
export interface Tag extends Range {
    readonly kind: "tag";
    /** The index of the function type whose parameters the tag carries. */
    readonly type: number;
}
/** An export. */
export interface Export extends Range {
    readonly kind: "export";
    /** The name of the export. */
    readonly name: string;
    /** The kind of what is exported. */
    readonly external: "func" | "table" | "memory" | "global" | "tag";
    /** The index of what is exported, in the index space of the kind. */
    readonly index: number;
}
/** What all element segments have. */
interface ElementBase extends Range {
    readonly kind: "element";
    /** The type of the elements if they are expressions, otherwise null. */
    readonly type: ReferenceType | null;
    /** The range of the elements, after their count. */
    readonly items: Range;
    /** The function indices, or null if the elements are expressions. */
    readonly functions: readonly number[] | null;
    /** The ranges of the expressions, including `end`, or null if the elements are function indices. */
    readonly expressions: readonly Range[] | null;
}
/** An element segment. */
export type Element =
    | (ElementBase & { readonly mode: "passive" | "declared"; readonly table: null; readonly offsetExpression: null })
    /** `table` is null if no index is encoded: the segment is then for table 0. */
    | (ElementBase & { readonly mode: "active"; readonly table: number | null; readonly offsetExpression: Range });
/** What all data segments have. */
interface DataBase extends Range {
    readonly kind: "data";
    /** The range of the segment's bytes. */
    readonly bytes: Range;
}
/** A data segment. */
export type Data =
    | (DataBase & { readonly mode: "passive"; readonly memory: null; readonly offsetExpression: null })
    | (DataBase & { readonly mode: "active"; readonly memory: number; readonly offsetExpression: Range });

// ---- custom sections

/** What all subsections have: the range of the whole subsection, its id, and the range of its content. */
interface SubsectionBase extends Range {
    /** The id, below 128. */
    readonly id: number;
    /** The range of the content, without the id and the size. */
    readonly contents: Range;
}
/** A subsection with an unknown id, which is not decoded. */
export interface UnknownSubsection extends SubsectionBase {
    readonly kind: "unknown";
}
/** An entry of a name map: an index and a name. */
export interface Naming extends Range {
    readonly kind: "name";
    /** The index of the named item, in the index space of the map. */
    readonly index: number;
    /** The name of the item. */
    readonly name: string;
}
/** An entry of an indirect name map: an index, such as that of a function, and the names of its parts. */
export interface IndirectNaming extends Range {
    readonly kind: "names";
    /** The index of the item whose parts are named. */
    readonly index: number;
    /** The names of the parts, with faults among them. */
    readonly names: readonly (Naming | Fault)[];
}
/** A subsection of the section `name`. `of` says which index space the names belong to. */
export type NameSubsection =
    | UnknownSubsection
    | (SubsectionBase & { readonly kind: "module"; readonly name: string })
    | (SubsectionBase & {
          readonly kind: "names";
          readonly of: "function" | "type" | "table" | "memory" | "global" | "element" | "data" | "tag";
          readonly names: readonly (Naming | Fault)[];
      })
    | (SubsectionBase & {
          readonly kind: "indirect names";
          readonly of: "local" | "label" | "field" | "parameter" | "tag parameter";
          readonly names: readonly (IndirectNaming | Fault)[];
      });
/** A language or tool that a module was produced with, and its version. */
export interface ProducersValue extends Range {
    readonly kind: "value";
    /** The name of the language or tool. */
    readonly name: string;
    /** The version, possibly empty. */
    readonly version: string;
}
/** A field of the section `producers`: `language`, `sdk` or `processed-by`. */
export interface ProducersField extends Range {
    readonly kind: "field";
    /** The name of the field. */
    readonly name: string;
    /** The languages or tools, with faults among them. */
    readonly values: readonly (ProducersValue | Fault)[];
}
/** A feature of the target, of the section `target_features`. */
export interface TargetFeature extends Range {
    readonly kind: "feature";
    /** The character `+` if the module uses the feature, `-` if no module that uses it may be linked with this one. Other bytes are kept. */
    readonly prefix: string;
    /** The name of the feature. */
    readonly name: string;
}
/** A branch hint: whether a branch is likely to be taken. */
export interface BranchHint extends Range {
    readonly kind: "hint";
    /** The offset of the branch instruction, in bytes from the start of the function's body. */
    readonly offset: number;
    /** Whether the branch is likely to be taken. */
    readonly taken: boolean;
}
/** A function with branch hints. */
export interface HintedFunction extends Range {
    readonly kind: "function";
    /** The index of the function. */
    readonly index: number;
    /** The hints of the function. */
    readonly hints: readonly (BranchHint | Fault)[];
}
/** The flags of an export's symbol, for a dynamic linker. */
export interface DylinkExport extends Range {
    /** The name of the export. */
    readonly name: string;
    /** The flags of the symbol: bits of `SymbolFlags` in `declared.js`. */
    readonly flags: number;
}
/** The flags of an import's symbol, for a dynamic linker. */
export interface DylinkImport extends Range {
    /** The name of the module to import from. */
    readonly module: string;
    /** The name of the import in that module. */
    readonly name: string;
    /** The flags of the symbol: bits of `SymbolFlags` in `declared.js`. */
    readonly flags: number;
}
/** A subsection of the section `dylink.0`. Sizes are in bytes and table elements. */
export type DylinkSubsection =
    | UnknownSubsection
    | (SubsectionBase & {
          readonly kind: "memory";
          readonly memorySize: number;
          /** The base-2 logarithm of the alignment in bytes; that of `tableAlignment` in elements. */
          readonly memoryAlignment: number;
          readonly tableSize: number;
          readonly tableAlignment: number;
      })
    | (SubsectionBase & { readonly kind: "needed"; readonly libraries: readonly string[] })
    | (SubsectionBase & { readonly kind: "exports"; readonly exports: readonly DylinkExport[] })
    | (SubsectionBase & { readonly kind: "imports"; readonly imports: readonly DylinkImport[] })
    | (SubsectionBase & { readonly kind: "runtime path"; readonly paths: readonly string[] })
    | (SubsectionBase & { readonly kind: "target arch"; readonly name: string });
/** The name, alignment and flags of a data segment. */
export interface LinkingSegment extends Range {
    readonly kind: "segment";
    /** The name of the segment. */
    readonly name: string;
    /** The alignment of the segment, as the base-2 logarithm of the bytes. */
    readonly alignment: number;
    /** The flags of the segment: bits of `SegmentFlags` in `declared.js`. */
    readonly flags: number;
}
/** A function to call at startup. Lower priorities are called first. */
export interface InitFunction extends Range {
    readonly kind: "init function";
    /** The priority of the function. */
    readonly priority: number;
    /** The index of the function's symbol in the symbol table. */
    readonly symbol: number;
}
/** A symbol of a comdat. */
export interface ComdatSymbol extends Range {
    readonly kind: "comdat symbol";
    /** The kind of the symbol. */
    readonly symbol: "data" | "func" | "global" | "event" | "table" | "section";
    /** The index of the symbol, in the index space of the kind. */
    readonly index: number;
}
/** A comdat: a group of symbols, of which the linker keeps one copy. */
export interface Comdat extends Range {
    readonly kind: "comdat";
    /** The name of the comdat. */
    readonly name: string;
    /** The flags. None is defined. */
    readonly flags: number;
    /** The symbols of the comdat. */
    readonly symbols: readonly (ComdatSymbol | Fault)[];
}
/** A symbol of the symbol table. */
export interface LinkingSymbol extends Range {
    readonly kind: "symbol";
    /** The kind of the symbol. */
    readonly symbol: "func" | "data" | "global" | "section" | "event" | "table";
    /** The flags: bits of `SymbolFlags` in `declared.js`. */
    readonly flags: number;
    /** The name, or null for a section and for an undefined symbol without a name of its own. */
    readonly name: string | null;
    /** The index of the function, global, section, event or table, or of the segment of defined data; null for undefined data. */
    readonly index: number | null;
    /** The offset of defined data in its segment in bytes, otherwise null. */
    readonly offset: number | null;
    /** The size of defined data in bytes, otherwise null. */
    readonly size: number | null;
}
/** A subsection with a list of items. */
interface LinkingList<Kind extends string, Item> extends SubsectionBase {
    readonly kind: Kind;
    /** The announced number of items. */
    readonly count: number;
    /** The items, with faults among them. */
    readonly items: readonly (Item | Fault)[];
}
/** A subsection of the section `linking`. */
export type LinkingSubsection =
    | UnknownSubsection
    | LinkingList<"segments", LinkingSegment>
    | LinkingList<"init functions", InitFunction>
    | LinkingList<"comdats", Comdat>
    | LinkingList<"symbols", LinkingSymbol>
    | (SubsectionBase & { readonly kind: "target arch"; readonly name: string });
/** The types of relocations whose addends have 64 bits. */
type WideRelocation =
    | "MEMORY_ADDR_LEB64" | "MEMORY_ADDR_SLEB64" | "MEMORY_ADDR_I64" | "MEMORY_ADDR_REL_SLEB64" | "FUNCTION_OFFSET_I64" | "MEMORY_ADDR_TLS_SLEB64";
interface RelocationOf<Type extends string, Addend extends number | bigint> extends Range {
    readonly kind: "relocation";
    /** The type, such as "MEMORY_ADDR_LEB": a name of `RelocationKind` in `declared.js`. */
    readonly type: Type;
    /** The offset of the place, in bytes from the start of the relocated section's content. */
    readonly offset: number;
    /** The index of the symbol whose value is written; for "TYPE_INDEX_LEB", the index of a type. */
    readonly index: number;
    /** The addend, which is added to the value; 0 if the type has none. */
    readonly addend: Addend;
    /** The number of bytes that the relocation fills in: 4, 5, 8 or 10. */
    readonly extent: number;
}
/** A relocation: a place that the linker fills in. An addend of 64 bits is a bigint. */
export type Relocation = RelocationOf<Exclude<keyof typeof RelocationKind, WideRelocation>, number> | RelocationOf<WideRelocation, bigint>;
/** A value of a local or on the stack of a frame in a core dump: an integer, the bits of a float, or null. Those of 64 bits are bigints. */
export type CoreValue =
    | { readonly type: "missing"; readonly value: null }
    | { readonly type: "i32" | "f32"; readonly value: number }
    | { readonly type: "i64" | "f64"; readonly value: bigint };
/** An instance of a module in a core dump. */
export interface CoreInstance {
    /** The index of the module in the section `coremodules`. */
    readonly module: number;
    /** The indices of the instance's memories. */
    readonly memories: readonly number[];
    /** The indices of the instance's globals. */
    readonly globals: readonly number[];
}
/** A frame of a thread in a core dump. */
export interface CoreFrame {
    /** The index of the instance in the section `coreinstances`. */
    readonly instance: number;
    /** The index of the function in the module of the instance. */
    readonly function: number;
    /** The offset of the instruction, in bytes from the start of the function's body. */
    readonly codeOffset: number;
    /** The values of the locals. */
    readonly locals: readonly CoreValue[];
    /** The values on the operand stack. */
    readonly stack: readonly CoreValue[];
}
/** The contents of a known custom section. `count` is the announced number of items of a list. */
export type Contents =
    | { readonly kind: "name"; readonly subsections: readonly (NameSubsection | Fault)[] }
    | { readonly kind: "producers"; readonly count: number; readonly fields: readonly (ProducersField | Fault)[] }
    | { readonly kind: "target features"; readonly count: number; readonly features: readonly (TargetFeature | Fault)[] }
    | { readonly kind: "branch hints"; readonly count: number; readonly functions: readonly (HintedFunction | Fault)[] }
    | { readonly kind: "dylink.0"; readonly subsections: readonly (DylinkSubsection | Fault)[] }
    | { readonly kind: "linking"; readonly version: number; readonly subsections: readonly (LinkingSubsection | Fault)[] }
    | {
          readonly kind: "relocations";
          /** The index of the relocated section among all sections of the module. */
          readonly section: number;
          readonly count: number;
          readonly relocations: readonly (Relocation | Fault)[];
      }
    | { readonly kind: "core"; readonly name: string }
    | { readonly kind: "core modules"; readonly modules: readonly string[] }
    | { readonly kind: "core instances"; readonly instances: readonly CoreInstance[] }
    | { readonly kind: "core stack"; readonly thread: string; readonly frames: readonly CoreFrame[] };

// ---- the parser

/** Options of a parser. */
export interface Options {
    /** The features to parse with, a sum of `MEMORY64` and `COMPACT_IMPORTS`. By default all. */
    readonly features?: number;
    /** Whether the items of sections and the contents of custom sections are read. By default true; without them it is faster. */
    readonly items?: boolean;
    /** Whether each part has a copy of its `bytes`. By default false: those of `parse` are the bytes that you pass. */
    readonly bytes?: boolean;
}
/** Bytes of a stream: a typed array, a view or a buffer. */
export type Bytes = Uint8Array | ArrayBuffer | SharedArrayBuffer | ArrayBufferView;

/**
 * A parser for chunked input.
 *
 * After a call that threw, the parser can't be used again.
 *
 * @example
 * import assert from "node:assert";
 * import { load } from "pulleynavy";
 *
 * const { Parser } = await load();
 * const parser = new Parser();
 * const header = Uint8Array.of(0, 0x61, 0x73, 0x6d, 1, 0, 0, 0);
 * assert.deepEqual(parser.push(header.subarray(0, 5)), []);
 * assert.equal(parser.push(header.subarray(5))[0].kind, "version");
 * assert.deepEqual(parser.finish(), [{ kind: "end", offset: 8 }]);
 */
export interface Parser {
    /**
     * Returns the events that are complete with this chunk. After the event of kind "end" or "fault" it returns none.
     *
     * @throws {TypeError} if the chunk is not a typed array, a view or a buffer
     * @throws {RangeError} if memory can't grow
     * @throws {Error} if an earlier call threw
     */
    push(chunk: Bytes): Event[];
    /**
     * Marks the end of input, and returns the remaining events. The last one is of kind "end" or "fault".
     *
     * @throws {Error} if an earlier call threw
     */
    finish(): Event[];
}
/**
 * A transform stream from chunks of a module to events. After a fault it cancels its source.
 *
 * @example
 * import assert from "node:assert";
 * import { load } from "pulleynavy";
 *
 * const { ParserStream } = await load();
 * const chunks = new Blob([Uint8Array.of(0, 0x61, 0x73, 0x6d, 1, 0, 0, 0)]).stream();
 * const kinds = [];
 * for await (const event of chunks.pipeThrough(new ParserStream())) kinds.push(event.kind);
 * assert.deepEqual(kinds, ["version", "end"]);
 */
export interface ParserStream extends TransformStream<Bytes, Event> {}
/** An edit of the custom sections of a stream, with the name of its section. */
export type Edit =
    /** Appends a section. */
    | { readonly append: string; readonly data: Bytes }
    /** Replaces each custom section with this name, in its place. */
    | { readonly replace: string; readonly data: Bytes }
    /** Removes each custom section with this name. */
    | { readonly remove: string }
    /** Removes the custom sections with other names. If the name ends with `*`, those stay whose names begin with what is before the `*`. */
    | { readonly keep: string };

/** The result of `strip` and `edit`: the new stream, or the fault of a malformed one. */
export type Stripped = { readonly fault: Fault; readonly bytes: null } | { readonly fault: null; readonly bytes: Uint8Array };

/**
 * The functions of a loaded parser, which `load` and `fromModule` return.
 *
 * Malformed input never throws: it ends with an event of kind "fault".
 */
export interface Pulleynavy {
    /**
     * Iterates over the events of a stream in memory, which is copied at the first step. The last one is of kind "end" or "fault".
     *
     * @throws {TypeError} if `bytes` is not a typed array, a view or a buffer
     * @throws {RangeError} at the first step, if memory can't grow
     *
     * @example
     * import assert from "node:assert";
     * import { load } from "pulleynavy";
     *
     * const { parse } = await load();
     * const module = Uint8Array.of(0, 0x61, 0x73, 0x6d, 1, 0, 0, 0, 7, 5, 1, 1, 0x66, 0, 5);
     * for (const event of parse(module)) {
     *     if (event.kind === "section" && event.name === "export") assert.equal(event.items[0].name, "f");
     * }
     */
    parse(bytes: Bytes, options?: Options): Generator<Event, void, undefined>;
    /**
     * Returns a copy of a stream without its custom sections. With `keepNames` the sections called `name` stay.
     *
     * `fault` is the fault of a malformed stream; `bytes` is then null.
     *
     * @throws {TypeError} if `bytes` is not a typed array, a view or a buffer
     * @throws {RangeError} if memory can't grow
     *
     * @example
     * import assert from "node:assert";
     * import { load } from "pulleynavy";
     *
     * const { strip } = await load();
     * const module = Uint8Array.of(0, 0x61, 0x73, 0x6d, 1, 0, 0, 0, 0, 2, 1, 0x61);
     * assert.equal(strip(module).bytes.length, 8);
     */
    strip(bytes: Bytes, options?: { readonly keepNames?: boolean }): Stripped;
    /**
     * Returns a copy of a stream after edits of its custom sections, one after the other.
     *
     * The other sections keep their bytes and their order. A later edit also changes the sections that an earlier one added. `fault` is the
     * fault of a malformed stream; `bytes` is then null.
     *
     * @throws {TypeError} if `bytes` or data is not a typed array, a view or a buffer, an edit has none of the keys, or a name has a lone surrogate
     * @throws {RangeError} if a new section is one that `encodeCustom` refuses, or memory can't grow
     *
     * @example
     * import assert from "node:assert";
     * import { load } from "pulleynavy";
     *
     * const { edit } = await load();
     * const module = Uint8Array.of(0, 0x61, 0x73, 0x6d, 1, 0, 0, 0, 0, 2, 1, 0x61);
     * const { bytes } = edit(module, [{ remove: "a" }, { append: "b", data: Uint8Array.of(7) }]);
     * assert.deepEqual([...bytes.subarray(8)], [0, 3, 1, 0x62, 7]);
     */
    edit(bytes: Bytes, edits: Iterable<Edit>): Stripped;
    /**
     * Returns the bytes of a custom section: its id, its length, its name with its size, and its data.
     *
     * Numbers have as few bytes as possible.
     *
     * @throws {TypeError} if `data` is not a typed array, a view or a buffer, or the name has a lone surrogate
     * @throws {RangeError} if the name has more than 100,000 bytes, the name and the data 2^32 or more, or memory can't grow
     *
     * @example
     * import assert from "node:assert";
     * import { load } from "pulleynavy";
     *
     * const { encodeCustom } = await load();
     * assert.deepEqual([...encodeCustom("b", Uint8Array.of(7))], [0, 3, 1, 0x62, 7]);
     */
    encodeCustom(name: string, data: Bytes): Uint8Array;
    /** The class of parsers for chunked input. */
    readonly Parser: new (options?: Options) => Parser;
    /** The class of transform streams from chunks to events. */
    readonly ParserStream: new (options?: Options) => ParserStream;
}
/**
 * Compiles the parser: by default `pulleynavy.wasm` next to this module, or that of a URL or a response, its bytes, or a compiled module.
 * By default `load` of `pulleynavy/inline` compiles a module that is in the script, for bundles that are one file.
 *
 * The promise is rejected with the errors of `fromModule`, with those of `WebAssembly.compile`, and if a file can't be fetched.
 *
 * @throws {TypeError} if it is another module, or of another version; and without `source` in a script for browsers that is no module
 * @throws {Error} if the response for a URL is not successful
 *
 * @example
 * import assert from "node:assert";
 * import { load } from "pulleynavy";
 *
 * const { parse } = await load();
 * const [fault] = parse(new Uint8Array(8));
 * assert.equal(fault.fault, "BAD_MAGIC");
 */
export declare function load(source?: Address | string | Received | ArrayBuffer | ArrayBufferView | WebAssembly.Module): Promise<Pulleynavy>;
/** A `URL`. */
export interface Address {
    readonly href: string;
}
/** A `Response`. */
export interface Received {
    readonly ok: boolean;
    readonly status: number;
    arrayBuffer(): Promise<ArrayBuffer>;
}
/**
 * Returns the functions of a compiled `pulleynavy.wasm`, synchronously.
 *
 * @throws {TypeError} if it is another module, or of another version
 *
 * @example
 * import assert from "node:assert";
 * import { readFileSync } from "node:fs";
 * import { createRequire } from "node:module";
 * import { fromModule } from "pulleynavy";
 *
 * const file = createRequire(import.meta.url).resolve("pulleynavy/pulleynavy.wasm");
 * const { parse } = fromModule(new WebAssembly.Module(readFileSync(file)));
 * assert.equal([...parse(new Uint8Array(0))][0].kind, "fault");
 */
export declare function fromModule(module: WebAssembly.Module): Pulleynavy;

/**
 * Returns a type in the text format, such as `i32` or `(ref null func)`.
 *
 * @example
 * import assert from "node:assert";
 * import { typeText } from "pulleynavy";
 *
 * assert.equal(typeText({ nullable: true, heap: "func" }), "(ref null func)");
 */
export declare function typeText(type: StorageType): string;
/**
 * Returns a fault as one line: its message, its number, if it has one, and its offset in hexadecimal.
 *
 * @example
 * import assert from "node:assert";
 * import { faultText, load } from "pulleynavy";
 *
 * const { parse } = await load();
 * const [fault] = parse(new Uint8Array(0));
 * assert.equal(faultText(fault), "unexpected end-of-file (at offset 0x0)");
 */
export declare function faultText(fault: Fault): string;
/** The names of sections by their ids, such as "import" for 2 (core specification, Binary format, Modules, Sections). */
export declare const SECTIONS: readonly string[];
/** The version of this package. */
export declare const VERSION: string;
/** The feature of 64-bit memories and tables: their limits are 64-bit numbers. */
export declare const MEMORY64: 1;
/** The feature of compact imports, which are bundles of imports from one module. */
export declare const COMPACT_IMPORTS: 2;
/** All features, the default. */
export declare const ALL_FEATURES: 3;
