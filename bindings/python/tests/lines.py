"""A module as the lines of tools/golden.jsonl, which the models in tools/model write too, without the offsets of items."""
# SPDX-License-Identifier: Apache-2.0 OR MIT
from __future__ import annotations

import re
from typing import Any, Callable, Collection, Iterator

from pulleynavy import (
    ArrayType,
    BranchHint,
    Comdat,
    ComdatSymbol,
    CoreFrame,
    CoreValue,
    CoreValueKind,
    CustomKind,
    Data,
    Element,
    ElementKind,
    Event,
    EventKind,
    Export,
    Expression,
    ExternalKind,
    Field,
    FunctionType,
    Global,
    Import,
    Memory,
    Module,
    Producer,
    StructType,
    SubType,
    Symbol,
    SymbolKind,
    Table,
    TypeGroup,
    TypeKind,
    ValueType,
)


def without_offsets(text: str) -> str:
    """A line of a model without the offsets of items and lists."""
    text = re.sub(r"^(section \d+) \d+\.\.\d+", r"\1", text)
    text = re.sub(r"\d+\.\.\d+ (?=#\d+\[)", "", text)
    text = re.sub(r"^((?:element|data)\(.*) \d+\.\.\d+ \)$", r"\1 )", text)
    return re.sub(r"(?<=[\[ ])\d+:", "", text)


def repeats(text: str) -> bool:
    """Whether a function or a field comes twice, whose values `Module` puts together."""
    keys = re.findall(r"(?:function\(|field\()\w+", text)
    return len(set(keys)) < len(keys)


def hexed(text: str | bytes) -> str:
    return "x" + (text if isinstance(text, bytes) else text.encode()).hex()


def yes(value: bool) -> str:
    return "true" if value else "false"


def limit(value: int | None) -> str:
    return "-" if value is None else str(value)


def place(expression: Expression | None) -> str:
    assert expression is not None
    return "%d..%d" % (expression.start, expression.end)


def listed(items: Collection[Any], show: Callable[[Any], str]) -> str:
    return "#%d[%s]" % (len(items), "".join(show(one) + " " for one in items))


def row(items: Collection[Any], show: Callable[[Any], str]) -> str:
    return "[%s]" % "".join(show(one) + " " for one in items)


# ---- events


def event_line(one: Event) -> str:
    """The line of an event, as `wasm_list` writes it."""
    place = "%d %d" % (one.start, one.end)
    shows = {
        EventKind.VERSION: "version %s %d %s" % (place, one.count, "component" if one.id else "module"),
        EventKind.SECTION: "section %d %s %d" % (one.id, place, one.count),
        EventKind.START: "start %s %d" % (place, one.count),
        EventKind.DATA_COUNT: "datacount %s %d" % (place, one.count),
        EventKind.CODE: "code %s %d %d" % (place, one.count, one.size),
        EventKind.BODY: "body %s" % place,
        EventKind.CUSTOM: "custom %s %d" % (place, one.data_offset),
        EventKind.UNKNOWN: "unknown %d %s" % (one.id, place),
        EventKind.END: "end %d" % one.start,
    }
    return shows[one.kind]


# ---- items


def value_type(ty: ValueType | None) -> str:
    assert ty is not None
    if ty.kind is not TypeKind.REF:
        return ty.kind.name.lower()
    assert ty.heap is not None
    heap = ty.heap.name.lower().replace("_", "") if ty.index is None else str(ty.index)
    return "%s:%s" % ("null" if ty.nullable else "ref", heap)


def field(one: Field) -> str:
    return "field(%s %s )" % (value_type(one.type), yes(one.mutable))


def composite(ty: FunctionType | StructType | ArrayType) -> str:
    if isinstance(ty, FunctionType):
        return "func(%s %s )" % (row(ty.parameters, value_type), row(ty.results, value_type))
    return "array " + field(ty.element) if isinstance(ty, ArrayType) else "struct " + row(ty.fields, field)


def subtype(one: SubType) -> str:
    return "sub(%s %s %s )" % (yes(one.final), limit(one.supertype), composite(one.type))


def group(one: TypeGroup) -> str:
    return "rec(%s %s )" % (yes(one.explicit), row(one.types, subtype))


def table_type(one: Table) -> str:
    limits = one.limits
    return "table(%s %s %s %s %s )" % (value_type(one.element), yes(limits.is_64), limits.initial, limit(limits.maximum), yes(limits.shared))


def table(one: Table) -> str:
    return "table(%s %s )" % (table_type(one), place(one.initial) if one.initial else "null")


def memory(one: Memory) -> str:
    limits = one.limits
    tail = "%s %s %s" % (limits.initial, limit(limits.maximum), limit(one.page_size_log2))
    return "memory(%s %s %s )" % (yes(limits.is_64), yes(limits.shared), tail)


def global_type(one: Global) -> str:
    return "global(%s %s %s )" % (value_type(one.content), yes(one.mutable), yes(one.shared))


def global_item(one: Global) -> str:
    return "global(%s %s )" % (global_type(one), place(one.initial))


def tag(index: int) -> str:
    return "tag(exception %d )" % index


def external(kind: ExternalKind) -> str:
    return kind.name.lower().replace("_", "")


def imported(one: Import) -> str:
    shows: dict[ExternalKind, Any] = {ExternalKind.TABLE: table_type, ExternalKind.MEMORY: memory, ExternalKind.GLOBAL: global_type, ExternalKind.TAG: tag}
    ty = shows[one.kind](one.type) if one.kind in shows else "%s %s" % (external(one.kind), one.type)
    return "import(%s %s %s )" % (hexed(one.module), hexed(one.name), ty)


def export(one: Export) -> str:
    return "export(%s %s %d )" % (hexed(one.name), external(one.kind), one.index)


def element(one: Element) -> str:
    kind = one.kind.name.lower()
    if one.kind is ElementKind.ACTIVE:
        kind += " %s %s" % (limit(one.table), place(one.offset))
    if one.functions is not None:
        return "element(%s %s )" % (kind, listed(one.functions, str))
    assert one.expressions is not None
    return "element(%s %s %s )" % (kind, value_type(one.type), listed(one.expressions, place))


def data(one: Data) -> str:
    kind = "passive" if one.memory is None else "active %d %s" % (one.memory, place(one.offset))
    return "data(%s %s )" % (kind, hexed(one.contents))


# What Module has of each section, and how an item is shown.
SECTIONS: dict[int, tuple[str, Callable[[Any], str]]] = {
    1: ("type_groups", group), 2: ("imports", imported), 3: ("functions", str), 4: ("tables", table), 5: ("memories", memory),
    6: ("globals", global_item), 7: ("exports", export), 9: ("elements", element), 11: ("data", data), 13: ("tags", tag),
}  # fmt: skip


# ---- custom sections


def named(names: dict[int, str]) -> str:
    return "{%s}" % "".join("name(%d %s ) " % (index, hexed(name)) for index, name in names.items())


def named_parts(names: dict[int, dict[int, str]]) -> str:
    return "{%s}" % "".join("names(%d %s ) " % (index, named(parts)) for index, parts in names.items())


# The spaces by the ids of their subsections.
MAPS = {1: "functions", 4: "types", 5: "tables", 6: "memories", 7: "globals", 8: "elements", 9: "data", 11: "tags"}
PARTS = {2: "locals", 3: "labels", 10: "fields", 12: "parameters", 13: "tag_parameters"}


def names(module: Module) -> Iterator[str]:
    """The texts of subsections that say something."""
    found = module.names
    if found.module is not None:
        yield "module %s" % hexed(found.module)
    for number in range(1, 14):
        space = getattr(found, MAPS.get(number) or PARTS[number])
        if space:
            yield "%d%s" % (number, named(space) if number in MAPS else named_parts(space))


def producers(module: Module) -> str:
    def value(one: Producer) -> str:
        return "value(%s %s )" % (hexed(one.name), hexed(one.version))

    return listed(module.producers.items(), lambda one: "field(%s %s )" % (hexed(one[0]), listed(one[1], value)))


def hints(module: Module) -> str:
    def hint(one: BranchHint) -> str:
        return "hint(%d %s )" % (one.offset, yes(one.taken))

    return listed(module.branch_hints.items(), lambda one: "function(%d %s )" % (one[0], listed(one[1], hint)))


def dylink(module: Module) -> Iterator[str]:
    found = module.dylink
    assert found is not None
    if found.memory:
        yield "1 meminfo(%d %d %d %d )" % found.memory
    if found.needed:
        yield "2 " + row(found.needed, hexed)
    if found.exports:
        yield "3 " + row(found.exports, lambda one: "export(%s %d )" % (hexed(one.name), one.flags))
    if found.imports:
        yield "4 " + row(found.imports, lambda one: "import(%s %s %d )" % (hexed(one.module), hexed(one.name), one.flags))
    if found.runtime_path:
        yield "5 " + row(found.runtime_path, hexed)
    if found.target_arch is not None:
        yield "6 " + hexed(found.target_arch)


def symbol(one: Symbol) -> str:
    name = "-" if one.name is None else hexed(one.name)
    if one.kind is SymbolKind.DATA:
        defined = "-" if one.data_size is None else "defined(%s %s %s )" % (one.index, one.data_offset, one.data_size)
        return "data %d %s %s" % (one.flags, name, defined)
    if one.kind is SymbolKind.SECTION:
        return "section %d %d" % (one.flags, one.index)
    return "%s %d %d %s" % (one.kind.name.lower(), one.flags, one.index, name)


def comdat(one: Comdat) -> str:
    def part(one: ComdatSymbol) -> str:
        return "symbol(%s %d )" % (one.kind.name.lower(), one.index)

    return "comdat(%s %d %s )" % (hexed(one.name), one.flags, listed(one.symbols, part))


def linking(module: Module) -> Iterator[str]:
    found = module.linking
    assert found is not None
    if found.segments:
        yield "5 " + listed(found.segments, lambda one: "segment(%s %d %d )" % (hexed(one.name), one.alignment, one.flags))
    if found.init_functions:
        yield "6 " + listed(found.init_functions, lambda one: "init(%d %d )" % one)
    if found.comdats:
        yield "7 " + listed(found.comdats, comdat)
    if found.symbols:
        yield "8 " + listed(found.symbols, symbol)
    if found.target_arch is not None:
        yield "9 " + hexed(found.target_arch)


def relocations(module: Module) -> str:
    one, = module.relocations
    return "section %d %s" % (one.section, listed(one.relocations, lambda it: "reloc(%d %d %d %d )" % (it.kind, it.offset, it.index, it.addend)))


def core_value(one: CoreValue) -> str:
    return "missing" if one.kind is CoreValueKind.MISSING else "%s:%s" % (one.kind.name.lower(), one.value)


def frame(one: CoreFrame) -> str:
    return "frame(%d %d %d %s %s )" % (one.instance, one.function, one.code_offset, row(one.locals, core_value), row(one.stack, core_value))


def core_stack(module: Module) -> str:
    one, = module.core_stacks
    return hexed(one.name) + " " + row(one.frames, frame)


def core_instances(module: Module) -> str:
    return row(module.core_instances, lambda one: "instance(%d %s %s )" % (one.module, row(one.memories, str), row(one.globals, str)))


# How each kind is shown as a whole, or part by part.
WHOLE: dict[CustomKind, Callable[[Module], str]] = {
    CustomKind.PRODUCERS: producers, CustomKind.BRANCH_HINTS: hints, CustomKind.RELOC: relocations,
    CustomKind.CORE: lambda module: hexed(str(module.core_process)), CustomKind.CORE_MODULES: lambda module: row(module.core_modules, hexed),
    CustomKind.CORE_INSTANCES: core_instances, CustomKind.CORE_STACK: core_stack,
}  # fmt: skip
IN_PARTS: dict[CustomKind, Callable[[Module], Iterator[str]]] = {CustomKind.NAME: names, CustomKind.DYLINK0: dylink, CustomKind.LINKING: linking}


def words(text: str) -> Iterator[str]:
    """The words of a text, where spaces in brackets separate none."""
    depth, word = 0, ""
    for letter in text:
        depth += (letter in "[({") - (letter in "])}")
        if letter == " " and depth == 0:
            yield word
            word = ""
        else:
            word += letter


def parts(text: str) -> list[str]:
    """The parts of a text in angle brackets that say something: without unknown ones, and without empty lists."""
    inner = text[text.index("<") + 1 : text.rindex(">")]
    inner = re.sub(r"(module x\w*) \d+\.\.\d+", r"\1", re.sub(r"unknown \d+ x\w* \d+\.\.\d+ ", "", inner))
    found, rest = [], iter(words(inner))
    for word in rest:
        found.append(word if word.endswith("}") else word + " " + next(rest))
    return [part for part in found if not part.endswith(("{}", " []", "#0[]"))]
