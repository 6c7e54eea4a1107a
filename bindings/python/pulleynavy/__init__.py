"""Reads WebAssembly binaries: the events of a stream as they arrive, or a module in memory with its items.

    import pulleynavy

    module = pulleynavy.Module.read("a.wasm")
    for one in module.imports:
        print(one.module, one.name, one.kind.name)

    with open("b.wasm", "rb") as file:
        for event in pulleynavy.events(file):
            print(event.kind.name, event.start, event.end)

A malformed module raises `ParseError`, which has a kind and an offset. Offsets and sizes are in bytes; offsets count from the start of the stream.
Nothing is validated, and function bodies are not decoded. The parser is the C library of Pulleynavy, which is proved to
return what the binary grammar assigns; this package is tested.
"""
# SPDX-License-Identifier: Apache-2.0 OR MIT
from __future__ import annotations

from . import declared
from ._customs import Names
from ._edits import Append, Edit, Keep, Remove, Replace, edit, encode_custom, strip
from ._events import Event, Parser, SkippedPart, events
from ._items import Items, Subsection
from ._library import ALL_FEATURES, COMPACT_IMPORTS, MEMORY64, Fault, ParseError, load
from ._values import (
    ArrayType,
    BranchHint,
    Comdat,
    ComdatSymbol,
    CoreFrame,
    CoreInstance,
    CoreStack,
    CoreValue,
    CustomSection,
    Data,
    Dylink,
    DylinkExport,
    DylinkImport,
    DylinkMemory,
    Element,
    Export,
    Expression,
    Field,
    FunctionType,
    Global,
    Import,
    InitFunction,
    Instruction,
    Limits,
    Linking,
    LinkingSegment,
    Memory,
    Producer,
    Relocation,
    Relocations,
    Section,
    StructType,
    SubType,
    Symbol,
    Table,
    TargetFeature,
    TypeGroup,
    ValueType,
)
from .declared import (
    ComdatKind,
    CoreValueKind,
    CustomKind,
    DataKind,
    DylinkId,
    ElementKind,
    EventKind,
    ExternalKind,
    FaultKind,
    HeapKind,
    LinkingId,
    NameId,
    Opcode,
    RelocationKind,
    SectionId,
    SegmentFlags,
    SymbolFlags,
    SymbolKind,
    TypeKind,
)
from .module import Module

__version__ = declared.VERSION
__all__ = [
    "ALL_FEATURES", "COMPACT_IMPORTS", "MEMORY64",
    "Append", "ArrayType", "BranchHint", "Comdat", "ComdatKind", "ComdatSymbol", "CoreFrame", "CoreInstance", "CoreStack",
    "CoreValue", "CoreValueKind", "CustomKind", "CustomSection", "Data", "DataKind", "Dylink", "DylinkExport", "DylinkId",
    "DylinkImport", "DylinkMemory", "Edit", "Element", "ElementKind", "Event", "EventKind", "Export", "Expression", "ExternalKind",
    "Fault", "FaultKind", "Field", "FunctionType", "Global", "HeapKind", "Import", "InitFunction", "Instruction", "Items", "Keep",
    "Limits", "Linking", "LinkingId", "LinkingSegment", "Memory", "Module", "NameId", "Names", "Opcode", "ParseError", "Parser",
    "Producer", "Relocation", "RelocationKind", "Relocations", "Remove", "Replace", "Section", "SectionId", "SegmentFlags",
    "SkippedPart", "StructType", "SubType", "Subsection", "Symbol", "SymbolFlags", "SymbolKind", "Table", "TargetFeature",
    "TypeGroup", "TypeKind", "ValueType",
    "edit", "encode_custom", "events", "load", "strip",
]  # fmt: skip
