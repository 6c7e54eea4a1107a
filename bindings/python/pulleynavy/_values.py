"""What the items of modules and of custom sections are read as."""
# SPDX-License-Identifier: Apache-2.0 OR MIT
from __future__ import annotations

import dataclasses
import functools
from typing import Any, NamedTuple

from ._cursor import Cursor
from .declared import (
    ComdatKind,
    CoreValueKind,
    CustomKind,
    DataKind,
    ElementKind,
    ExternalKind,
    HeapKind,
    Opcode,
    RelocationKind,
    SymbolFlags,
    SymbolKind,
    TypeKind,
)


@dataclasses.dataclass(frozen=True)
class Section:
    """A section of a module.

    `id` is the id of the section, a `SectionId` if it is known. `start` and `end` are the offsets of the content, in bytes from the start of
    the stream. `count` is the announced number of items or bodies, or `None`. `name` is the name of a custom section, otherwise `None`.

    >>> from pulleynavy import Module
    >>> Module(b"\\0asm\\1\\0\\0\\0\\5\\3\\1\\0\\2").sections
    [Section(id=5, start=10, end=13, count=1, name=None)]
    """

    id: int
    start: int
    end: int
    count: int | None
    name: str | None = None

    @property
    def size(self) -> int:
        """The size of the content in bytes.

        >>> Section(3, 10, 12, 1).size
        2
        """
        return self.end - self.start


# ---- types


@dataclasses.dataclass(frozen=True)
class ValueType:
    """A value type: a number type, a vector type or a reference, or in a field a packed integer. Its text is that of the text format.

    Of a reference, `nullable` says whether it may be null, and `heap` is the type of what it refers to. If that is `HeapKind.CONCRETE`, it is
    the type with this `index`.

    >>> print(ValueType(TypeKind.REF, True, HeapKind.FUNC), ValueType(TypeKind.I32))
    (ref null func) i32
    """

    kind: TypeKind
    nullable: bool = False
    heap: HeapKind | None = None
    index: int | None = None

    def __str__(self) -> str:
        if self.heap is None:
            return self.kind.name.lower()
        heap = self.heap.name.lower().replace("_", "") if self.index is None else str(self.index)
        return f"(ref {'null ' if self.nullable else ''}{heap})"


@dataclasses.dataclass(frozen=True)
class FunctionType:
    """A function type: the types of the parameters and of the results.

    >>> print(FunctionType((ValueType(TypeKind.I32),), ()))
    (i32) -> ()
    """

    parameters: tuple[ValueType, ...]
    results: tuple[ValueType, ...]

    def __str__(self) -> str:
        parameters, results = (", ".join(map(str, types)) for types in (self.parameters, self.results))
        return f"({parameters}) -> ({results})"


@dataclasses.dataclass(frozen=True)
class Field:
    """A field of a structure, or the elements of an array: the type, and whether it is mutable."""

    type: ValueType
    mutable: bool


@dataclasses.dataclass(frozen=True)
class StructType:
    """A structure type."""

    fields: tuple[Field, ...]


@dataclasses.dataclass(frozen=True)
class ArrayType:
    """An array type."""

    element: Field


@dataclasses.dataclass(frozen=True)
class SubType:
    """A type of a module: what it is, whether no type may extend it, and the index of the type that it extends, or `None`."""

    type: FunctionType | StructType | ArrayType
    final: bool = True
    supertype: int | None = None


@dataclasses.dataclass(frozen=True)
class TypeGroup:
    """A recursive group of types. A single type that is not encoded as a group is a group of one that is not `explicit`."""

    types: tuple[SubType, ...]
    explicit: bool


@dataclasses.dataclass(frozen=True)
class Limits:
    """The limits of a table, in elements, or of a memory, in pages.

    `maximum` is `None` without a maximum. `is_64` says whether indices or addresses have 64 bits, and `shared` whether threads share it.
    """

    initial: int
    maximum: int | None
    is_64: bool
    shared: bool


# ---- expressions


class Instruction(NamedTuple):
    """An instruction of a constant expression. Operands that it lacks are `None`.

    `index` is that of a global, a function or a type. `heap` is the type of a null reference. `size` is the number of elements of
    `ARRAY_NEW_FIXED`. `integer` is the value of `I32_CONST` or `I64_CONST`, `bits` are those of `F32_CONST` or `F64_CONST`, and `vector` are
    the bytes of `V128_CONST`.
    """

    opcode: Opcode
    index: int | None = None  # type: ignore[assignment]  # in place of tuple.index
    heap: HeapKind | None = None
    size: int | None = None
    integer: int | None = None
    bits: int | None = None
    vector: bytes | None = None


_ARRAYS = (Opcode.ARRAY_NEW, Opcode.ARRAY_NEW_DEFAULT, Opcode.ARRAY_NEW_FIXED)
_INDEXED = (Opcode.GLOBAL_GET, Opcode.REF_FUNC, Opcode.STRUCT_NEW, Opcode.STRUCT_NEW_DEFAULT, *_ARRAYS)


def _instruction(one: Any, raw: bytes) -> Instruction:
    opcode = Opcode(one.opcode)
    if opcode in _INDEXED:
        return Instruction(opcode, one.index, size=one.count if opcode is Opcode.ARRAY_NEW_FIXED else None)
    if opcode is Opcode.REF_NULL:
        return Instruction(opcode, one.index if one.heap == HeapKind.CONCRETE else None, HeapKind(one.heap))
    if opcode in (Opcode.I32_CONST, Opcode.I64_CONST):
        return Instruction(opcode, integer=one.integer)
    if opcode in (Opcode.F32_CONST, Opcode.F64_CONST):
        return Instruction(opcode, bits=one.bits)
    return Instruction(opcode, vector=raw if opcode is Opcode.V128_CONST else None)


@dataclasses.dataclass(frozen=True)
class Expression:
    """A constant expression: the offset of its first byte in the stream, and its bytes, which end with the instruction `end`.

    >>> one, = Expression(100, b"\\x41\\5\\x0b").instructions
    >>> one.opcode.name, one.integer
    ('I32_CONST', 5)
    """

    start: int
    raw: bytes
    library: Any = dataclasses.field(default=None, repr=False, compare=False)

    def __reduce__(self) -> tuple[Any, ...]:
        return type(self), (self.start, self.raw)

    @property
    def end(self) -> int:
        """The offset after the last byte."""
        return self.start + len(self.raw)

    @functools.cached_property
    def instructions(self) -> tuple[Instruction, ...]:
        """The instructions without the `end`. Raises `ParseError` if `raw` is no constant expression."""
        cursor = Cursor(self.raw, self.start, library=self.library)
        found: list[Instruction] = []
        while True:
            at, one = cursor.position, cursor._read("instruction")
            if one.opcode == Opcode.END:
                return tuple(found)
            found.append(_instruction(one, self.raw[at + one.bytes.at : at + one.bytes.at + one.bytes.size]))


# ---- items of sections


@dataclasses.dataclass(frozen=True)
class Table:
    """A table: the type of its elements, its limits in elements, and the expression of its first elements, or `None`."""

    element: ValueType
    limits: Limits
    initial: Expression | None = None


@dataclasses.dataclass(frozen=True)
class Memory:
    """A memory: its limits in pages, and the base-2 logarithm of the page size in bytes.

    If `page_size_log2` is `None`, a page has 65,536 bytes.

    >>> from pulleynavy import Module
    >>> Module(b"\\0asm\\1\\0\\0\\0\\5\\3\\1\\0\\2").memories[0].limits.initial
    2
    """

    limits: Limits
    page_size_log2: int | None


@dataclasses.dataclass(frozen=True)
class Global:
    """A global: the type of its value, whether it is mutable and shared, and the expression of its first value, `None` if it is imported."""

    content: ValueType
    mutable: bool
    shared: bool
    initial: Expression | None = None


class Import(NamedTuple):
    """An import: the names of the module and of the import in it, its kind and its type.

    `type` is the type index of a function or a tag, or the `Table`, `Memory` or `Global`.
    """

    module: str
    name: str
    kind: ExternalKind
    type: int | Table | Memory | Global


class Export(NamedTuple):
    """An export: its name, its kind, and its index in the index space of the kind."""

    name: str
    kind: ExternalKind
    index: int  # type: ignore[assignment]  # in place of tuple.index


class Element(NamedTuple):
    """An element segment: its kind, the index of the table of an active segment, and the number of its elements.

    `table` is `None` if no index is encoded: the segment is then for table 0, or not active. `offset` is the expression of an active
    segment's place in the table. The elements are indices of `functions`, or `expressions` of the type `type`; what it lacks is `None`.
    """

    kind: ElementKind
    table: int | None
    count: int  # type: ignore[assignment]  # in place of tuple.count
    offset: Expression | None = None
    functions: tuple[int, ...] | None = None
    expressions: tuple[Expression, ...] | None = None
    type: ValueType | None = None


class Data(NamedTuple):
    """A data segment: its kind, the index of the memory of an active segment, its bytes, and the expression of its address if it is active."""

    kind: DataKind
    memory: int | None
    contents: bytes
    offset: Expression | None = None


@dataclasses.dataclass(frozen=True)
class CustomSection:
    """A custom section: its name, its kind by this name, its data, and the offset of the data in bytes from the start of the stream.

    Read the lists of a section with `Items`, or with the properties of `Module`.

    >>> from pulleynavy import Module
    >>> Module(b"\\0asm\\1\\0\\0\\0\\0\\3\\1a\\7").custom_sections
    [CustomSection(name='a', kind=<CustomKind.UNKNOWN: 0>, data=b'\\x07', offset=12)]
    """

    name: str
    kind: CustomKind
    data: bytes
    offset: int


# ---- custom sections


class Producer(NamedTuple):
    """A language or a tool that made a module, and its version."""

    name: str
    version: str


class TargetFeature(NamedTuple):
    """A feature of a target: `+` and its name if the module uses it, `-` if no linked module may use it. Other prefixes are kept."""

    prefix: str
    name: str


class BranchHint(NamedTuple):
    """Whether a branch is likely taken. `offset` is that of the instruction, in bytes from the start of the function body."""

    offset: int
    taken: bool


class DylinkMemory(NamedTuple):
    """What a dynamic library needs: sizes of memory in bytes and of the table in elements, and base-2 logarithms of alignments."""

    memory_size: int
    memory_alignment: int
    table_size: int
    table_alignment: int


class DylinkExport(NamedTuple):
    """An export of a dynamic library, with its flags as a symbol."""

    name: str
    flags: SymbolFlags


class DylinkImport(NamedTuple):
    """An import of a dynamic library, with its flags as a symbol."""

    module: str
    name: str
    flags: SymbolFlags


@dataclasses.dataclass(frozen=True)
class Dylink:
    """The section `dylink.0` of a dynamic library (tool-conventions, DynamicLinking)."""

    memory: DylinkMemory | None = None
    needed: tuple[str, ...] = ()
    exports: tuple[DylinkExport, ...] = ()
    imports: tuple[DylinkImport, ...] = ()
    runtime_path: tuple[str, ...] = ()
    target_arch: str | None = None


class LinkingSegment(NamedTuple):
    """A data segment for linkers: its name, the base-2 logarithm of its alignment, and its flags, as `SegmentFlags` has them."""

    name: str
    alignment: int
    flags: int


class InitFunction(NamedTuple):
    """A function that runs first: its priority, and the index of its symbol."""

    priority: int
    symbol: int


class ComdatSymbol(NamedTuple):
    """A part of a group of sections: its kind, and its index in the index space of the kind."""

    kind: ComdatKind
    index: int  # type: ignore[assignment]  # in place of tuple.index


class Comdat(NamedTuple):
    """A group of parts of which a linker keeps one."""

    name: str
    flags: int
    symbols: tuple[ComdatSymbol, ...]


class Symbol(NamedTuple):
    """A symbol of an object file.

    `index` is that of the function, global, section, tag or table, or of the data segment of a defined data symbol. `name` is `None` if the
    import has it. `data_offset` and `data_size` are those of a defined data symbol, in bytes from the start of its segment.
    """

    kind: SymbolKind
    flags: SymbolFlags
    index: int  # type: ignore[assignment]  # in place of tuple.index
    name: str | None
    data_offset: int | None
    data_size: int | None


class Relocation(NamedTuple):
    """A place that a linker patches: `extent` bytes at `offset` of the section's content, with the symbol or type of this index.

    `addend` is added to the value, and 0 for the kinds without one.
    """

    kind: RelocationKind
    offset: int
    index: int  # type: ignore[assignment]  # in place of tuple.index
    addend: int
    extent: int


@dataclasses.dataclass(frozen=True)
class Relocations:
    """The relocations of a section: the index of the section among all sections, and the places to patch in it."""

    section: int
    relocations: tuple[Relocation, ...]


@dataclasses.dataclass(frozen=True)
class Linking:
    """The section `linking` of an object file (tool-conventions, Linking)."""

    segments: tuple[LinkingSegment, ...] = ()
    init_functions: tuple[InitFunction, ...] = ()
    comdats: tuple[Comdat, ...] = ()
    symbols: tuple[Symbol, ...] = ()
    target_arch: str | None = None


# ---- core dumps


class CoreValue(NamedTuple):
    """A value of a core dump: an integer, the bits of a float, or `None` if it is missing."""

    kind: CoreValueKind
    value: int | None


@dataclasses.dataclass(frozen=True)
class CoreInstance:
    """An instance: the indices of its module, of its memories and of its globals."""

    module: int
    memories: tuple[int, ...]
    globals: tuple[int, ...]


@dataclasses.dataclass(frozen=True)
class CoreFrame:
    """A frame: the indices of its instance and function, the offset of its instruction in the body, and its values."""

    instance: int
    function: int
    code_offset: int
    locals: tuple[CoreValue, ...]
    stack: tuple[CoreValue, ...]


@dataclasses.dataclass(frozen=True)
class CoreStack:
    """The stack of a thread: its name and its frames."""

    name: str
    frames: tuple[CoreFrame, ...]
