"""The readers of items and of custom sections."""
# SPDX-License-Identifier: Apache-2.0 OR MIT
from __future__ import annotations

import warnings
from typing import Any, Iterator, NamedTuple

from ._cursor import Cursor, fields
from ._values import (
    ArrayType,
    BranchHint,
    Comdat,
    ComdatSymbol,
    CoreFrame,
    CoreInstance,
    CoreStack,
    CoreValue,
    Data,
    DylinkExport,
    DylinkImport,
    DylinkMemory,
    Element,
    Export,
    Expression,
    Field,
    FunctionType,
    Global,
    Import,
    InitFunction,
    Limits,
    LinkingSegment,
    Memory,
    Producer,
    Relocation,
    StructType,
    SubType,
    Symbol,
    Table,
    TargetFeature,
    TypeGroup,
    ValueType,
)
from .declared import (
    ComdatKind,
    CompositeKind,
    CoreValueKind,
    DataKind,
    ElementKind,
    ExternalKind,
    HeapKind,
    RelocationKind,
    SymbolFlags,
    SymbolKind,
    TypeKind,
)


class Subsection(NamedTuple):
    """A subsection of a custom section: its id, and a cursor over its contents."""

    id: int
    items: Items


class _Texts(bytes):
    """Bytes whose slices are texts."""

    def __getitem__(self, part: Any) -> Any:
        return super().__getitem__(part).decode()


def _text(data: bytes) -> Any:
    """What has the texts of a section as its slices. A section in ASCII is decoded at once, which makes its slices twice as fast."""
    return data.decode("ascii") if data.isascii() else _Texts(data)


def _value_type(ty: Any) -> ValueType:
    kind = TypeKind(ty.kind)
    if kind is not TypeKind.REF:
        return ValueType(kind)
    heap = HeapKind(ty.heap)
    return ValueType(kind, bool(ty.nullable), heap, ty.index if heap is HeapKind.CONCRETE else None)


def _limits(ty: Any, is_64: int) -> Limits:
    return Limits(ty.initial, ty.maximum if ty.has_maximum else None, bool(is_64), bool(ty.shared))


def _table(ty: Any, initial: Expression | None = None) -> Table:
    return Table(_value_type(ty.element), _limits(ty, ty.table64), initial)


def _memory(ty: Any) -> Memory:
    return Memory(_limits(ty, ty.memory64), ty.page_size_log2 if ty.has_page_size else None)


def _global(ty: Any, initial: Expression | None = None) -> Global:
    return Global(_value_type(ty.content), bool(ty.is_mutable), bool(ty.shared), initial)


def _imported(ty: Any) -> Table | Memory | Global:
    """The type of a table, a memory or a global."""
    if ty.kind == ExternalKind.TABLE:
        return _table(ty.table)
    return _memory(ty.memory) if ty.kind == ExternalKind.MEMORY else _global(getattr(ty, "global"))


# The fields that are read of items that modules have by the thousand, and the kinds by their numbers.
_NUMBER = fields("Number", "value")
_IMPORT = fields("Import", "module_name.at", "module_name.size", "name.at", "name.size", "ty.kind", "ty.index")
_EXPORT = fields("Export", "name.at", "name.size", "kind", "index")
_DATA = fields("Data", "kind", "memory", "offset_expression.at", "offset_expression.size", "bytes.at", "bytes.size")
_NAMING = fields("Naming", "index", "name.at", "name.size")
_RELOCATION = fields("Relocation", "kind", "extent", "offset", "index", "addend")
_EXTERNAL_KINDS, _DATA_KINDS, _RELOCATION_KINDS = tuple(ExternalKind), tuple(DataKind), tuple(RelocationKind)


class Items(Cursor):
    """A cursor over the lists of a section, whose `data` begins at `offset` of the stream, in bytes.

    Move to the items of a list with `counted` or `skip`. The methods that iterate over items raise the `ParseError` of a malformed item after
    the items before it, and that of bytes after the last item. The methods `read_` read a single item and move past it.

    >>> items = Items(b"\\2\\5\\1a\\7\\1b", 100)
    >>> dict(items.counted().namings())
    {5: 'a', 7: 'b'}
    """

    def all(self, call: str) -> Iterator[Any]:
        """Yields the structs of a list. Deprecated: call the method for the items, which have types."""
        warnings.warn("all() is deprecated: call the method of Items for the list", DeprecationWarning, stacklevel=2)
        return self._all(call)

    def read(self, call: str) -> Any:
        """Reads a struct; its spans count from its first byte. Deprecated: call a method `read_`, which has a type."""
        warnings.warn("read() is deprecated: call a method read_ of Items", DeprecationWarning, stacklevel=2)
        return self._read(call)

    def _expression(self, span: Any) -> Expression:
        return self._expression_at(span.at, span.size)

    def _expression_at(self, at: int, size: int) -> Expression:
        return Expression(self.offset + at, self.data[at : at + size], self.library)

    # ---- sections of modules

    def numbers(self) -> Iterator[int]:
        """Yields u32 numbers, such as the type indices of a function section.

        >>> list(Items(b"\\2\\5\\7", 100).counted().numbers())
        [5, 7]
        """
        return (value for value, in self._rows("numbers", _NUMBER))

    def type_groups(self) -> Iterator[TypeGroup]:
        """Yields the groups of a type section.

        >>> group, = Items(b"\\1\\x60\\1\\x7f\\1\\x7e", 100).counted().type_groups()
        >>> print(group.types[0].type)
        (i32) -> (i64)
        """
        for _ in range(self._cursor.remaining):
            head = self._read("type_group")
            yield TypeGroup(tuple([self._subtype() for _ in range(head.count)]), bool(head.is_explicit))
        self._end()

    def _subtype(self) -> SubType:
        head = self._read("subtype")
        return SubType(self._composite(head.kind, head.count), bool(head.is_final), head.supertype if head.has_supertype else None)

    def _composite(self, kind: int, count: int) -> FunctionType | StructType | ArrayType:
        if kind == CompositeKind.FUNC:
            parameters = self._value_types(count)
            return FunctionType(parameters, self._value_types(self.read_number()))
        found = tuple([Field(_value_type(one.ty), bool(one.is_mutable)) for one in self._some("field_types", count)])
        return StructType(found) if kind == CompositeKind.STRUCT else ArrayType(found[0])

    def _value_types(self, count: int) -> tuple[ValueType, ...]:
        return tuple([_value_type(one.ty) for one in self._some("value_types", count)])

    def imports(self) -> Iterator[Import]:
        """Yields the imports of an import section, including those of bundles.

        >>> one, = Items(b"\\1\\1m\\1f\\0\\5", 100).counted().imports()
        >>> one.module, one.name, one.type
        ('m', 'f', 5)
        """
        indexed, text = (ExternalKind.FUNC, ExternalKind.TAG, ExternalKind.FUNC_EXACT), _text(self.data)
        for room, rows in self._imports(_IMPORT):
            for at, (module, module_size, name, size, number, index) in enumerate(rows):
                kind = _EXTERNAL_KINDS[number]
                type = index if kind in indexed else _imported(room[at].ty)
                yield Import(text[module : module + module_size], text[name : name + size], kind, type)

    def tables(self) -> Iterator[Table]:
        """Yields the tables of a table section."""
        return (_table(one.ty, self._expression(one.init) if one.has_init else None) for one in self._all("tables"))

    def memories(self) -> Iterator[Memory]:
        """Yields the memories of a memory section."""
        return (_memory(one.ty) for one in self._all("memories"))

    def globals(self) -> Iterator[Global]:
        """Yields the globals of a global section."""
        return (_global(one.ty, self._expression(one.init)) for one in self._all("globals"))

    def tags(self) -> Iterator[int]:
        """Yields the type index of each tag of a tag section."""
        return (one.func_type_index for one in self._all("tags"))

    def exports(self) -> Iterator[Export]:
        """Yields the exports of an export section.

        >>> list(Items(b"\\1\\1a\\0\\5", 100).counted().exports())
        [Export(name='a', kind=<ExternalKind.FUNC: 0>, index=5)]
        """
        new, text = tuple.__new__, _text(self.data)
        return (
            new(Export, (text[at : at + size], _EXTERNAL_KINDS[kind], index))
            for at, size, kind, index in self._rows("exports", _EXPORT)
        )

    def elements(self) -> Iterator[Element]:
        """Yields the segments of an element section."""
        return (self._element(one) for one in self._all("elements"))

    def _element(self, one: Any) -> Element:
        table, items = one.table if one.has_table else None, self.part(one.items, one.count)
        offset = self._expression(one.offset_expression) if one.kind == ElementKind.ACTIVE else None
        head = ElementKind(one.kind), table, one.count, offset
        if not one.has_expressions:
            return Element(*head, functions=tuple([value for value, in items._rows("numbers", _NUMBER)]))
        return Element(*head, expressions=tuple(items._expressions()), type=_value_type(one.ty))

    def _expressions(self) -> Iterator[Expression]:
        at = self.position
        for one in self._all("expressions"):
            yield self._expression_at(at, one.consumed)
            at += one.consumed

    def data_segments(self) -> Iterator[Data]:
        """Yields the segments of a data section.

        >>> list(Items(b"\\1\\1\\2hi", 100).counted().data_segments())
        [Data(kind=<DataKind.PASSIVE: 0>, memory=None, contents=b'hi', offset=None)]
        """
        data = self.data
        for kind, memory, offset, offset_size, at, size in self._rows("data", _DATA):
            if kind == DataKind.ACTIVE:
                yield Data(DataKind.ACTIVE, memory, data[at : at + size], self._expression_at(offset, offset_size))
            else:
                yield Data(DataKind.PASSIVE, None, data[at : at + size])

    # ---- numbers, names and subsections

    def read_number(self) -> int:
        """Reads a u32.

        >>> Items(b"\\x80\\1", 100).read_number()
        128
        """
        return int(self._read("number").value)

    def read_name(self) -> str:
        """Reads a name of at most 100,000 bytes.

        >>> Items(b"\\1a", 100).read_name()
        'a'
        """
        return self._text_of("name")

    def read_text(self) -> str:
        """Reads a name of any size."""
        return self._text_of("text")

    def _names(self, count: int) -> tuple[str, ...]:
        return tuple([self.text(one.name) for one in self._some("texts", count)])

    def namings(self) -> Iterator[tuple[int, str]]:
        """Yields the indices of a name map, which ascend, each with its name."""
        text = _text(self.data)
        return ((index, text[at : at + size]) for index, at, size in self._rows("namings", _NAMING))

    def indirect_namings(self) -> Iterator[tuple[int, dict[int, str]]]:
        """Yields the indices of an indirect name map, which ascend, each with the names of its parts."""
        return ((one.index, dict(self.part(one.names, one.count).namings())) for one in self._all("indirect_namings"))

    def subsections(self) -> Iterator[Subsection]:
        """Yields the subsections of the sections `linking` and `dylink.0`."""
        return (Subsection(one.id, self.part(one.contents)) for one in self._all("subsections"))

    def name_subsections(self) -> Iterator[Subsection]:
        """Yields the subsections of the section `name`, whose ids ascend."""
        return (Subsection(one.id, self.part(one.contents)) for one in self._all("name_subsections"))

    def check_name_end(self) -> None:
        """Raises `ParseError` if bytes remain after the name of a module, which was read.

        >>> items = Items(b"\\1m", 100)
        >>> items.read_name(), items.check_name_end()
        ('m', None)
        """
        self._check("name_end")

    # ---- other custom sections

    def producers(self) -> Iterator[tuple[str, tuple[Producer, ...]]]:
        """Yields the fields of the section `producers`, each with its values."""
        for field in self._all("producers_fields"):
            values = self.part(field.values, field.count)
            found = [Producer(values.text(one.name), values.text(one.version)) for one in values._all("producers_values")]
            yield self.text(field.name), tuple(found)

    def target_features(self) -> Iterator[TargetFeature]:
        """Yields the features of the section `target_features` (tool-conventions, Linking, Target Features Section).

        A prefix may be any byte.

        >>> list(Items(b"\\1+\\4simd", 100).counted().target_features())
        [TargetFeature(prefix='+', name='simd')]
        """
        return (TargetFeature(chr(one.prefix), self.text(one.name)) for one in self._all("target_features"))

    def branch_hints(self) -> Iterator[tuple[int, tuple[BranchHint, ...]]]:
        """Yields the functions of the section `metadata.code.branch_hint`, each with its hints."""
        for one in self._all("hinted_functions"):
            hints = self.part(one.hints, one.count)._all("branch_hints")
            yield one.func, tuple([BranchHint(hint.func_offset, bool(hint.taken)) for hint in hints])

    def read_dylink_memory(self) -> DylinkMemory:
        """Reads what a dynamic library needs of memory and of the table."""
        one = self._read("dylink_memory")
        return DylinkMemory(one.memory_size, one.memory_alignment, one.table_size, one.table_alignment)

    def read_dylink_exports(self) -> tuple[DylinkExport, ...]:
        """Reads a count and as many exports of a dynamic library."""
        found = self._some("dylink_exports", self.read_number())
        return tuple([DylinkExport(self.text(one.name), SymbolFlags(one.flags)) for one in found])

    def read_dylink_imports(self) -> tuple[DylinkImport, ...]:
        """Reads a count and as many imports of a dynamic library."""
        found = self._some("dylink_imports", self.read_number())
        return tuple([DylinkImport(self.text(one.module_name), self.text(one.field), SymbolFlags(one.flags)) for one in found])

    def read_texts(self) -> tuple[str, ...]:
        """Reads a count and as many names of any size."""
        return self._names(self.read_number())

    def read_linking_version(self) -> int:
        """Reads the version of the section `linking`. Raises `ParseError` if it is not 2."""
        return int(self._read("linking_version").value)

    def linking_segments(self) -> Iterator[LinkingSegment]:
        """Yields the data segments that a linker knows."""
        return (LinkingSegment(self.text(one.name), one.alignment, one.flags) for one in self._all("linking_segments"))

    def init_functions(self) -> Iterator[InitFunction]:
        """Yields the functions that run first."""
        return (InitFunction(one.priority, one.symbol) for one in self._all("init_functions"))

    def comdats(self) -> Iterator[Comdat]:
        """Yields the groups of parts of which a linker keeps one."""
        for one in self._all("comdats"):
            symbols = self.part(one.symbols, one.count)._all("comdat_symbols")
            found = [ComdatSymbol(ComdatKind(symbol.kind), symbol.index) for symbol in symbols]
            yield Comdat(self.text(one.name), one.flags, tuple(found))

    def symbols(self) -> Iterator[Symbol]:
        """Yields the symbols of a symbol table."""
        for one in self._all("symbols"):
            name = self.text(one.name) if one.has_name else None
            place = (one.data_offset, one.data_size) if one.is_defined else (None, None)
            yield Symbol(SymbolKind(one.kind), SymbolFlags(one.flags), one.index, name, *place)

    def relocations(self) -> Iterator[Relocation]:
        """Yields the relocations of a section."""
        return (
            Relocation(_RELOCATION_KINDS[kind], offset, index, addend, extent)
            for kind, extent, offset, index, addend in self._rows("relocations", _RELOCATION)
        )

    # ---- core dumps

    def read_core_process(self) -> str:
        """Reads the section `core`: the name of the process."""
        name = self._text_of("core_process")
        self._check("custom_end")
        return name

    def read_core_modules(self) -> tuple[str, ...]:
        """Reads the section `coremodules`: the names of the modules."""
        start = self.offset + self.position
        found = tuple([self._text_of("core_module", start) for _ in range(self.read_number())])
        self._check("custom_end")
        return found

    def read_core_instances(self) -> tuple[CoreInstance, ...]:
        """Reads the section `coreinstances`."""
        found = tuple([self._core_instance() for _ in range(self.read_number())])
        self._check("custom_end")
        return found

    def _core_instance(self) -> CoreInstance:
        module = self._read("core_instance").module_index
        memories = self._indices()
        return CoreInstance(module, memories, self._indices())

    def _indices(self) -> tuple[int, ...]:
        return tuple([one.value for one in self._some("numbers", self.read_number())])

    def read_core_stack(self) -> CoreStack:
        """Reads the section `corestack`: the frames of a thread."""
        name = self._text_of("core_thread")
        found = tuple([self._core_frame() for _ in range(self.read_number())])
        self._check("custom_end")
        return CoreStack(name, found)

    def _core_frame(self) -> CoreFrame:
        one = self._read("core_frame")
        locals = self._core_values()
        return CoreFrame(one.instance, one.func, one.code_offset, locals, self._core_values())

    def _core_values(self) -> tuple[CoreValue, ...]:
        return tuple([_core_value(one) for one in self._some("core_values", self.read_number())])


def _core_value(one: Any) -> CoreValue:
    kind = CoreValueKind(one.kind)
    if kind is CoreValueKind.MISSING:
        return CoreValue(kind, None)
    return CoreValue(kind, one.integer if kind in (CoreValueKind.I32, CoreValueKind.I64) else one.bits)
