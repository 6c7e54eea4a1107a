"""A module in memory: its sections and their items."""
# SPDX-License-Identifier: Apache-2.0 OR MIT
from __future__ import annotations

import functools
import io
import os
from typing import TYPE_CHECKING, Any, BinaryIO, Callable, Iterator, TypeVar

from ._customs import Names, check_custom, dylink, exhaust, linking
from ._events import Event, binary, events
from ._items import Items
from ._library import ALL_FEATURES, bytes_of, load
from ._values import (
    BranchHint,
    CoreInstance,
    CoreStack,
    CustomSection,
    Data,
    Dylink,
    Element,
    Export,
    FunctionType,
    Global,
    Import,
    Linking,
    Memory,
    Producer,
    Relocations,
    Section,
    SubType,
    Symbol,
    Table,
    TargetFeature,
    TypeGroup,
)
from .declared import CustomKind, EventKind, ExternalKind, SectionId

if TYPE_CHECKING:
    from _typeshed import ReadableBuffer

Key = TypeVar("Key")
Value = TypeVar("Value")

class Module:
    """A module in memory, as `bytes`, a `bytearray`, a `memoryview`, an `mmap` or another buffer. It can be pickled and copied.

    The framing is parsed at once. The items of a section are read when you first access them, and kept; a malformed item raises `ParseError` then.
    `features` is a sum of `MEMORY64` and `COMPACT_IMPORTS`, and `library` a library that `load` returned. Raises `ParseError` at the first fault of
    the framing.

    >>> module = Module(b"\\0asm\\1\\0\\0\\0\\7\\5\\1\\1a\\0\\0")
    >>> module.exports
    [Export(name='a', kind=<ExternalKind.FUNC: 0>, index=0)]
    """

    def __init__(self, stream: ReadableBuffer, features: int = ALL_FEATURES, library: Any = None) -> None:
        self._library, self._features, given = library or load(), features, bytes_of(stream)
        self._events = list(events(io.BytesIO(given), max(1, len(given)), features, self._library))

    def __repr__(self) -> str:
        last, count = self._events[-1], len(self.sections)
        return f"<Module: {last.start} bytes, {count} section{'' if count == 1 else 's'}>"

    def __reduce__(self) -> tuple[Any, ...]:
        return type(self), (b"".join(event.raw for event in self._events), self._features)

    @classmethod
    def read(cls, file: BinaryIO | str | os.PathLike[str], features: int = ALL_FEATURES) -> Module:
        """Reads a whole file: a path, or a file that was opened in binary mode.

        Raises `ParseError` at the first fault of the framing; `TypeError` if the file was opened in text mode, or if `file` is the bytes of a module,
        for which you call `Module`; `BlockingIOError` if the file is non-blocking and not all of its bytes have arrived; and `OSError` if a path
        can't be read.

        >>> Module.read(io.BytesIO(b"\\0asm\\1\\0\\0\\0")).sections
        []
        """
        if isinstance(file, (bytes, bytearray, memoryview)):
            raise TypeError("read takes a path or a file: call Module(stream) for the bytes of a module")
        if isinstance(file, (str, os.PathLike)):
            with open(file, "rb") as opened:
                return cls(opened.read(), features)
        # A non-blocking file may return a part of its bytes: its end is where it returns none.
        read = file.read
        return cls(b"".join(iter(lambda: binary(read()), b"")), features)

    def check(self) -> None:
        """Reads the items of all sections and of the known custom sections, in their order.

        Raises the `ParseError` of the first malformed item. Nothing is validated.

        >>> Module(b"\\0asm\\1\\0\\0\\0").check()
        """
        for event in self._events:
            check_event(event, self._features, self._library)

    def _lists(self, number: int) -> Iterator[Items]:
        """The items of each section with this id."""
        for event in self._events:
            if event.kind is EventKind.SECTION and event.id == number:
                yield _list(event, self._features, self._library)

    @functools.cached_property
    def is_component(self) -> bool:
        """Whether the header is that of a component, whose sections are not decoded.

        >>> Module(b"\\0asm\\x0d\\0\\1\\0").is_component
        True
        """
        return bool(self._events[0].id)

    @functools.cached_property
    def sections(self) -> list[Section]:
        """The sections of the module, in order.

        >>> [section.id for section in Module(b"\\0asm\\1\\0\\0\\0\\1\\1\\0").sections]
        [1]
        """
        return [section for event in self._events for section in _section(event)]

    @functools.cached_property
    def type_groups(self) -> list[TypeGroup]:
        """The recursive groups of types, in order."""
        return [group for items in self._lists(SectionId.TYPE) for group in items.type_groups()]

    @functools.cached_property
    def types(self) -> list[SubType]:
        """The types of all groups, in the order of their indices.

        >>> print(Module(b"\\0asm\\1\\0\\0\\0\\1\\6\\1\\x60\\1\\x7f\\1\\x7e").types[0].type)
        (i32) -> (i64)
        """
        return [one for group in self.type_groups for one in group.types]

    def function_type(self, index: int) -> FunctionType:
        """Returns the type of the function with this index, imported or defined.

        Raises `IndexError` if there is no such function, or if its type index is that of no type; and `TypeError` if that type is no function
        type. No valid module has such a type index.

        >>> types, functions = b"\\1\\6\\1\\x60\\1\\x7f\\1\\x7e", b"\\3\\2\\1\\0\\x0a\\4\\1\\2\\0\\x0b"
        >>> print(Module(b"\\0asm\\1\\0\\0\\0" + types + functions).function_type(0))
        (i32) -> (i64)
        """
        number = self._functions[self._known(index)]
        if number >= len(self.types):
            raise IndexError(f"function {index} has type {number}: there are {len(self.types)} types")
        found = self.types[number].type
        if not isinstance(found, FunctionType):
            raise TypeError(f"type {number} of function {index} is no function type")
        return found

    def function_body(self, index: int) -> range | None:
        """Returns the offsets of the body of the function with this index, or `None` if the function is imported.

        Raises `IndexError` if there is no such function.

        >>> Module(b"\\0asm\\1\\0\\0\\0\\3\\2\\1\\0\\x0a\\4\\1\\2\\0\\x0b").function_body(0)
        range(16, 18)
        """
        imported = len(self._functions) - len(self.functions)
        return self.bodies[index - imported] if self._known(index) >= imported else None

    def _known(self, index: int) -> int:
        """The index of a function. Raises `IndexError` if there is no such function."""
        if not 0 <= index < len(self._functions):
            raise IndexError(f"there is no function {index}: there are {len(self._functions)}")
        return index

    @functools.cached_property
    def _functions(self) -> list[int]:
        """The type index of each function, imported or defined."""
        kinds = (ExternalKind.FUNC, ExternalKind.FUNC_EXACT)
        return [one.type for one in self.imports if one.kind in kinds and isinstance(one.type, int)] + self.functions

    @functools.cached_property
    def imports(self) -> list[Import]:
        """The imports, including those of bundles.

        >>> one, = Module(b"\\0asm\\1\\0\\0\\0\\2\\7\\1\\1m\\1f\\0\\5").imports
        >>> one.module, one.name, one.kind.name, one.type
        ('m', 'f', 'FUNC', 5)
        """
        return [one for items in self._lists(SectionId.IMPORT) for one in items.imports()]

    @functools.cached_property
    def functions(self) -> list[int]:
        """The type index of each function that the module defines. Imported functions come before them in the index space: see `function_type`.

        >>> Module(b"\\0asm\\1\\0\\0\\0\\3\\2\\1\\7\\x0a\\4\\1\\2\\0\\x0b").functions
        [7]
        """
        return [one for items in self._lists(SectionId.FUNCTION) for one in items.numbers()]

    @functools.cached_property
    def tables(self) -> list[Table]:
        """The tables that the module defines.

        >>> Module(b"\\0asm\\1\\0\\0\\0\\4\\4\\1\\x70\\0\\5").tables[0].limits
        Limits(initial=5, maximum=None, is_64=False, shared=False)
        """
        return [one for items in self._lists(SectionId.TABLE) for one in items.tables()]

    @functools.cached_property
    def memories(self) -> list[Memory]:
        """The memories that the module defines.

        >>> Module(b"\\0asm\\1\\0\\0\\0\\5\\4\\1\\1\\1\\2").memories[0].limits.maximum
        2
        """
        return [one for items in self._lists(SectionId.MEMORY) for one in items.memories()]

    @functools.cached_property
    def globals(self) -> list[Global]:
        """The globals that the module defines, with the expressions of their values.

        >>> Module(b"\\0asm\\1\\0\\0\\0\\6\\6\\1\\x7f\\1\\x41\\5\\x0b").globals[0].mutable
        True
        """
        return [one for items in self._lists(SectionId.GLOBAL) for one in items.globals()]

    @functools.cached_property
    def tags(self) -> list[int]:
        """The index of the function type of each tag that the module defines.

        >>> Module(b"\\0asm\\1\\0\\0\\0\\x0d\\3\\1\\0\\7").tags
        [7]
        """
        return [one for items in self._lists(SectionId.TAG) for one in items.tags()]

    @functools.cached_property
    def exports(self) -> list[Export]:
        """The exports.

        >>> [(one.name, one.index) for one in Module(b"\\0asm\\1\\0\\0\\0\\7\\5\\1\\1a\\0\\5").exports]
        [('a', 5)]
        """
        return [one for items in self._lists(SectionId.EXPORT) for one in items.exports()]

    @functools.cached_property
    def elements(self) -> list[Element]:
        """The element segments.

        >>> one, = Module(b"\\0asm\\1\\0\\0\\0\\x09\\7\\1\\0\\x41\\0\\x0b\\1\\5").elements
        >>> one.functions, one.offset.instructions[0].integer
        ((5,), 0)
        """
        return [one for items in self._lists(SectionId.ELEMENT) for one in items.elements()]

    @functools.cached_property
    def data(self) -> list[Data]:
        """The data segments.

        >>> Module(b"\\0asm\\1\\0\\0\\0\\x0b\\5\\1\\1\\2hi").data
        [Data(kind=<DataKind.PASSIVE: 0>, memory=None, contents=b'hi', offset=None)]
        """
        return [one for items in self._lists(SectionId.DATA) for one in items.data_segments()]

    @functools.cached_property
    def start(self) -> int | None:
        """The index of the start function, or `None`.

        >>> Module(b"\\0asm\\1\\0\\0\\0\\x08\\1\\5").start
        5
        """
        return next((event.count for event in self._events if event.kind is EventKind.START), None)

    @functools.cached_property
    def data_count(self) -> int | None:
        """The number of data segments that the data count section announces, or `None` without one.

        >>> Module(b"\\0asm\\1\\0\\0\\0\\x0c\\1\\0").data_count
        0
        """
        return next((event.count for event in self._events if event.kind is EventKind.DATA_COUNT), None)

    @functools.cached_property
    def bodies(self) -> list[range]:
        """The offsets of each function body, in bytes from the start of the stream.

        >>> Module(b"\\0asm\\1\\0\\0\\0\\3\\2\\1\\0\\x0a\\4\\1\\2\\0\\x0b").bodies
        [range(16, 18)]
        """
        return [range(event.start, event.end) for event in self._events if event.kind is EventKind.BODY]

    @functools.cached_property
    def custom_sections(self) -> list[CustomSection]:
        """The custom sections, in order.

        >>> [section.name for section in Module(b"\\0asm\\1\\0\\0\\0\\0\\2\\1a").custom_sections]
        ['a']
        """
        return [_custom(event, self._library) for event in self._events if event.kind is EventKind.CUSTOM]

    def _customs(self, kind: CustomKind) -> Iterator[Items]:
        """A cursor over the data of each custom section of this kind."""
        for section in self.custom_sections:
            if section.kind is kind:
                yield Items(section.data, section.offset, self._features, self._library)

    @functools.cached_property
    def names(self) -> Names:
        """The names of the module, of functions, locals and so on, empty without a section `name`.

        >>> Module(b"\\0asm\\1\\0\\0\\0\\0\\x0b\\4name\\1\\4\\1\\5\\1f").names.functions
        {5: 'f'}
        """
        sections = tuple([section for section in self.custom_sections if section.kind is CustomKind.NAME])
        return Names(sections, self._features, self._library)

    @functools.cached_property
    def producers(self) -> dict[str, tuple[Producer, ...]]:
        """The fields of the section `producers`: `language`, `processed-by` and `sdk`, each with its values.

        >>> section = b"\\0\\x14\\x09producers\\1\\3sdk\\1\\1e\\1" + b"4"
        >>> Module(b"\\0asm\\1\\0\\0\\0" + section).producers
        {'sdk': (Producer(name='e', version='4'),)}
        """
        return _merged(field for items in self._customs(CustomKind.PRODUCERS) for field in items.counted().producers())

    @functools.cached_property
    def target_features(self) -> list[TargetFeature]:
        """The features that the module uses, from the section `target_features`."""
        sections = [one for one in self.custom_sections if one.name == "target_features"]
        lists = [Items(one.data, one.offset, self._features, self._library) for one in sections]
        return [feature for items in lists for feature in items.counted().target_features()]

    @functools.cached_property
    def linking(self) -> Linking | None:
        """The section `linking` of an object file, or `None`: symbols, segments, functions that run first, groups."""
        return linking(list(self._customs(CustomKind.LINKING)))

    @functools.cached_property
    def symbols(self) -> tuple[Symbol, ...]:
        """The symbols of an object file, in the order of their indices."""
        return self.linking.symbols if self.linking else ()

    @functools.cached_property
    def relocations(self) -> list[Relocations]:
        """The relocations of an object file, section by section: `sections[one.section]` is the one that each patches."""
        lists = self._customs(CustomKind.RELOC)
        return [Relocations(items.read_number(), tuple(items.counted().relocations())) for items in lists]

    @functools.cached_property
    def dylink(self) -> Dylink | None:
        """The section `dylink.0` of a dynamic library, or `None`."""
        return dylink(list(self._customs(CustomKind.DYLINK0)))

    @functools.cached_property
    def branch_hints(self) -> dict[int, tuple[BranchHint, ...]]:
        """The branch hints of each function, by its index."""
        return _merged(one for items in self._customs(CustomKind.BRANCH_HINTS) for one in items.counted().branch_hints())

    @functools.cached_property
    def core_process(self) -> str | None:
        """The name of the process of a core dump, or `None`."""
        return next((items.read_core_process() for items in self._customs(CustomKind.CORE)), None)

    @functools.cached_property
    def core_modules(self) -> list[str]:
        """The names of the modules of a core dump."""
        return [name for items in self._customs(CustomKind.CORE_MODULES) for name in items.read_core_modules()]

    @functools.cached_property
    def core_instances(self) -> list[CoreInstance]:
        """The instances of a core dump."""
        return [one for items in self._customs(CustomKind.CORE_INSTANCES) for one in items.read_core_instances()]

    @functools.cached_property
    def core_stacks(self) -> list[CoreStack]:
        """The stacks of the threads of a core dump."""
        return [items.read_core_stack() for items in self._customs(CustomKind.CORE_STACK)]


def _list(event: Event, features: int, library: Any) -> Items:
    """The items of a section."""
    return Items(event.content, event.start, features, library).skip(event.data_offset - event.start, event.count)


def _custom(event: Event, library: Any) -> CustomSection:
    name = event.name.encode()
    kind = CustomKind(library.pulleynavy_classify_custom(name, len(name)))
    return CustomSection(event.name, kind, event.data, event.data_offset)


# What reads the items of each section.
_ITEMS: dict[int, Callable[[Items], Iterator[Any]]] = {
    SectionId.TYPE: Items.type_groups,
    SectionId.IMPORT: Items.imports,
    SectionId.FUNCTION: Items.numbers,
    SectionId.TABLE: Items.tables,
    SectionId.MEMORY: Items.memories,
    SectionId.GLOBAL: Items.globals,
    SectionId.EXPORT: Items.exports,
    SectionId.ELEMENT: Items.elements,
    SectionId.DATA: Items.data_segments,
    SectionId.TAG: Items.tags,
}


def check_event(event: Event, features: int, library: Any) -> None:
    """Reads the items of a section, or the data of a known custom section. Raises the `ParseError` of the first malformed item."""
    if event.kind is EventKind.SECTION:
        exhaust(_ITEMS[event.id](_list(event, features, library)))
    elif event.kind is EventKind.CUSTOM:
        check_custom(_custom(event, library), features, library)


def _merged(pairs: Iterator[tuple[Key, tuple[Value, ...]]]) -> dict[Key, tuple[Value, ...]]:
    """The values by their keys. Those of a key that comes twice are together."""
    found: dict[Key, tuple[Value, ...]] = {}
    for key, values in pairs:
        found[key] = found.get(key, ()) + values
    return found


def _section(event: Event) -> Iterator[Section]:
    if event.kind is EventKind.SECTION:
        yield Section(event.id, event.start, event.end, event.count)
    elif event.kind is EventKind.CUSTOM:
        yield Section(SectionId.CUSTOM, event.start, event.end, None, event.name)
    elif event.kind is EventKind.CODE:
        yield Section(SectionId.CODE, event.start, event.end, event.count)
    elif event.kind is EventKind.START:
        yield Section(SectionId.START, event.start, event.end, None)
    elif event.kind is EventKind.DATA_COUNT:
        yield Section(SectionId.DATA_COUNT, event.start, event.end, None)
    elif event.kind is EventKind.UNKNOWN:
        yield Section(event.id, event.start, event.end, None)
