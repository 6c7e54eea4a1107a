"""A cursor over the items of lists, which the library stores many at a time."""
# SPDX-License-Identifier: Apache-2.0 OR MIT
from __future__ import annotations

import ctypes
import functools
import itertools
import struct
from typing import TYPE_CHECKING, Any, Iterator, TypeVar

from . import declared
from ._library import ALL_FEATURES, bytes_of, fault_of, load

if TYPE_CHECKING:
    from _typeshed import ReadableBuffer

Self = TypeVar("Self", bound="Cursor")

# How many items a call stores: structs, and rows of their fields.
STRUCTS, ROWS = 64, 4096


@functools.lru_cache(maxsize=None)
def fields(name: str, *paths: str) -> struct.Struct:
    """What unpacks these fields of a struct of the library, which are in the order of their offsets."""
    of, format, at = getattr(declared, name), "<", 0
    for path in paths:
        offset, kind = _field(of, path)
        format += "%dx%s" % (offset - at, _code(kind))
        at = offset + ctypes.sizeof(kind)
    return struct.Struct(format + "%dx" % (ctypes.sizeof(of) - at))


def _field(of: Any, path: str) -> tuple[int, Any]:
    """The offset of a field and its type."""
    offset = 0
    for part in path.split("."):
        offset += getattr(of, part).offset
        of = dict(of._fields_)[part]
    return offset, of


def _code(kind: Any) -> str:
    code = {1: "b", 4: "i", 8: "q"}[ctypes.sizeof(kind)]
    return code if kind(-1).value < 0 else code.upper()


def _stored_by(call: str) -> Any:
    """The struct of the items that the call `pulleynavy_next_` with this name stores."""
    return declared.CALLS["pulleynavy_next_" + call][1][-2]._type_


class Cursor:
    """A cursor over lists in `data`, which begins at `offset` of the stream, in bytes. `Items` adds the readers.

    `call` is the rest of the name of a call of the C library: `_all("symbols")` is `pulleynavy_next_symbols`, and `_read("number")` is
    `pulleynavy_read_number`. The structs are those of the C header; their sizes and positions are in bytes.
    """

    def __init__(self, data: ReadableBuffer, offset: int, features: int = ALL_FEATURES, library: Any = None) -> None:
        self.library, self.data, self.offset, self.features = library or load(), bytes_of(data), offset, features
        self._held = ctypes.create_string_buffer(self.data, max(1, len(self.data)))
        self._cursor = self.library.pulleynavy_list_init(offset, 0, features)

    @property
    def position(self) -> int:
        """The position of the next item, in bytes from the start of `data`.

        >>> from pulleynavy import Items
        >>> items = Items(b"\\5\\7", 100)
        >>> items.read_number(), items.position
        (5, 1)
        """
        return int(self._cursor.position)

    @property
    def _remaining(self) -> int:
        return len(self.data) - self.position

    def skip(self: Self, size: int, count: int = 0) -> Self:
        """Moves past `size` bytes, to a list of `count` items, and returns itself.

        Raises `ValueError` if `size` is negative or more than remains, or if `count` is no u32.

        >>> from pulleynavy import Items
        >>> list(Items(b"\\xff\\5\\7", 100).skip(1, 2).numbers())
        [5, 7]
        """
        if not 0 <= size <= self._remaining or not 0 <= count < 1 << 32:
            raise ValueError(f"can't skip {size} bytes, to {count} items: {self._remaining} bytes remain")
        self._cursor.offset += size
        self._cursor.position += size
        self._cursor.remaining, self._cursor.has_last, self._cursor.is_ended = count, 0, 0
        return self

    def counted(self: Self) -> Self:
        """Reads a count and moves to the items after it, and returns itself. Raises `ParseError` if the count is malformed.

        >>> from pulleynavy import Items
        >>> list(Items(b"\\2\\5\\7", 100).counted().numbers())
        [5, 7]
        """
        return self.skip(0, self._read("number").value)

    def part(self: Self, span: Any, count: int = 0) -> Self:
        """Returns a cursor over the bytes of a span, such as the contents of a subsection, before `count` items.

        >>> from pulleynavy import Items
        >>> items = Items(b"\\1\\2\\5\\7", 100)
        >>> [(one.id, one.items.read_number()) for one in items.subsections()]
        [(1, 5)]
        """
        return type(self)(self.bytes_of(span), self.offset + span.at, self.features, self.library).skip(0, count)

    def bytes_of(self, span: Any) -> bytes:
        """Returns the bytes of a span, which counts from the start of `data`."""
        return self.data[span.at : span.at + span.size]

    def text(self, span: Any) -> str:
        """Returns the text of a span, which counts from the start of `data`. The library has checked that it is UTF-8."""
        return self.bytes_of(span).decode()

    def _check(self, call: str) -> None:
        """Raises the fault of a call `pulleynavy_check_` of the remaining bytes."""
        at = self.position
        check = getattr(self.library, "pulleynavy_check_" + call)
        fault = check(ctypes.addressof(self._held) + at, len(self.data) - at, self.offset + at)
        if fault.kind:
            raise fault_of(self.library, fault)

    def _read(self, call: str, *more: int) -> Any:
        """Reads a single item and moves past it. Its spans count from the start of `data` if they are read by `_text_of`."""
        at = self.position
        item = getattr(self.library, "pulleynavy_read_" + call)(
            ctypes.addressof(self._held) + at, len(self.data) - at, self.offset + at, self.features, *more
        )
        if item.fault.kind:
            raise fault_of(self.library, item.fault)
        self.skip(item.consumed)
        return item

    def _text_of(self, call: str, *more: int) -> str:
        """Reads a single item that is a name, and moves past it."""
        at, name = self.position, self._read(call, *more).name
        return self.data[at + name.at : at + name.at + name.size].decode()

    def _batches(self, call: str, room: Any, cursor: Any) -> Iterator[int]:
        """Stores items and yields how many."""
        store = getattr(self.library, "pulleynavy_next_" + call)
        while count := store(cursor, self._held, len(self.data), room, len(room)):
            yield count

    def _all(self, call: str) -> Iterator[Any]:
        """Yields the structs of the items of the list.

        Raises the `ParseError` of a malformed item after the items before it, and that of bytes after the last item.
        """
        room = (_stored_by(call) * STRUCTS)()
        for count in self._batches(call, room, self._cursor):
            for one in room[:count]:
                if one.fault.kind:
                    raise fault_of(self.library, one.fault)
                yield one

    def _some(self, call: str, count: int) -> Iterator[Any]:
        """Yields the structs of the next `count` items, and looks at no byte after them."""
        self.skip(0, count)
        store, kind = getattr(self.library, "pulleynavy_next_" + call), _stored_by(call)
        while count:
            room = (kind * min(count, STRUCTS))()
            stored = store(self._cursor, self._held, len(self.data), room, len(room))
            for one in room[:stored]:
                if one.fault.kind:
                    raise fault_of(self.library, one.fault)
                yield one
            count -= stored

    def _end(self) -> None:
        """Raises the fault of bytes after the last item, if there are any."""
        for _ in self.skip(0)._all("numbers"):
            pass

    def _rows(self, call: str, layout: struct.Struct) -> Iterator[tuple[Any, ...]]:
        """Yields some fields of each item, ten times as fast as structs. Raises faults as `_all` does."""
        # A chain, because a generator would take its turn for each item.
        return itertools.chain.from_iterable(rows for _, rows in self._stored(call, layout, self._cursor))

    def _imports(self, layout: struct.Struct) -> Iterator[tuple[Any, Iterator[tuple[Any, ...]]]]:
        """Yields arrays of imports, including those of bundles one by one, with some fields of each. Raises faults as `_all` does."""
        return self._stored("flat_imports", layout, declared.Imports(items=self._cursor))

    def _stored(self, call: str, layout: struct.Struct, cursor: Any) -> Iterator[tuple[Any, Iterator[tuple[Any, ...]]]]:
        # No item is empty, so that there are at most as many as bytes, and one for a fault.
        room = (_stored_by(call) * min(ROWS, self._remaining + 1))()
        held = memoryview(room).cast("B")
        # Every struct begins with the number of its fault.
        codes = held.cast("I")[:: layout.size // 4]
        for count in self._batches(call, room, cursor):
            sound = count
            if any(codes[:count]):
                sound = next(at for at, code in enumerate(codes) if code)
            yield room, layout.iter_unpack(held[: sound * layout.size])
            if sound < count:
                raise fault_of(self.library, room[sound].fault)
