"""New custom sections, and modules whose custom sections are edited or removed."""
# SPDX-License-Identifier: Apache-2.0 OR MIT
from __future__ import annotations

import ctypes
import dataclasses
from typing import TYPE_CHECKING, Any, Iterable, Union

from ._library import bytes_of, fault_of, load
from .declared import EditKind, EditStatus

if TYPE_CHECKING:
    from _typeshed import ReadableBuffer


@dataclasses.dataclass(frozen=True)
class Append:
    """Appends a custom section with this name and this data."""

    name: str
    data: ReadableBuffer


@dataclasses.dataclass(frozen=True)
class Replace:
    """Replaces each custom section with this name, in its place, by one with this data."""

    name: str
    data: ReadableBuffer


@dataclasses.dataclass(frozen=True)
class Remove:
    """Removes each custom section with this name."""

    name: str


@dataclasses.dataclass(frozen=True)
class Keep:
    """Removes the custom sections with other names. If the name ends with `*`, those stay whose names begin with what is before the `*`."""

    name: str


Edit = Union[Append, Replace, Remove, Keep]
KINDS = {Append: EditKind.APPEND, Replace: EditKind.REPLACE, Remove: EditKind.REMOVE, Keep: EditKind.KEEP}


def strip(stream: ReadableBuffer, keep_names: bool = False, library: Any = None) -> bytes:
    """Returns a copy of a module without its custom sections. With `keep_names` the sections called `name` stay.

    `stream` is any buffer. Raises `ParseError` at the first fault of the stream. `library` is a library that `load` returned, by default the one it finds.

    >>> strip(b"\\0asm\\1\\0\\0\\0\\0\\2\\1a")
    b'\\x00asm\\x01\\x00\\x00\\x00'
    """
    library = library or load()
    given = bytes_of(stream)
    held = ctypes.create_string_buffer(given, max(1, len(given)))
    stripped = library.pulleynavy_strip(held, len(given), keep_names)
    if stripped.fault.kind:
        raise fault_of(library, stripped.fault)
    return held.raw[: stripped.size]


def too_large(name: str) -> ValueError:
    return ValueError(f"the custom section {name[:40]!r} is too large")


def encode_custom(name: str, data: ReadableBuffer, library: Any = None) -> bytes:
    """Returns the bytes of a custom section: its id, its length, its name with its size, and its data.

    Numbers have as few bytes as possible. Raises `ValueError` if the name has more than 100,000 bytes, or the name and the data 2^32 or more.

    >>> encode_custom("a", b"xyz")
    b'\\x00\\x05\\x01axyz'
    """
    library = library or load()
    text, given = name.encode(), bytes_of(data)
    section = text, len(text), given, len(given)
    size = library.pulleynavy_encode_custom(*section, ctypes.create_string_buffer(1), 0)
    if not size:
        raise too_large(name)
    out = ctypes.create_string_buffer(size)
    library.pulleynavy_encode_custom(*section, out, size)
    return out.raw


def edited(library: Any, stream: bytes, one: Edit) -> bytes:
    """A module after one edit."""
    if type(one) not in KINDS:
        raise TypeError(f"{one!r} is not an edit")
    text, data = one.name.encode(), bytes_of(one.data) if isinstance(one, (Append, Replace)) else b""
    given = stream, len(stream), KINDS[type(one)], text, len(text), data, len(data)
    needed = library.pulleynavy_edit(*given, ctypes.create_string_buffer(1), 0)
    if needed.status == EditStatus.MALFORMED:
        raise fault_of(library, needed.fault)
    if needed.status != EditStatus.NO_ROOM:
        raise too_large(one.name)
    out = ctypes.create_string_buffer(needed.size)
    library.pulleynavy_edit(*given, out, needed.size)
    return out.raw


def edit(stream: ReadableBuffer, edits: Iterable[Edit], library: Any = None) -> bytes:
    """Returns a copy of a module after edits of its custom sections, one after the other.

    The other sections keep their bytes and their order. A later edit also changes the sections that an earlier one added. Raises
    `ParseError` at the first fault of the stream, and `ValueError` if a new section is one that `encode_custom` refuses.

    >>> edit(b"\\0asm\\1\\0\\0\\0\\0\\2\\1a", [Remove("a"), Append("b", b"xyz")])
    b'\\x00asm\\x01\\x00\\x00\\x00\\x00\\x05\\x01bxyz'
    """
    library, given, edits = library or load(), bytes_of(stream), list(edits)
    if not edits:
        # Raises for a malformed module.
        strip(given, library=library)
    for one in edits:
        given = edited(library, given, one)
    return given
