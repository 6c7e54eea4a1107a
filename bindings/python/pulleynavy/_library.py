"""Loading the shared library, and faults as exceptions."""
# SPDX-License-Identifier: Apache-2.0 OR MIT
from __future__ import annotations

import ctypes
import functools
import os
import platform
import sys
from typing import Any

from . import declared
from .declared import FaultKind

MEMORY64 = 1
COMPACT_IMPORTS = 2
ALL_FEATURES = MEMORY64 | COMPACT_IMPORTS

_PARTS = declared.VERSION.split(".")
# Until version 1.0 each minor version of the library has a name of its own on Linux.
NAME = "libpulleynavy.so." + ".".join(_PARTS[: 2 if _PARTS[0] == "0" else 1])
# What the shared library is called where it isn't as on Linux, by `sys.platform`.
NAMES = {"win32": "pulleynavy.dll", "darwin": "libpulleynavy.dylib"}


def name_on(system: str) -> str:
    """The name of the shared library on a system, as `sys.platform` has it.

    >>> name_on("darwin")
    'libpulleynavy.dylib'
    """
    return NAMES.get(system, NAME)


def found(path: str | None) -> tuple[str, str]:
    """Where the shared library is, and what to say if it can't be loaded."""
    name, here = name_on(sys.platform), f"{sys.platform} on {platform.machine()}"
    own = os.path.join(os.path.dirname(os.path.abspath(__file__)), name)
    given = path or os.environ.get("PULLEYNAVY_LIB")
    if given:
        given = os.path.join(given, name) if os.path.isdir(given) else given
        return given, f"{given} is no library of pulleynavy for {here}"
    if os.path.exists(own):
        return own, f"{own} is not for {here}: install the wheel for this system"
    return name, f"there is no {name} for {here}: install a wheel for this system, or set PULLEYNAVY_LIB to the library or its folder"


@functools.lru_cache(maxsize=None)
def load(path: str | None = None) -> Any:
    """Loads the shared library from `path`, from `$PULLEYNAVY_LIB`, from this package, or from where the system looks, in this order.

    The first two name the library or its folder. In a folder it is `pulleynavy.dll` on Windows, `libpulleynavy.dylib` on macOS, and `libpulleynavy.so` with a number
    elsewhere. It is loaded once for each path. Raises `OSError` with one sentence if it is not found or not for this system, and `AttributeError` if it lacks a call of this version.

    >>> load().pulleynavy_version() > 0
    True
    """
    place, sentence = found(path)
    try:
        library = ctypes.CDLL(place)
    except OSError as error:
        raise OSError(f"{sentence} ({error})") from error
    for name, (result, arguments) in declared.CALLS.items():
        call = getattr(library, name)
        call.restype, call.argtypes = result, arguments
    return library


class ParseError(ValueError):
    """A malformed or truncated module. It can be pickled and copied.

    `kind` is the kind of the fault, and `code` also has its detail in the bits above the lowest 8. `offset` is in bytes from the start of
    the stream. `number` is the number of the fault, if it has one: a version, a length or a byte. `text` is the message of the Rust crate
    wasmparser, without the number and the offset.

    >>> from pulleynavy import Module
    >>> try:
    ...     Module(b"\\0asm\\2\\0\\0\\0")
    ... except ParseError as error:
    ...     print(error.kind.name, error.offset, error.number)
    UNKNOWN_VERSION 4 2
    """

    def __init__(self, code: int, offset: int, number: int | None, text: str) -> None:
        self.code, self.offset, self.number, self.text = code, offset, number, text
        self.kind = FaultKind(code & 0xFF)
        tail = "" if number is None else f": {number}"
        super().__init__(f"{text}{tail} (at offset {offset:#x})")

    def __reduce__(self) -> tuple[Any, ...]:
        return type(self), (self.code, self.offset, self.number, self.text), self.__dict__


# The name of `ParseError` before version 0.13.
Fault = ParseError


def fault_of(library: Any, fault: Any) -> ParseError:
    """The exception for a fault of the library."""
    room = ctypes.create_string_buffer(80)
    size = library.pulleynavy_format_message(fault.kind, room, len(room))
    return ParseError(fault.kind, fault.offset, fault.number if fault.has_number else None, room.raw[:size].decode())


def bytes_of(stream: Any) -> bytes:
    """The bytes of any buffer, such as a `bytearray`, a `memoryview` or an `mmap`. Raises `TypeError` if it is none."""
    return stream if isinstance(stream, bytes) else memoryview(stream).tobytes()
