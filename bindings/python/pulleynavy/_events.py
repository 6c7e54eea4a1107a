"""Events of a stream, as they arrive."""
# SPDX-License-Identifier: Apache-2.0 OR MIT
from __future__ import annotations

import ctypes
import dataclasses
import errno
import os
import threading
from typing import TYPE_CHECKING, Any, BinaryIO, Iterator

from ._library import ALL_FEATURES, bytes_of, fault_of, load
from .declared import EventKind, Fault, FaultKind

if TYPE_CHECKING:
    from _typeshed import ReadableBuffer


def binary(piece: Any) -> bytes:
    """Returns the bytes that a file returned, which are empty at its end.

    Raises `TypeError` if it returned a text, and `BlockingIOError` if it returned `None`: a non-blocking file has no bytes yet.
    """
    if isinstance(piece, str):
        raise TypeError('the file is in text mode: open it in binary mode, as open(path, "rb") does')
    if piece is None:
        raise BlockingIOError(errno.EAGAIN, "the file is non-blocking and has no bytes yet: pass them to a Parser as they arrive")
    return bytes(piece)


@dataclasses.dataclass(frozen=True)
class Event:
    """An event of a stream: the header, a section, the start of the code section, a function body, or the end.

    Offsets are in bytes from the start of the stream, sizes in bytes. Fields that a kind does not use are 0.

    `id` is the id of a section, or 1 for the header of a component. `count` is the announced number of items, the index of the start
    function, or the version. `size` is the size of a code section's content after the count. `start` and `end` are the offsets of the
    content, and `data_offset` is that of the first item or of the data of a custom section. `name_size` is the size of a custom section's
    name. `raw` are all bytes of the event, including the id and the size of a section.

    >>> import io
    >>> section = list(events(io.BytesIO(b"\\0asm\\1\\0\\0\\0\\5\\3\\1\\0\\2")))[1]
    >>> section.id, section.count, section.start, section.end
    (5, 1, 10, 13)
    """

    kind: EventKind
    id: int
    count: int
    size: int
    start: int
    end: int
    data_offset: int
    name_size: int
    raw: bytes = dataclasses.field(repr=False)

    @property
    def content(self) -> bytes:
        """The bytes from `start` to `end`: the content of a section, or a body. It is empty for the start of a code section.

        >>> import io
        >>> list(events(io.BytesIO(b"\\0asm\\1\\0\\0\\0\\5\\3\\1\\0\\2")))[1].content
        b'\\x01\\x00\\x02'
        """
        return self.raw[len(self.raw) - (self.end - self.start) :] if self.kind is not EventKind.CODE else b""

    @property
    def name(self) -> str:
        """The name of a custom section.

        >>> import io
        >>> list(events(io.BytesIO(b"\\0asm\\1\\0\\0\\0\\0\\3\\1a\\7")))[1].name
        'a'
        """
        data = len(self.raw) - (self.end - self.data_offset)
        return self.raw[data - self.name_size : data].decode()

    @property
    def data(self) -> bytes:
        """The data of a custom section, after its name.

        >>> import io
        >>> list(events(io.BytesIO(b"\\0asm\\1\\0\\0\\0\\0\\3\\1a\\7")))[1].data
        b'\\x07'
        """
        return self.raw[len(self.raw) - (self.end - self.data_offset) :]


@dataclasses.dataclass(frozen=True)
class SkippedPart:
    """A section or body that `Parser.skip_part` skipped, by its first fields.

    `kind` is `SECTION`, `BODY`, `CUSTOM` or `UNKNOWN`, and `id` the id of the section. `start` and `end` are the offsets of the content, in
    bytes from the start of the stream. `count` is the announced number of items of a section, and `name` the name of a custom section.
    """

    kind: EventKind
    id: int
    count: int
    start: int
    end: int
    name: str


class Parser:
    """A parser of a stream whose chunks you pass: `feed` adds one, and iterating over the parser yields the events that are complete.

    Only the bytes of the part that is not complete are kept. The last event is of the kind `END`, after `finish`. Iterating raises
    `ParseError` at the first fault of the stream.

    Several threads may use a parser: one call at a time runs, and the chunks make up the stream in the order in which they are fed.

    >>> parser = Parser()
    >>> for chunk in (b"\\0asm\\1\\0", b"\\0\\0\\1", b"\\1\\0"):
    ...     print([event.kind.name for event in parser.feed(chunk)])
    []
    ['VERSION']
    ['SECTION']
    >>> [event.kind.name for event in parser.finish()]
    ['END']
    """

    def __init__(self, features: int = ALL_FEATURES, library: Any = None) -> None:
        self._library = library or load()
        self._feed = self._library.pulleynavy_feed_init(0, features)
        self._storage = ctypes.create_string_buffer(1)
        # What is skipped of the next chunks: the offset of each part, and how many of its bytes remain.
        self._skipped: list[tuple[int, int]] = []
        self._is_ended, self._lock = False, threading.Lock()

    def feed(self, chunk: ReadableBuffer) -> Iterator[Event]:
        """Adds the next bytes of the stream, of any buffer. Returns an iterator over the events that are complete.

        Raises `ValueError` after `finish`.
        """
        given = bytes_of(chunk)
        with self._lock:
            if self._feed.is_finished:
                raise ValueError("the stream has been finished")
            self._push(given[self._pass(len(given)) :])
        return iter(self)

    def _pass(self, size: int) -> int:
        """Passes skipped parts of a chunk of this size. Returns how many of its bytes they have."""
        passed = 0
        while self._skipped and passed < size:
            start, missing = self._skipped.pop(0)
            here = min(missing, size - passed)
            passed += here
            if here < missing:
                self._skipped.insert(0, (start, missing - here))
        return passed

    def _push(self, piece: bytes) -> None:
        while piece and not self._library.pulleynavy_feed_push(self._feed, self._storage, len(self._storage), piece, len(piece)):
            grown = ctypes.create_string_buffer(max(2 * len(self._storage), len(piece)))
            ctypes.memmove(grown, self._storage, len(self._storage))
            self._storage = grown

    def finish(self) -> Iterator[Event]:
        """Says that the stream has ended. Returns an iterator over the last events."""
        with self._lock:
            self._library.pulleynavy_feed_finish(self._feed)
        return iter(self)

    def skip(self) -> int:
        """Skips the rest of the code section: call it after an event `CODE` or `BODY`. Returns how many bytes are skipped.

        The bodies are neither kept nor parsed, and there are no events of them. Elsewhere it returns 0 and skips nothing. If the stream ends
        within the skipped bytes, the fault is `UNEXPECTED_EOF`, at the first of them. After `skip_part` of a body it skips the bodies after it.

        >>> parser = Parser()
        >>> events = parser.feed(b"\\0asm\\1\\0\\0\\0\\3\\2\\1\\0\\x0a\\4\\1\\2\\0\\x0b")
        >>> for event in events:
        ...     if event.kind is EventKind.CODE:
        ...         print(parser.skip())
        3
        >>> [event.kind.name for event in parser.finish()]
        ['END']
        """
        with self._lock:
            feed = self._feed
            start = feed.parser.offset
            size = int(self._library.pulleynavy_skip_section(feed.parser))
            stored = min(size, feed.end - feed.mark)
            feed.mark += stored
            self._skip_from(start, size - stored)
        return size

    def _skip_from(self, start: int, missing: int) -> None:
        """Skips a part that begins at an offset and of which this many bytes remain."""
        if missing:
            self._skipped.append((start, missing))

    def skip_part(self) -> SkippedPart | None:
        """Skips the part that is not complete, if its first fields have come: call it after the events of a chunk. Returns what they say.

        The bytes of the part are neither kept nor looked at, so a section needs no memory of its size. It returns None and skips nothing at a
        header, at the start of a code section, at a start or data count section, at a fault, and if the first fields have not come or all of
        the part has. If the stream ends within the part, the fault is `UNEXPECTED_EOF` at its `start`.

        >>> parser = Parser()
        >>> for event in parser.feed(b"\\0asm\\1\\0\\0\\0\\0\\x64\\1a"):
        ...     print(event.kind.name)
        VERSION
        >>> part = parser.skip_part()
        >>> part.name, part.start, part.end
        ('a', 10, 110)
        >>> [event.kind.name for event in parser.feed(bytes(98))], [event.kind.name for event in parser.finish()]
        ([], ['END'])
        """
        with self._lock:
            feed, offset = self._feed, self._feed.parser.offset
            held = feed.end - feed.mark
            first = ctypes.addressof(self._storage) + feed.mark
            event = self._library.pulleynavy_skip(feed.parser, first, held)
            kind = EventKind(event.kind)
            if kind is EventKind.NEED_MORE:
                return None
            name = ctypes.string_at(first + event.at + event.data_offset - event.start - event.name_size, event.name_size)
            feed.mark = feed.end
            self._skip_from(event.start, event.end - offset - held)
        return SkippedPart(kind, event.id, event.count, event.start, event.end, name.decode())

    def __iter__(self) -> Iterator[Event]:
        while True:
            with self._lock:
                event = self._next()
            if event is None:
                return
            yield event

    def _next(self) -> Event | None:
        """The next event, or none if it needs more bytes or the last one was returned. Raises the fault of the stream."""
        if self._is_ended:
            return None
        if self._skipped:
            if self._feed.is_finished:
                raise fault_of(self._library, Fault(FaultKind.UNEXPECTED_EOF, 0, 0, self._skipped[0][0]))
            return None
        event = self._step()
        self._is_ended = event is not None and event.kind is EventKind.END
        return event

    def _step(self) -> Event | None:
        """The next event, or none if it needs more bytes. Raises the fault of the stream."""
        event = self._library.pulleynavy_feed_step(self._feed, self._storage, len(self._storage))
        kind = EventKind(event.kind)
        if kind is EventKind.FAULT:
            raise fault_of(self._library, event.fault)
        if kind is EventKind.NEED_MORE:
            return None
        raw = ctypes.string_at(ctypes.addressof(self._storage) + self._feed.mark - event.consumed, event.consumed)
        return Event(kind, event.id, event.count, event.size, event.start, event.end, event.data_offset, event.name_size, raw)


def events(
    file: BinaryIO | str | os.PathLike[str], chunk: int = 65536, features: int = ALL_FEATURES, library: Any = None
) -> Iterator[Event]:
    """Yields the events of a stream, which is read in chunks of `chunk` bytes, up to its end.

    `file` is a file that was opened in binary mode, or a path. Memory use is at most three times the size of the largest part and of a chunk.

    Raises `ParseError` at the first fault of the stream, after the events before it; `TypeError` if the file was opened in text mode;
    `BlockingIOError` if it is non-blocking and has no bytes yet; and `OSError` if a path can't be opened.

    >>> import io
    >>> [event.kind.name for event in events(io.BytesIO(b"\\0asm\\1\\0\\0\\0"))]
    ['VERSION', 'END']
    """
    if isinstance(file, (str, os.PathLike)):
        with open(file, "rb") as opened:
            yield from events(opened, chunk, features, library)
        return
    parser = Parser(features, library)
    while True:
        piece = binary(file.read(chunk))
        yield from parser.feed(piece) if piece else parser.finish()
        if not piece:
            return
