"""Calls of `Parser` in any order and from several threads, and files that do not have all of their bytes yet."""
# SPDX-License-Identifier: Apache-2.0 OR MIT
from __future__ import annotations

import concurrent.futures
import itertools
import os
import random
import socket
import sys
import threading
import time
import unittest
from typing import Any, Callable, Iterator, NamedTuple

from pulleynavy import Event, EventKind, FaultKind, Module, ParseError, Parser, SkippedPart, events

HEADER = b"\0asm\1\0\0\0"
FUNCTIONS = HEADER + b"\3\2\1\0\x0a\4\1\2\0\x0b"
INTERLEAVINGS = 10_000


class Part(NamedTuple):
    """A part of a stream: its kind, its first offset, those of its content, and where the next part begins."""

    kind: EventKind
    first: int
    start: int
    end: int
    next: int


class Stream:
    """A random module with bodies, and its parts. Each size and count has one byte. Now and then the end is missing."""

    def __init__(self, rng: random.Random) -> None:
        self.data, self.code_end = HEADER, 0
        self.parts = [Part(EventKind.VERSION, 0, 0, 8, 8)]
        bodies = [bytes(rng.randrange(1, 9)) for _ in range(rng.randrange(6))]
        for kind, number, content in (
            self.other(rng), (EventKind.SECTION, 3, bytes([len(bodies)]) + bytes(len(bodies))), self.other(rng),
            (EventKind.CODE, 10, bytes([len(bodies)])), self.other(rng), (EventKind.SECTION, 11, b"\1\1\2hi"), self.other(rng),
        ):  # fmt: skip
            self.add(kind, number, content, bodies if kind is EventKind.CODE else [])
        if rng.random() < 0.3:
            self.data = self.data[: rng.randrange(len(self.data))]

    def other(self, rng: random.Random) -> tuple[EventKind, int, bytes]:
        content = bytes(rng.randrange(9))
        return (EventKind.CUSTOM, 0, b"\1x" + content) if rng.random() < 0.7 else (EventKind.UNKNOWN, 100, content)

    def add(self, kind: EventKind, number: int, content: bytes, bodies: list[bytes]) -> None:
        """Adds a section, and the bodies in it."""
        first, whole = len(self.data), content + b"".join(bytes([len(body)]) + body for body in bodies)
        self.data += bytes([number, len(whole)]) + whole
        at, end = first + 2 + len(content), len(self.data)
        self.parts.append(Part(kind, first, first + 2, end, at))
        self.code_end = end if kind is EventKind.CODE else self.code_end
        for body in bodies:
            self.parts.append(Part(EventKind.BODY, at, at + 1, at + 1 + len(body), at + 1 + len(body)))
            at += 1 + len(body)


class Interleaving:
    """A parser that is called in a random order."""

    def __init__(self, stream: Stream, rng: random.Random) -> None:
        self.stream, self.rng, self.parser = stream, rng, Parser()
        # What it returns: an event, a part that it skips, or how many bytes of a code section it skips.
        self.found: list[Event | SkippedPart | int] = []

    def fault(self) -> tuple[FaultKind, int] | None:
        """Feeds the stream in chunks of any size, and calls anything between them. Returns the fault."""
        at, data = 0, self.stream.data
        try:
            while at < len(data):
                size = self.rng.randrange(1, self.rng.choice((4, 16, 100)))
                self.call(self.parser.feed(data[at : at + size]))
                at += size
            last = self.parser.finish()
            self.call(last)
            self.found += last
        except ParseError as error:
            return error.kind, error.offset
        return None

    def call(self, some: Iterator[Event]) -> None:
        for _ in range(self.rng.randrange(6)):
            call = self.rng.choice((lambda: next(some, None), lambda: next(some, None), self.parser.skip, self.parser.skip_part))
            found: Any = call()
            self.found += [found] if found else []

    def wanted(self) -> tuple[FaultKind, int] | None:
        """The fault that the stream has to have, if each thing that was found is one that comes next."""
        at, parts = 0, {(part.first, part.kind): part for part in self.stream.parts}
        for one in self.found:
            first = at
            if isinstance(one, int):
                assert at + one == self.stream.code_end, (at, one)
                at = self.stream.code_end
            elif one.kind is EventKind.END:
                assert at == one.start == len(self.stream.data), at
            else:
                part = parts[at, one.kind]
                assert (one.start, one.end) == (part.start, part.end), (part, one)
                first, at = part.start, part.next
            if at > len(self.stream.data):
                return FaultKind.UNEXPECTED_EOF, first
        try:
            Module(self.stream.data)
        except ParseError as error:
            return error.kind, error.offset
        assert isinstance(self.found[-1], Event) and self.found[-1].kind is EventKind.END
        return None


class Orders(unittest.TestCase):
    def test_calls_in_any_order(self) -> None:
        skipped = 0
        for seed in range(INTERLEAVINGS):
            rng = random.Random(seed)
            one = Interleaving(Stream(rng), rng)
            fault = one.fault()
            with self.subTest(seed=seed, stream=one.stream.data.hex()):
                self.assertEqual(fault, one.wanted())
            skipped += sum(not isinstance(part, Event) for part in one.found)
        self.assertGreater(skipped, INTERLEAVINGS // 5)

    def test_the_rest_of_a_section_is_skipped_after_a_part_of_it(self) -> None:
        # The second body ends with bytes that are a custom section elsewhere.
        stream, parser = HEADER + bytes.fromhex("0303020000 0a0e02 05000000000b 06000b00020161"), Parser()
        self.assertEqual([event.kind.name for event in parser.feed(stream[:18])], ["VERSION", "SECTION", "CODE"])
        part = parser.skip_part()
        assert part
        self.assertEqual((part.kind, part.start, part.end, parser.skip()), (EventKind.BODY, 17, 22, 7))
        self.assertEqual([event.kind.name for event in parser.feed(stream[18:])], [])
        self.assertEqual([event.kind.name for event in parser.finish()], ["END"])


class Threads(unittest.TestCase):
    def setUp(self) -> None:
        self.addCleanup(sys.setswitchinterval, sys.getswitchinterval())
        sys.setswitchinterval(1e-6)

    def in_four(self, work: Callable[[], None]) -> None:
        """Calls a function in four threads at once. Raises the first of their exceptions."""
        with concurrent.futures.ThreadPoolExecutor(4) as pool:
            for done in [pool.submit(work) for _ in range(4)]:
                done.result()

    def test_a_parser_that_four_threads_call(self) -> None:
        """All sections come once, with the bytes that they have."""
        sections = [b"\0" + bytes([5 + number % 90]) + b"\4%04x" % number + bytes([number % 251]) * (number % 90) for number in range(5000)]
        parser, found, rest = Parser(), [], iter(sections)
        list(parser.feed(HEADER))

        def work() -> None:
            for one in rest:
                found.extend([event.raw for event in parser.feed(one)])
                parser.skip()

        self.in_four(work)
        self.assertEqual(sorted(found), sorted(sections))
        self.assertEqual([event.kind.name for event in parser.finish()], ["END"])

    def test_a_module_that_four_threads_read(self) -> None:
        names = b"".join(bytes([number, 4]) + b"n%03d" % number for number in range(100))
        exports = b"".join(b"\4e%03d\0" % number + bytes([number]) for number in range(100))
        stream = HEADER + b"\7\xbd\x05\x64" + exports + b"\0\xe1\x04\4name\1\xd9\x04\x64" + names
        for _ in range(50):
            module, found = Module(stream), []
            self.in_four(lambda: found.append((module.exports, module.names.functions)))
            self.assertEqual([(len(some), names[99]) for some, names in found], [(100, "n099")] * 4)


READS: list[Callable[[Any], bytes]] = [
    lambda file: b"".join(event.raw for event in events(file)),
    lambda file: b"".join(event.raw for event in Module.read(file)._events),
]


class Files(unittest.TestCase):
    def test_a_non_blocking_file_without_bytes(self) -> None:
        cases = itertools.product(READS, (b"", HEADER, FUNCTIONS[:10]), (0, -1))
        for read, data, buffering in cases:
            into, out = os.pipe()
            os.set_blocking(into, False)
            os.write(out, data)
            with self.subTest(data, buffering=buffering), open(into, "rb", buffering) as file, open(out, "wb"):
                self.assertRaises(BlockingIOError, read, file)

    def test_a_non_blocking_file_that_ends(self) -> None:
        for read, buffering in itertools.product(READS, (0, -1)):
            into, out = os.pipe()
            os.set_blocking(into, False)
            os.write(out, FUNCTIONS)
            os.close(out)
            with open(into, "rb", buffering) as file:
                self.assertEqual(read(file), FUNCTIONS)

    def test_a_socket_that_is_slow(self) -> None:
        for read, buffering in itertools.product(READS, (0, -1)):
            sender, receiver = socket.socketpair()
            thread = threading.Thread(target=send_slowly, args=(sender,))
            thread.start()
            with self.subTest(buffering=buffering), receiver, receiver.makefile("rb", buffering) as file:
                self.assertEqual(read(file), FUNCTIONS)
            thread.join()


def send_slowly(sender: socket.socket) -> None:
    with sender:
        for number in FUNCTIONS:
            time.sleep(0.002)
            sender.sendall(bytes([number]))


if __name__ == "__main__":
    unittest.main()
