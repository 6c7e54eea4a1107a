"""The events and the items of `Module` over the streams of $PULLEYNAVY_STREAMS, as tools/golden.jsonl has them: JSON lines with `hex` and `lines`."""
# SPDX-License-Identifier: Apache-2.0 OR MIT
from __future__ import annotations

import gc
import io
import json
import os
import tracemalloc
import unittest
from typing import Any, Callable, Iterator

from pulleynavy import Append, CustomKind, Keep, Module, ParseError, Parser, Remove, Replace, edit, events

from . import lines

OWN = os.path.join(os.path.dirname(os.path.abspath(__file__)), "..", "..", "..", "tools", "golden.jsonl")
STREAMS = os.environ.get("PULLEYNAVY_STREAMS") or (OWN if os.path.exists(OWN) else None)
# The sizes of chunks, in turn.
SIZES = (1, 7, 100, 65536)
EDITS: dict[str, Any] = {"append": Append, "replace": Replace, "remove": Remove, "keep": Keep}


def fault_line(error: ParseError) -> str:
    return "fault %d %s%s" % (error.offset, error.text, "" if error.number is None else ": %d" % error.number)


def read(make: Callable[[], Any]) -> Any:
    """What a call returns, or the line of its fault."""
    try:
        return make()
    except ParseError as error:
        return fault_line(error)


def items_of(expected: list[str]) -> Iterator[tuple[int, str]]:
    """The id of each section with its items, and the kind of the fault among them, if there is one."""
    number = None
    for line in expected:
        words = line.split(" ")
        number = int(words[1]) if words[0] == "section" else number if line.startswith("  ") else None
        if number is not None and line.startswith("  "):
            yield number, line.strip() if line.startswith("  fault") else lines.without_offsets(line.strip().partition(" ")[2] or line.strip())


@unittest.skipUnless(STREAMS, "needs $PULLEYNAVY_STREAMS")
class Streams(unittest.TestCase):
    def objects(self) -> Iterator[dict[str, Any]]:
        with open(str(STREAMS), encoding="ascii") as file:
            yield from map(json.loads, file)

    def rows(self) -> Iterator[tuple[bytes, list[str]]]:
        for row in self.objects():
            yield bytes.fromhex(row["hex"]), row["lines"]

    def test_edits(self) -> None:
        """An edit of each stream that has one."""
        for row in self.objects():
            if "edit" not in row:
                continue
            kind, name, data = row["edit"]
            one = EDITS[kind](name, data.encode()) if kind in ("append", "replace") else EDITS[kind](name)
            with self.subTest(row["hex"], edit=row["edit"]):
                found = read(lambda: edit(bytes.fromhex(row["hex"]), [one]).hex())
                self.assertEqual(found, row["edited"] or read(lambda: list(events(io.BytesIO(bytes.fromhex(row["hex"]))))))

    def test_events_in_chunks(self) -> None:
        for number, (stream, expected) in enumerate(self.rows()):
            with self.subTest(stream.hex()):
                parser, size = Parser(), SIZES[number % len(SIZES)]
                found: list[str] = []
                try:
                    for at in range(0, len(stream), size):
                        found.extend(map(lines.event_line, parser.feed(stream[at : at + size])))
                    found.extend(map(lines.event_line, parser.finish()))
                except ParseError as error:
                    found.append(fault_line(error))
                self.assertEqual(found, [line for line in expected if not line.startswith("  ")])

    def test_items_of_sections(self) -> None:
        count = 0
        for stream, expected in self.rows():
            with self.subTest(stream.hex()):
                if expected[-1].startswith("fault "):
                    self.assertEqual(read(lambda: Module(stream)), expected[-1])
                    continue
                module = Module(stream)
                wanted: dict[int, list[str]] = {}
                for number, text in items_of(expected):
                    wanted.setdefault(number, []).append(text)
                for number, (name, show) in lines.SECTIONS.items():
                    found = read(lambda: [show(one) for one in getattr(module, name)])
                    texts = wanted.get(number, [])
                    fault = next((text for text in texts if text.startswith("fault ")), None)
                    self.assertEqual(found, fault or texts)
                    count += len(texts)
        self.assertGreater(count, 250)

    def test_memory_does_not_grow(self) -> None:
        streams = [stream for stream, _ in self.rows()][:5000]
        held = []
        tracemalloc.start()
        for number, stream in enumerate(streams):
            if number % (len(streams) // 3) == 0:
                gc.collect()
                held.append(tracemalloc.get_traced_memory()[0])
            read(lambda: Module(stream).check())
        tracemalloc.stop()
        self.assertLess(held[-1], held[1] + 50_000, held)

    def test_custom_sections(self) -> None:
        count = 0
        for stream, expected in self.rows():
            if expected[-1].startswith("fault "):
                continue
            module = Module(stream)
            said = [line.strip() for before, line in zip(expected, expected[1:]) if before.startswith("custom ")]
            kinds = [section.kind for section in module.custom_sections]
            for kind, text in zip(kinds, said):
                if kinds.count(kind) == 1 and not lines.repeats(text) and (kind in lines.WHOLE or kind in lines.IN_PARTS):
                    with self.subTest(text=text, stream=stream.hex()):
                        self.compare(module, kind, text.partition(" ")[2])
                        count += 1
        self.assertGreater(count, 15)

    def compare(self, module: Module, kind: CustomKind, text: str) -> None:
        is_whole = kind in lines.WHOLE
        found = read(lambda: lines.WHOLE[kind](module) if is_whole else sorted(lines.IN_PARTS[kind](module)))
        if text == "unknown" or "fault " in text:
            self.assertTrue(isinstance(found, str) and found.startswith("fault "), found)
            return
        wanted = lines.without_offsets(text)
        parts = [] if is_whole else sorted(lines.parts(wanted))
        # Of subsections with the same id `Module` puts the items together.
        if is_whole or len({part.split("{")[0].split()[0] for part in parts}) == len(parts):
            self.assertEqual(found, wanted if is_whole else parts)


if __name__ == "__main__":
    unittest.main()
