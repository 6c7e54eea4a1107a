"""Comparisons of dumps and of items with tools/model/model_items.py, and of golden streams with what wasmparser 0.263.0 says of them."""
import random
import re

import common
import comparing
import programs
import rows
import standard as S
from common import number_at
from items import CUSTOM, ROWS, SECTIONS, mutated
from modules import stream_of
from streams import random_bytes, some_large_stream
from texts import custom_name, dump_lines, in_hex

# ---- dumps

# The ids of the sections of events, where their lines do not have them.
IDS = {"version": None, "custom": S.CUSTOM_SECTION, "start": S.START_SECTION, "code": S.CODE_SECTION, "body": S.CODE_SECTION, "datacount": S.DATA_COUNT_SECTION}


def chosen(lines, ident):
    """The lines of the sections with this id, and the last one."""
    shows, some = False, []
    for line in lines:
        word, number = line.split(" ")[:2]
        if not line.startswith("  "):
            shows = word in ("end", "fault") or IDS.get(word, int(number)) == ident
        some += [line] * shows
    return some


def dump_differs(given, data):
    """What a dump has otherwise than the model: with decimal and with hexadecimal offsets, and of the sections with an id that the stream decides."""
    ident = sum(data) % 15
    lines, hexadecimal, some = (programs.lines_of([*given.command, *more], data)[0] for more in ([], ["--hex"], ["--section", str(ident)]))
    return (common.first_difference(lines, dump_lines(given.known, data)) or common.first_difference(hexadecimal, list(map(in_hex, lines)))
            or common.first_difference(some, chosen(lines, ident)))


def dump():
    """Dumps random streams and given files, and compares all lines with those of a model.

    tools/compare dump               2,000 streams, from seed 1
    tools/compare dump 7 0 a.wasm    the modules of a file, or of an archive

    Offsets are compared as decimal numbers and, with --hex, as hexadecimal ones. Most random streams are modules whose sections have many items, of
    which some have faults; some are changed or cut anywhere. With `--section` and an id the program must write the same lines of these sections,
    and no others.
    """
    return comparing.random_streams(dump.__doc__, "dump", common.MODEL_OF_ITEMS, dump_differs, stream_of, some_large_stream)


# ---- malformed items

FAULT = re.compile(r" *fault (\d+) (.*)")


def faults_in(model, data):
    """The lines of a check: a warning of each section with an unknown id; of each fault its offset, its text, and the section of the item."""
    for line, ident, items in model.walked(data, readers=model.CHECKED, at_once=True):
        word, *numbers = line.split(" ")
        if word == "unknown":
            yield "0x%x: warning: unknown section id: %s" % (int(numbers[1]), numbers[0])
        site = ", in section " + S.NAMES[ident] if word == "section" else ", in custom section " + custom_name(items[0][1]) if word == "custom" else ""
        lines = [line, *(below for at, item in items for below in model.lines_of(item, at))]
        yield from ("0x%x: %s%s" % (int(found[1]), found[2], site) for found in map(FAULT.fullmatch, lines) if found)


def check_differs(given, data):
    """What `check` writes otherwise than the model, and whether its status says if there is a fault, with `--quiet` too."""
    wanted = ["standard input: " + line for line in faults_in(given.known, data)]
    lines, status, errors = programs.lines_of(given.command, data)
    has_fault = any(line.split(": ")[2] != "warning" for line in wanted)
    found = common.first_difference(lines, wanted)
    if found or errors or status != has_fault:
        return found or "status %d, and it says %r" % (status, errors[:200])
    quiet = programs.run([*given.command, "--quiet"], data)
    return None if quiet == (b"", has_fault, b"") else "with --quiet status %d, and it writes %r" % (quiet[1], (quiet[0] + quiet[2])[:200])


def check():
    """Checks random streams and given files, and compares what `pulleynavy check` reports with what a model finds.

    tools/compare check               2,000 streams, from seed 1
    tools/compare check 7 0 a.wasm    the modules of a file, or of an archive

    Each fault must have the offset, text and section of the model's, and each section with an unknown id a warning. The status must be 1 exactly if
    there is a fault, and with --quiet the same, with nothing written.
    """
    return comparing.random_streams(check.__doc__, "check", common.MODEL_OF_ITEMS, check_differs, stream_of, some_large_stream)


# ---- golden streams


def golden_differs(task, stream, output, lines):
    """What differs of a listing from the lines that wasmparser says of a stream; of a dump from the model, which says these lines too."""
    said = programs.lines_in(output)
    if task == "list":
        return common.first_difference(said, [line for line in lines if not line.startswith("  ")])
    model = common.load(common.MODEL_OF_ITEMS)
    return common.first_difference(model.listing(stream), lines) or common.first_difference(said, dump_lines(model, stream))


def golden():
    """Compares listings and dumps of the built programs with what wasmparser 0.263.0 says of the streams of tools/golden.jsonl."""
    given, found, pairs = comparing.arguments(golden.__doc__, None), [], common.golden()
    for task in ("list", "dump"):
        for stream, lines in pairs:
            text = golden_differs(task, stream, programs.run(programs.command(task), stream)[0], lines)
            found += ["%s of %s\n  %s" % (task, stream.hex(), text)] if text else []
    return common.tell(found, "%d streams, listed and dumped, %d differ" % (len(pairs), len(found)))


# ---- items


def some_bytes(rng, make):
    how = rng.random()
    if how < 0.03:
        return random_bytes(rng, rng.randrange(12))
    item = make(rng)
    if how < 0.3:
        item = mutated(rng, item)
    elif how < 0.45:
        item = item[: rng.randrange(len(item) + 1)]
    return item + (random_bytes(rng, rng.randrange(4)) if rng.random() < 0.3 else b"")


def some_case(rng, readers):
    """A reader, bytes, the offset of the first of them, and the features."""
    row = rng.choice(readers)
    data = some_bytes(rng, ROWS[row])
    last = 2**64 - 1 - len(data)
    return row, data, rng.choice([0, 0, 7, 1000, 2**32 - 3, last - 1, last]), rng.choice([3, 3, 3, 2, 1, 0])


def cases_in(module, outcome):
    """Each item of each section, with the bytes after it up to a few more than it takes, which is what the model says."""
    place = 8
    while place < len(module):
        id, (size, start) = module[place], number_at(module, place + 1)
        place = start + size
        if id == S.CUSTOM_SECTION:
            length, at = number_at(module, start)
            title = module[at : at + length].decode()
            row = CUSTOM.get(title, "reloc" if title.startswith("reloc.") else None)
            if row:
                yield row, module[at + length : place], at + length, 3
        if id in SECTIONS:
            count, at = number_at(module, start)
            for _ in range(count):
                used = int(outcome(SECTIONS[id], module[at:place], at, 3).rsplit(" used ", 1)[1])
                yield SECTIONS[id], module[at : min(place, at + used + 4)], at, 3
                at += used
            assert at == place, (id, at, place)


def cases_of(files, outcome):
    """The cases of all these files, whose modules must have no fault."""
    for module in common.modules_of(files):
        try:
            yield from cases_in(module, outcome)
        except (AssertionError, LookupError, ValueError):
            common.stop(common.WRONG_USE, "a module of the files has a fault: tools/compare dump can compare it")


def items_differ(words, model, cases):
    """What differs of each case, read in one run of the program."""
    for case, lines in zip(cases, rows.run(words, [rows.row_line(*case) for case in cases])):
        row, data, offset, features = case
        found = common.first_difference(lines, rows.model_lines(model, case))
        yield found and "%s %s offset %d features %d, %s" % (row, data.hex()[:2000], offset, features, found)


def items():
    """Reads random byte strings as items by the program test_rows, and compares what it says with a model.

    tools/compare items                      100,000 byte strings, from seed 1
    tools/compare items 7 5000 --only table  5,000 that are read as tables, from seed 7
    tools/compare items a.wasm libc.a        every item of the modules in these files
    """
    more = [("--only", {"metavar": "ROW", "choices": sorted(ROWS), "help": "one row: %s" % ", ".join(ROWS)})]
    given = comparing.arguments(items.__doc__, "rows", common.MODEL_OF_ITEMS, numbers=[("seed", 1), ("count", 100000)], files=True, more=more)
    rng, readers = random.Random(given.seed), [given.only] if given.only else list(ROWS)
    cases = cases_of(given.files, given.known.outcome) if given.files else (some_case(rng, readers) for _ in range(given.count))
    with_data = lambda case, data: (case[0], data, min(case[2], 2**64 - 1 - len(data)), case[3])
    return comparing.compare(given, cases, lambda many: list(items_differ(given.command, given.known, many)), lambda case: case[1], with_data, 20000)
