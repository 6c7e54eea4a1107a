"""Compares dumps as JSON, with names, with bytes, and with hexadecimal offsets, by `pulleynavy dump`, with its dump in lines.

    tools/compare forms               the golden streams and 300 random ones, from seed 1
    tools/compare forms 7 0 a.wasm    the golden streams and the files

Each line of a dump as JSON must be an object as Python reads it, with no name twice, in UTF-8; there are as many as lines. The line that an
object has by docs/DUMP.md is the line of the dump: each value is the same, and a field that the line leaves out is false or null. With --names
the lines are the same but for the names that the model reads in the custom sections `name` or, if there is none, in `linking`, also as JSON.
Without, those of symbols that come in a section `linking` before are shown. Each object has its file, also if there are two. Of a dump with bytes
the rows must go on where the one before ends, show sixteen bytes at most and together the stream, up to the fault that ends it, and the rest must
be the dump in lines. With --hex the offsets of lines and rows must be the same in hexadecimal, and with --color the text must be the same.
tools/compare dump compares the dump in lines with a model.
"""
import json
import random
import re
import tempfile
from itertools import zip_longest

import common
import comparing
import programs
import standard
from modules import module, named_module, other_names, section, stream_of
from streams import COMPONENT, some_stream
from texts import dumps, in_hex

MODEL = common.load(common.MODEL_OF_ITEMS)
# The line of an object of the first level. A section has the form of its name, if that is here.
EVENTS = {
    "version": "version {range} {num} {encoding}", "body": "body {range} {bytes} {number}", "end": "end {offset}", "fault": "fault {offset} {fault}",
    "start": "start {range} {func} {bytes} {item}", "datacount": "datacount {range} {count} {bytes}", "code": "code {range} {count} {size} {bytes}",
    "custom": "custom {range} {data_offset} {bytes} {custom}", "section": "section {id} {range} {count} {name} {bytes}", "unknown": "unknown {id} {range} {bytes}",
}
# The members of an object that are not among the fields of its line, the fields that are words there, without a name, those of raw bytes, whose line
# has a mark if there are more than sixteen, and those in quotes.
APART = {"level", "at", "line", "space", "number", "flag_words"}
WORDS = {"known", "symbol", "value"}
RAW = {"data", "contents"}
QUOTED = {"module", "name", "field", "version", "process", "thread", "target_arch"}
ROW = re.compile(r"(\d+) \|((?: [0-9a-f]{2}){1,16})\Z")
# What sets a color. No dump has such bytes of its own: texts in quotes escape them.
COLOR = re.compile(rb"\x1b\[[0-9;]*m")


def once(pairs):
    names = [name for name, _ in pairs]
    assert len(names) == len(set(names)), "a name twice in %s" % pairs
    return dict(pairs)


def quoted(text):
    """A text as lines have it."""
    return MODEL.quoted(text.encode())


# ---- objects


def numbered(said):
    """The number of an item or a body, and its name."""
    if "space" not in said:
        assert "number" not in said, said
        return ""
    return "%s[%d]" % (said["space"], said["number"]) + (" " + quoted(said["item_name"]) if "item_name" in said else "")


def kind_of(said):
    """Which of EVENTS an object is."""
    if said["event"] != "section":
        return said["event"]
    if said["name"] is None:
        assert said["id"] not in standard.NAMES or set(said) == {"event", "range", "id", "name"}, said
        return "unknown"
    assert standard.NAMES[said["id"]] == said["name"], said
    return said["name"] if said["name"] in EVENTS else "section"


def fault_of(said):
    """The message of a fault, with its number."""
    return said["fault"] + ("" if said["number"] is None else ": %d" % said["number"])


def event_line(said):
    """The line of an object of the first level, which has no other members."""
    form, known = EVENTS[kind_of(said)], {"event", "name", "id", "space", "number", "item_name", "custom_name", "bytes", "item", "custom"}
    assert set(said) - known == set(re.findall(r"\w+(?=\})", form)) - known, said
    values = {**said, "range": " ".join(map(str, said.get("range", ())))}
    values["number"] = numbered(said) if said["event"] == "body" else None
    values["bytes"] = "range" in said and "size=%d" % (said["range"][1] - said["range"][0])
    values["item"], values["custom"] = (quoted(said[name]) if name in said else "" for name in ("item_name", "custom_name"))
    values["fault"] = said["event"] == "fault" and fault_of(said)
    return form.format(**values).strip()


def field(name, value, said):
    """A field of a line. What is false or null has none."""
    if value is None or value is False:
        return ""
    is_subsection_or_symbol = said["level"] == 2 or said.get("space") == "symbol"
    if name in WORDS or name == "prefix" and isinstance(value, str) or name == "kind" and is_subsection_or_symbol:
        return value
    if name == "flags" and "flag_words" in said:
        value = MODEL.flags_text(value, MODEL.SEGMENT_FLAGS if "alignment" in said else MODEL.SYMBOL_FLAGS)
        assert value == said["flag_words"], said
    if name == "item_name":
        return quoted(value)
    if name in RAW and int(value.split(":")[0]) > 16:
        value += ".."
    if isinstance(value, list):
        return "%s=%d..%d" % (name, *value)
    text = quoted(value) if name in QUOTED and isinstance(value, str) else str(value)
    return "%s=%s" % (name, "true" if value is True else text)


def item_line(said):
    """The line of an object of another level."""
    if "fault" in said:
        words = ["fault %d %s" % (said["offset"], fault_of(said))]
    else:
        words = [str(said.get("at", "")), said.get("line", ""), numbered(said)]
        apart = APART | ({"item_name"} if "space" in said else set())
        words += [field(name, value, said) for name, value in said.items() if name not in apart]
    return "  " * said["level"] + " ".join(filter(None, words))


def objects_in(output, path):
    """The objects of a dump of a file, of which each says at its end which file it is of."""
    objects = [json.loads(text, object_pairs_hook=once) for text in output.decode().splitlines()]
    for said in objects:
        assert list(said)[-1] == "file" and said.pop("file") == path, "an object of another file than %s: %s" % (path, said)
    return objects


def check_objects(lines, objects):
    assert len(objects) == len(lines), "%d objects of %d lines" % (len(objects), len(lines))
    custom = None
    for line, said in zip(lines, objects):
        custom = said.get("custom_name") if "event" in said else custom
        assert "event" in said or said["level"] > 1 or custom is None or said["name"] == custom, "%s is custom_name of %s" % (custom, line)
        wanted = event_line(said) if "event" in said else item_line(said)
        assert wanted == line, "the object of the line %s in place of %s" % (wanted, line)


# ---- bytes, offsets and files

def check_rows_before(line, start, end):
    """The rows before the line of an item, which show these bytes, begin with its first byte."""
    item = re.match(r" +(\d+) ", line)
    assert not item or int(item[1]) == start < end, "the bytes %d..%d before %s" % (start, end, line)


def check_bytes(lines, output, stream):
    others, shown, start = [], b"", 0
    for line in output.decode().splitlines():
        row = ROW.match(line)
        if row:
            assert int(row.group(1)) == len(shown), "the row %s after %d bytes" % (line, len(shown))
            shown += bytes.fromhex(row.group(2))
        else:
            check_rows_before(line, start, len(shown))
            others.append(line)
            start = len(shown)
    assert others == lines, "other lines than without bytes"
    assert stream.startswith(shown), "other bytes than those of the stream"
    assert lines[-1].startswith("fault") or shown == stream, "%d bytes of %d" % (len(shown), len(stream))


def check_hexadecimal(output, hexadecimal):
    for line, other in zip_longest(output.decode().splitlines(), hexadecimal.decode().splitlines(), fillvalue=""):
        assert other == in_hex(line), "%s in place of %s" % (other, in_hex(line))


class Dumps:
    """The dumps of a stream, which is in a file. All have the same status."""

    def __init__(self, words, path):
        self.words, self.path, self.statuses = words, path, set()

    def run(self, *words):
        output, status, _ = programs.run([*self.words, *words, self.path])
        self.statuses.add(status)
        return output

    def check(self, stream):
        text, rows, hexadecimal = self.run(), self.run("--bytes"), self.run("--hex")
        lines, with_names = text.decode().splitlines(), self.run("--names").decode().splitlines()
        check_objects(lines, objects_in(self.run("--json"), self.path))
        for found in map(common.first_difference, (lines, with_names), dumps(MODEL, stream)):
            assert not found, found
        check_objects(with_names, objects_in(self.run("--names", "--json"), self.path))
        check_bytes(lines, rows, stream)
        check_hexadecimal(text, hexadecimal)
        check_hexadecimal(rows, self.run("--hex", "--bytes"))
        assert COLOR.sub(b"", self.run("--color", "--hex")) == hexadecimal, "another text with colors"
        assert len(self.statuses) == 1, "statuses %s" % sorted(self.statuses)

    def check_files(self):
        """Two files: the first line, and each object, of each have its path as it was given."""
        lines, objects = self.run(self.path).decode().splitlines(), objects_in(self.run("--json", self.path), self.path)
        alone, alone_objects = self.run().decode().splitlines(), objects_in(self.run("--json"), self.path)
        assert lines == 2 * [self.path + ":", *alone], "other lines of two files"
        assert objects == 2 * alone_objects, "other objects of two files"


def forms_differ(words, stream):
    """What differs of the dumps of a stream; of each tenth two files are dumped too."""
    with tempfile.NamedTemporaryFile(suffix=".wasm") as file:
        common.write(file.name, stream)
        dumps = Dumps(words, file.name)
        try:
            dumps.check(stream)
            if sum(stream) % 10 == 0:
                dumps.check_files()
        except (AssertionError, AttributeError, LookupError, TypeError, ValueError) as error:
            return "%s: %s" % (type(error).__name__, str(error)[:400])
    return None


def main():
    given = comparing.arguments(__doc__, "dump", numbers=[("seed", 1), ("count", 300)], files=True)
    rng = random.Random(given.seed)
    # Two sections of names, a shared memory, and a section of a component with an id that modules have.
    streams = [named_module(), named_module() + other_names(), module(section(5, b"\1\3\1\2")), COMPONENT + section(1, b"\0")]
    streams += [stream for stream, _ in common.golden()] + [(stream_of if number % 2 else some_stream)(rng) for number in range(given.count)]
    streams += map(common.read_bytes, given.files)
    return comparing.compare(given, streams, comparing.one_by_one(lambda stream: forms_differ(given.command, stream)))
