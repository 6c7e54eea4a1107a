"""Compares what `wasm_encode` writes, as cargo builds it, with the models, and has Node validate random modules."""
import collections
import os
import random
import re
import shutil
import subprocess
import tempfile

import cargo
import common
import modelled
from modules import stream_of
from streams import some_stream

# Reads modules in hexadecimal, one a line, and says which are not valid.
VALIDATE = """
const lines = require("fs").readFileSync(0, "latin1").trim().split("\\n");
lines.forEach((line, at) => { if (!WebAssembly.validate(Buffer.from(line, "hex"))) console.log(at); });
"""


def built(folder):
    """The program that writes modules, as cargo builds it of a copy of these sources."""
    clone, target = os.path.join(folder, "clone"), os.path.join(folder, "target")
    cargo.copied(clone)
    common.must(["cargo", "build", "--offline", "--quiet", "--example", "modules", "--target-dir", target], folder=clone)
    return os.path.join(target, "debug", "examples", "modules")


def lines_of(words, lines=()):
    text = "".join(line + "\n" for line in lines).encode()
    return subprocess.run(words, input=text, stdout=subprocess.PIPE, check=True).stdout.decode().splitlines()


def without_places(lines):
    """The lines of the models without what depends on how numbers are spelled: offsets, ranges and the size of the code section."""
    for line in lines:
        line = re.sub(r"^( +)\d+ ", r"\1", line)
        line = re.sub(r"\b\d+\.\.\d+\b", "..", line)
        line = re.sub(r"(?<=[\[ ])\d+:|(?<=fault )\d+ |(?<= at )\d+ ", "", line)
        words = line.split(" ")
        kept = {"section": [1, 4], "start": [3], "datacount": [3], "code": [3], "version": [3, 4]}
        if words[0] in ("section", "start", "datacount", "code", "version", "body", "custom", "end"):
            line = " ".join([words[0], *(words[at] for at in kept.get(words[0], []))])
        yield line


def difference(stream, written):
    """What is wrong with a stream that was written again, or None."""
    if written == stream.hex():
        return None
    lines = modelled.listed(stream)
    faulty = any("fault" in line.split(" ") for line in lines)
    if not re.fullmatch("([0-9a-f]{2})+", written):
        return None if faulty or not written.startswith("Malformed") else "%s: %s, and the model finds no fault" % (stream.hex(), written)
    again = bytes.fromhex(written)
    if len(again) > len(stream):
        return "%s is written as %s, which is longer" % (stream.hex(), written)
    return common.first_difference(list(without_places(modelled.listed(again))), list(without_places(lines)))


def random_module(line):
    """What is wrong with a random module, by the model, or None."""
    digits, *wanted = line.split(" ")
    lines = modelled.events(modelled.listed(bytes.fromhex(digits)))
    sections = [words[1] + ":" + words[4] for words in (line.split(" ") for line in lines) if words[0] == "section"]
    sections += ["10:" + words[3] for words in (line.split(" ") for line in lines) if words[0] == "code"]
    is_whole = lines[-1].startswith("end ") and sorted(sections) == sorted(wanted)
    return None if is_whole else "%s: the model finds %s" % (line, lines)


def validated(modules):
    """The random modules that Node finds invalid."""
    node = shutil.which("node")
    if not node:
        common.skip("missing: nodejs")
        return []
    return ["%s is not valid" % modules[int(at)] for at in lines_of([node, "-e", VALIDATE], [line.split(" ")[0] for line in modules])]


def main():
    """Compares what `wasm_encode` writes, as cargo builds it, with the models, and has Node validate random modules.

    tools/compare writing                     2,000 random streams and as many random modules, and the golden streams
    tools/compare writing 7 10000 FILE..      10,000 of each, from seed 7, and these modules

    A stream whose items are sound is written again. It has the same bytes, or fewer where it spells something in more than it needs; then the models read
    the same of both. Random modules are those of `tools/cargo/modules.rs`: the model finds their sections, and they are valid. Status 3: there is no cargo.
    """
    given = common.arguments(main.__doc__, [("seed", 1), ("count", 2_000)], files=True)
    if not cargo.found():
        return common.NO_PROGRAM
    rng, kinds = random.Random(given.seed), collections.Counter()
    streams = [(stream_of if number % 4 else some_stream)(rng) for number in range(given.count)]
    streams += [stream for stream, _ in common.golden()] + list(common.modules_of(given.files))
    with tempfile.TemporaryDirectory() as folder:
        program = built(folder)
        written = lines_of([program], [stream.hex() for stream in streams])
        modules = lines_of([program, str(given.count)])
    differ = [wrong for wrong in map(difference, streams, written) if wrong]
    for stream, line in zip(streams, written):
        kinds["the same bytes" if line == stream.hex() else "fewer bytes" if line.startswith("0061736d") else re.split(r"[ {]", line)[0].strip("()")] += 1
    differ += [wrong for wrong in map(random_module, modules) if wrong] + validated(modules)
    print("; ".join("%s: %d" % pair for pair in sorted(kinds.items())))
    return common.tell(differ, "%d streams and %d random modules, %d differ (seed %d)" % (len(streams), len(modules), len(differ), given.seed))
