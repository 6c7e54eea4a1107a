"""Reads modules by the crate `object`, ported over the crate for Rust, and compares what it reads with what it should.

    tools/try object                   10,000 modules, from seed 1
    tools/try object 7 2000            2,000, from seed 7
    tools/try object 7 0 a.wasm b.a    the modules of files, or of archives

Debian's rust-web-src has the sources of `object` 0.37.3, which is written for wasmparser 0.236; bindings/rust/examples/object has the patch and a
program. Debian has no wasmparser to compare with, so what should be read is worked out from the models (tools/lib/objects.py). For the streams
of tools/golden.jsonl, which are always read, the models have to say what wasmparser 0.263.0 does. Half of the others are modules with symbols, a
tenth of which have changed bytes; the rest are random streams, modules with items, and these with changed bytes. The status is 1 if a module is
read otherwise.
"""
import os
import random
import shutil
import subprocess
import tempfile

import cargo
import common
import compare_builds
import comparing
import objects
import standard as S
from common import leb
from items import ROWS, mutated
from modules import custom, listed, module, section, text, vector

# Where Debian has the crates that Rust's standard library needs, and the one that is tried.
VENDORED = "/usr/lib/rustlib/src/rust/library/vendor"
OBJECT = "object-0.37.3"
# How many modules one run of the program reads.
BATCH = 1000


# ---- modules with symbols

NAMES = ["", "a", "main", "memory", "\u00e9", 'b"\\\n']
FLAGS = [1, 2, 4, 16, 32, 64, 128, 256, 512, 1024]


def some(rng, make, most=4):
    return [make() for _ in range(rng.randrange(most + 1))]


def item(rng, model, row):
    """An item in which the model finds no fault."""
    while True:
        data = ROWS[row](rng)
        if model.outcome(row, data).endswith(" used %d" % len(data)):
            return data


def symbol(rng):
    which, flags = rng.randrange(6), sum(flag for flag in FLAGS if rng.random() < 0.2)
    index, name, is_undefined = leb(rng.randrange(7)), text(rng.choice(NAMES)), flags & 16
    if which == 1:
        index, name = name, b"" if is_undefined else index + leb(rng.randrange(300)) + leb(rng.randrange(300))
    elif which == 3 or is_undefined and not flags & 64:
        name = b""
    return bytes([which]) + leb(flags) + index + name


def customs(rng, functions):
    """Custom sections of which `object` makes symbols, and others."""
    named = [index for index in range(functions + 2) if rng.random() < 0.7]
    names, symbols = vector([leb(index) + text(rng.choice(NAMES)) for index in named]), vector(some(rng, lambda: symbol(rng), 9))
    known = [custom("name", section(0, text("m")) + section(1, names)), custom("name", section(1, names) + section(4, b"\0"))]
    known += [custom("linking", b"\2" + section(8, symbols)), custom("linking", b"\2" + section(6, b"\0")), custom(".debug_info", b"x"), custom("reloc.", b"")]
    return rng.sample(known, rng.choice([0, 1, 1, 2]))


def with_symbols(rng, model):
    """A module with imports, exports and names, or with a table of symbols."""
    kinds = some(rng, lambda: item(rng, model, "typeref"))
    bodies = some(rng, lambda: bytes(rng.randrange(1, 200)), 5)
    functions = len(bodies) + sum(kind[0] in (0, 0x20) for kind in kinds)
    imports = [text(rng.choice(["env", "env", "wasi"])) + text(rng.choice(NAMES)) + kind for kind in kinds]
    exports = some(rng, lambda: text(rng.choice(NAMES)) + bytes([rng.choice([0, 0, 1, 2, 3, 3, 4])]) + leb(rng.randrange(functions + 1)))
    sections = {
        S.IMPORT_SECTION: imports, S.MEMORY_SECTION: some(rng, lambda: item(rng, model, "memory"), 1), S.EXPORT_SECTION: exports,
        S.GLOBAL_SECTION: some(rng, lambda: item(rng, model, "global")), S.DATA_SECTION: some(rng, lambda: item(rng, model, "data")),
    }
    parts = {ident: listed(ident, items) for ident, items in sections.items() if rng.random() < 0.7}
    parts[S.FUNCTION_SECTION] = listed(S.FUNCTION_SECTION, [b"\0" for _ in bodies])
    parts[S.CODE_SECTION] = listed(S.CODE_SECTION, [leb(len(body)) + body for body in bodies])
    if rng.random() < 0.7:
        parts[S.START_SECTION] = section(S.START_SECTION, leb(rng.randrange(6)))
    data = module(*[parts[ident] for ident in S.ORDER if ident in parts], *customs(rng, functions))
    return mutated(rng, data) if rng.random() < 0.1 else data


# ---- comparing


def built(folder):
    """The program over a copy of these sources, with the crate `object` in it."""
    place = os.path.join(cargo.copied(os.path.join(folder, "clone")), "examples", "object")
    crate = shutil.copytree(os.path.join(VENDORED, OBJECT), os.path.join(place, "object"))
    common.must(["git", "apply", "../object.patch"], folder=crate)
    cargo.write_settings(folder, "directory", VENDORED)
    common.must(["cargo", "build", "--offline", "--quiet", "--target-dir", os.path.join(folder, "target")], folder=place)
    return os.path.join(folder, "target", "debug", "objects")


def read(program, modules):
    """The lines that the program prints of each module."""
    done = subprocess.run([program], input="".join(module.hex() + "\n" for module in modules).encode(), stdout=subprocess.PIPE, stderr=subprocess.PIPE)
    found = [part.split("\n") for part in done.stdout.decode().split("\n\n")[:-1]]
    common.require(done.returncode == 0 and len(found) == len(modules), "status %d: %s" % (done.returncode, done.stderr.decode(errors="replace")))
    return found


def misjudged(model):
    """The golden streams of which the model of items says otherwise than wasmparser does."""
    wrong = ((stream, common.first_difference(model.listing(stream), lines)) for stream, lines in common.golden())
    return ["%s, %s" % (stream.hex(), text) for stream, text in wrong if text]


def compared(given, program, model):
    """Compares what is read of all modules. Returns the status, and how many of them are read whole."""
    rng, streams, whole = random.Random(given.seed), [stream for stream, _ in common.golden()], 0
    streams += [*compare_builds.some(rng, given.count // 2), *(with_symbols(rng, model) for _ in range(given.count - given.count // 2))]
    streams += common.modules_of(given.files)

    def differences(modules):
        nonlocal whole
        found = read(program, modules)
        whole += sum(lines[0].startswith("file ") for lines in found)
        return [common.first_difference(lines, objects.lines_of(model, module)) for lines, module in zip(found, modules)]

    return comparing.compare(given, streams, differences, size=BATCH), whole


def main():
    given = common.arguments(__doc__, [("seed", 1), ("count", 10_000)], files=True)
    if not cargo.found():
        return common.NO_PROGRAM
    if not os.path.isdir(os.path.join(VENDORED, OBJECT)):
        common.skip("missing: %s, which Debian's rust-web-src 1.96 has" % OBJECT)
        return 0
    model = common.load(common.MODEL_OF_ITEMS)
    wrong = misjudged(model)
    if wrong:
        return common.tell(wrong, "the model says otherwise than wasmparser of %d golden streams" % len(wrong))
    with tempfile.TemporaryDirectory() as folder:
        status, whole = compared(given, built(folder), model)
    print("object: %d modules are read whole, and of the others the same fault is reported" % whole)
    return status
