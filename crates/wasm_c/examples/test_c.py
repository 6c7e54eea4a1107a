"""Builds the C library by both compilers, and runs its examples under sanitizers and valgrind against a model and golden streams.

    tools/try c               everything, with 300 random streams from seed 1, half of them modules with items
    tools/try c 7 2000        2000 random streams, from seed 7
    tools/try c --archive A   the archive A, in place of those that are built here; more than one may be given

Each stream is listed in pieces of 1, 7, 100 and 65,536 bytes and whole, with its items, stripped and edited; every repeated byte is tried as a parser.
Its parts are skipped in random orders, and edits have bytes around their results that must not change.
Random calls of all functions, in any order that the header allows, return for a minute what they return in plain order (tools/lib/sequences.c).
The package for Python also reads 20,000 streams with changed bytes, and must not make memory grow.
The examples of the header run too, and Doxygen reads it without a warning. What a machine lacks (a compiler, valgrind) is said in one line, and the rest is done.
"""
import contextlib
import itertools
import os
import random
import re
import shutil
import subprocess
import sys
import tempfile
from concurrent.futures import ThreadPoolExecutor

import common
import modelled
import programs
import sequences as tables
import suites
from modules import mutants

CRATE = os.path.join(common.TOP, "crates", "wasm_c")
MUTANTS = 20_000
# How many orders of skips are tried of each stream, and how long random calls are tried.
ORDERS = 100
SECONDS = 60
PIECES = (1, 7, 100, 65536)
# How many items a call stores, in turn.
BATCHES = (64, 1, 3)
# Each build of an example lists every third stream, so that each stream is listed by a third of them. Of fewer builds, one lists it.
TURNS = 3
WARNINGS = ["-Wall", "-Wextra", "-Wpedantic", "-Werror"]
CHECKED = ["-g", "-O1", "-fsanitize=address,undefined", "-fno-sanitize-recover=all"]
# The examples, with the standards that each is built by.
PROGRAMS = {"list.c": ("c99", "c11"), "whole.cpp": ("c++11", "c++17")}
PROGRAMS.update({name: ("c99",) for name in ("items.c", "imports.c", "calls.c", "patterns.c", "strip.c", "edit.c", "fuzz.c", "names.c", "guards.c", "skips.c")})


def run(command, stream=b"", **options):
    return subprocess.run(command, input=stream, stdout=subprocess.PIPE, stderr=subprocess.STDOUT, **options)


# ---- the archives and the programs


def archives(folder):
    """The archive as each compiler of the toolchain makes it."""
    if not shutil.which("rt"):
        common.stop(common.NO_PROGRAM, "rt is not on the path, and no --archive is given")
    made = {}
    for name, words in (("rattle", ["--backend", "rattle"]), ("llvm", [])):
        common.must(["rt", "lib", *words], folder=CRATE)
        made[name] = os.path.join(folder, name + ".a")
        shutil.copy(os.path.join(CRATE, "out", "libwasm_c.a"), made[name])
    return made


def compiled(folder, compiler, example, standard, flags, archive, name):
    stem = os.path.basename(example).partition(".")[0]
    path = os.path.join(folder, "_".join([stem, os.path.basename(compiler), standard.replace("+", "p"), name]))
    words = [compiler, "-std=" + standard, *WARNINGS, *flags, "-I" + os.path.join(CRATE, "include"), os.path.join(CRATE, "examples", example)]
    common.must(words + [archive, "-o", path])
    return path


def examples(folder, pair, options, library, name, suffix=""):
    """The path of each example, compiled by a compiler for C or one for C++ with these options and a library."""
    made = {}
    with ThreadPoolExecutor(4) as pool:
        for example, standards in PROGRAMS.items():
            made[example.partition(".")[0]] = pool.submit(compiled, folder, pair[example.endswith("pp")], example, standards[0], options, library, name)
    return {example: path.result() + suffix for example, path in made.items()}


def compilers():
    for c, cpp in (("gcc", "g++"), ("clang", "clang++")):
        if common.all_found([c, cpp]):
            yield c, cpp


def kinds_of_flags(folder, c):
    """The flags with which this machine's compiler makes programs that run: a machine may lack the sanitizers, or forbid them."""
    source, probe = common.write(os.path.join(folder, "probe.c"), "int main(void) { return 0; }\n"), os.path.join(folder, "probe")
    for flags in (["-O2"], CHECKED):
        if run([c, *flags, source, "-o", probe]).returncode or run([probe]).returncode:
            common.skip("missing: %s %s" % (c, " ".join(flags)))
        else:
            yield flags


def built_examples(folder, made):
    """Each example as each compiler makes it, with the sanitizers and without; the first of them is the one that valgrind runs."""
    built = {}
    for c, cpp in compilers():
        kinds = list(kinds_of_flags(folder, c))
        for example, standards in PROGRAMS.items():
            for standard, (kind, archive), flags in itertools.product(standards, made.items(), kinds):
                compiler, name = cpp if example.endswith("pp") else c, kind + "_checked" * (flags is CHECKED)
                path = compiled(folder, compiler, example, standard, flags, archive, name)
                built.setdefault(example.partition(".")[0], []).append(path)
    return built


# ---- what they say


def difference(command, stream, wanted, status):
    """How what a program writes of a stream, and its status, differ from what is wanted: bytes, or the lines of a model."""
    done = subprocess.run(command, input=stream, stdout=subprocess.PIPE, timeout=600)
    if isinstance(wanted, bytes):
        found = done.stdout != wanted and "program %r\n  wanted  %r" % (done.stdout, wanted)
    else:
        found = common.first_difference(programs.lines_in(done.stdout), wanted)
    if not found and done.returncode == status:
        return None
    return "%s on %s\n  status %d, %s" % (" ".join(command), stream.hex()[:400], done.returncode, found or "and no line differs")


def differences(rows):
    """The differences of these rows, each with the arguments of `difference`, four at a time."""
    with ThreadPoolExecutor(4) as pool:
        return [text for text in pool.map(lambda row: difference(*row), rows) if text]


def each(paths, streams, wanted_of, more=lambda number, turn: [], every=None, stride=1):
    """How what an example writes of each stream, and its status, differ from what is wanted.

    Its builds take turns, each with `stride` streams: one of all builds at a time, or one of every few. `more` has other arguments.
    """
    every, rows = min(every or len(paths), len(paths)), []
    for number, (stream, lines) in enumerate(streams):
        for turn, path in enumerate(paths, number // stride):
            if turn % every == 0:
                rows.append(([path, *more(number, turn)], stream, wanted_of(number, stream, lines), modelled.status(lines)))
    return differences(rows)


def compared(built, streams):
    """The events of each stream, in chunks and whole, and its items, some by a call."""

    def events_of(_number, _stream, lines):
        return modelled.events(lines)

    def items_of(_number, _stream, lines):
        return modelled.without_ranges(lines)

    return [
        *each(built["list"], streams, events_of, lambda _, turn: [str(PIECES[turn % len(PIECES)])], TURNS),
        *each(built["whole"], streams, events_of, every=TURNS),
        *each(built["items"], streams, items_of, lambda _, turn: [str(BATCHES[turn // TURNS % len(BATCHES)])], TURNS),
    ]


def stripped(built, streams):
    """Each stream stripped, as the model has it, or nothing if it has a fault."""
    return each(built["strip"], streams, lambda _, stream, lines: modelled.stripped(stream, lines))


def edited(built, streams):
    """Each stream after one of the edits, each of which each build makes."""
    return each(built["edit"], streams, modelled.edited, lambda number, _: modelled.edit(number), stride=len(modelled.EDITS))


def named_in(data):
    """The functions that a section of names names, up to the first subsection or name that is malformed or out of order."""
    model = common.load(common.MODEL_OF_ITEMS)
    rest, last = model.R(data), -1
    with contextlib.suppress(model.Fault):
        while rest.left() and rest.peek() > last:
            last, size = rest.u7(), rest.u32()
            part, before = rest.window(rest.p, rest.p + len(rest.raw(size))), -1
            for _ in range(part.u32() if last == 1 else 0):
                index, name = part.u32(), part.string(True)
                if index <= before:
                    return
                before = index
                yield b"%d %s\n" % (index, name)


def names(built, streams):
    """The names of functions, as `names.c` and as a few lines of Python have them."""

    def wanted_of(_, stream, lines):
        sections = [line.split() for line, under in zip(lines, lines[1:]) if line.startswith("custom ") and under.startswith("  x6e616d65 ")]
        return b"".join(name for _, _, end, data in sections for name in named_in(stream[int(data) : int(end)]))

    return each(built["names"], streams, wanted_of)


def imports(built, streams):
    """The imports one by one, as `imports.c` has them, and as the model has them among all items."""

    def wanted_of(_number, _stream, lines):
        rows = re.findall(r"^  \d+ import\((x\w*) (x\w*) (\w+)", "\n".join(lines), re.M)
        return "".join("%s %s %s\n" % row for row in rows).encode()

    return each(built["imports"], streams, wanted_of, lambda number, _: [str(BATCHES[number % len(BATCHES)])])


def called(built, streams):
    """Each stream with skips in any order, and with bytes that guard the results of edits."""
    def call(row):
        number, (stream, _) = row
        for name, words in (("skips", [str(ORDERS)]), ("guards", modelled.edit(number))):
            paths = built[name]
            common.must([paths[number % len(paths)], *words], stream=stream)

    with ThreadPoolExecutor(4) as pool:
        list(pool.map(call, enumerate(streams)))


def patterns(built, streams):
    """Worked calls, every repeated byte as a parser, and each stream whole and in chunks."""
    for path in built["calls"]:
        common.must([path])
    for path in built["patterns"]:
        for stream, _ in streams[:: max(1, len(streams) // 20)]:
            common.must([path], stream=stream)
    with ThreadPoolExecutor(4) as pool:
        list(pool.map(lambda row: common.must([built["fuzz"][-1]], stream=row[0]), streams))


COMPARISONS = (compared, stripped, edited, names, imports)


def all_differences(built, streams):
    """How the examples differ from the models; one stream in ten is tried as a pattern."""
    patterns(built, streams[::10])
    called(built, streams[::10])
    return [text for test in COMPARISONS for text in test(built, streams)]


def documented():
    """A program of the examples in the doc comments of the sources, which the header has too: a function for each."""
    names, text = [], "#include <assert.h>\n#include <string.h>\n#include <pulleynavy.h>\n"
    for path in [*common.files_of("wasm_c_items"), *common.files_of("wasm_c")]:
        if path.endswith(".rt"):
            blocks = re.findall(r"^ */// ```c\n((?: *///.*\n)*?) */// ```$", common.read(path), re.M)
            for lines in blocks:
                names.append("%s_%d" % (os.path.basename(path)[:-3], len(names)))
                text += "\nstatic void %s(void) {\n%s}\n" % (names[-1], re.sub(r"^ */// ?", "    ", lines, flags=re.M))
    common.require(names, "the sources have no examples for C")
    return text + "\nint main(void) {\n%s    return 0;\n}\n" % "".join("    %s();\n" % name for name in names)


def header_examples(folder, made):
    """Builds and runs the examples of the header."""
    path = os.path.join(folder, "documented.c")
    common.write(path, documented())
    for c, _ in compilers():
        for flags in kinds_of_flags(folder, c):
            for kind, archive in made.items():
                common.must([compiled(folder, c, path, "c99", flags, archive, "documented_" + kind)])


def sequences(folder, made, streams, seed):
    """Random calls in any order, with the sanitizers: each build has its share of a minute. Returns what they say."""
    tables.written(folder)
    path = tables.with_sizes(os.path.join(folder, "sequences.streams"), [stream for stream, _ in streams])
    builds = [(c, archive, kind) for c, _ in compilers() if CHECKED in kinds_of_flags(folder, c) for kind, archive in made.items()]
    words = [str(seed), str(SECONDS // max(1, len(builds))), path]
    for c, archive, kind in builds:
        program = compiled(folder, c, tables.SOURCE, "c11", [*CHECKED, "-I" + folder], archive, "sequences_" + kind)
        print("%s, %s: %s" % (c, kind, common.must([program, *words]).strip()), flush=True)


def under_valgrind(built, streams):
    if not shutil.which("valgrind") or run(["valgrind", "--quiet", "true"]).returncode:
        common.skip("missing: a valgrind that runs")
        return []
    words = ["valgrind", "--quiet", "--error-exitcode=99", "--leak-check=full"]
    path_of = lambda name: next(path for path in built[name] if not path.endswith("_checked"))
    rows = []
    for stream, lines in streams[:: max(1, len(streams) // 12)]:
        rows.append(([*words, path_of("list"), "7"], stream, modelled.events(lines), modelled.status(lines)))
        rows.append(([*words, path_of("items")], stream, modelled.without_ranges(lines), modelled.status(lines)))
    return differences(rows)


# The standards by which the header compiles, and those whose compilers check its assertions.
STANDARDS = {"c": ["c89", "c99", "c11", "c17"], "cpp": ["c++98", "c++11", "c++17"]}
ASSERTING = ("c11", "c17", "c++11", "c++17")
CALLER = "#include <pulleynavy.h>\n#include <pulleynavy.h>\n\nuint32_t version(void);\nuint32_t version(void) { return pulleynavy_version(); }\n"


def header_alone(folder):
    """Compiles the header by each standard without a warning. Where there are assertions, one of a wrong layout is refused."""
    wrong = re.sub(r"sizeof\(pulleynavy_event\) == 96\b", "sizeof(pulleynavy_event) == 97", common.read(os.path.join(CRATE, "include", "pulleynavy.h")))
    for name, text in (("caller.c", CALLER), ("caller.cpp", CALLER), ("wrong/pulleynavy.h", wrong)):
        common.write(os.path.join(folder, name), text)
    for pair in compilers():
        for compiler, (kind, standards) in zip(pair, STANDARDS.items()):
            for standard in standards:
                words = [compiler, "-std=" + standard, *WARNINGS, "-fsyntax-only", os.path.join(folder, "caller." + kind)]
                common.must([*words, "-I" + os.path.join(CRATE, "include")])
                if bool(run([*words, "-I" + os.path.join(folder, "wrong")]).returncode) != (standard in ASSERTING):
                    raise common.Failed("%s with %s checks the layout: %s" % (compiler, standard, standard not in ASSERTING))


def with_doxygen(folder):
    """The reference that Doxygen makes of the header, without a warning."""
    if common.found("doxygen"):
        place = os.path.join(folder, "doxygen")
        os.makedirs(place, exist_ok=True)
        common.must(["doxygen"], folder=CRATE, env={"OUT": place, "VERSION": common.version()})


# ---- the bindings


def with_python(folder, archive, streams, changed, is_first):
    """The module for Python over a shared library, which is made of the archive. `changed` are streams that only it reads. Types don't depend on it."""
    if not common.found("cc"):
        return
    library = os.path.join(folder, "libpulleynavy.so")
    common.must([os.path.join(common.TOP, "tools", "shared_library"), archive, library])
    os.environ["PULLEYNAVY_LIB"] = library
    package = os.path.join(common.TOP, "bindings", "python")
    os.environ["PULLEYNAVY_STREAMS"] = modelled.write(os.path.join(folder, "streams.jsonl"), streams + changed)
    suites.passed_in_python(common.must([sys.executable, "-B", "-m", "unittest", "discover", "-q", "-s", "tests", "-t", "."], folder=package))
    if is_first and common.found("mypy"):
        common.must(["mypy", "--strict", "--cache-dir", os.path.join(folder, "mypy"), "pulleynavy", "tests"], folder=package)


def main():
    more = [("--archive", {"metavar": "FILE", "type": common.existing, "action": "append", "help": "an archive, instead of those that are built here"})]
    given = common.arguments(__doc__, [("seed", 1), ("count", 300)], more=more)
    streams = common.golden() + modelled.drawn(given.seed, given.count)
    with tempfile.TemporaryDirectory() as folder:
        made = {"given%d" % number: path for number, path in enumerate(given.archive)} if given.archive else archives(folder)
        built = built_examples(folder, made)
        if not built:
            return 0
        header_alone(folder)
        header_examples(folder, made)
        with_doxygen(folder)
        patterns(built, streams)
        called(built, streams)
        sequences(folder, made, streams, given.seed)
        differ = [text for test in (*COMPARISONS, under_valgrind) for text in test(built, streams)]
        changed = [(stream, modelled.listed(stream)) for stream in mutants(random.Random(given.seed), [stream for stream, _ in common.golden()], MUTANTS)]
        for number, archive in enumerate(made.values()):
            with_python(folder, archive, streams, changed[number :: len(made)], number == 0)
    count = sum(len(paths) for paths in built.values())
    return common.tell(differ, "%d programs, %d streams, %d differ (seed %d)" % (count, len(streams), len(differ), given.seed))
