"""Counts the instructions of the library and the program on files that it makes, or on FILE.., times them, and prints tables.

    tools/bench tables                           all the tables
    tools/bench tables --count                   the instructions alone, which other work on the machine doesn't change
    tools/bench tables --sizes 1 --only names    one size, and the rows that contain a word
    tools/bench tables --count --original DIR    next to the source of wasmparser in DIR
    tools/bench tables a.wasm                    a file of one's own

It proves and builds the benchmark, benches/, and the programs where they aren't built from these sources, and the C library where the prebuilt one
isn't. Instructions are counted by callgrind, where valgrind is there, on files of a tenth of the size. The made files are as large as their row says,
times each of the sizes; --only takes the rows that contain WORD. Times in memory are of the fastest of the rounds of a second, all in one process.
`tools/bench files` has times of processes. Where there are compilers for C and for Rust, a table has the events from these beside those from Rattle.
Machines differ, so read times as ratios.

--original builds bench.rs of bindings/rust/examples/programs over a crate with the API of wasmparser, with link-time optimization
(`-C lto=fat`), and counts the same work on the same files. The checksums must agree. Cargo runs offline, so the crate's dependencies
must be on the machine.
"""
import argparse
import json
import os
import re
import shutil
import subprocess
import tempfile

import benchmark
import cargo
import common
import programs
import standard as S
import trial
from common import leb
from modules import custom, listed, module, section, text

PROGRAM, LISTER, DUMPER = benchmark.PROGRAM, programs.path_of("wasm_list"), programs.path_of("pulleynavy")
EVENT_WAYS = ["parse", "parse_all", "frames", "65536", "4096", "100", "16", "1"]
# The program of the crate for Rust's examples that reads as the benchmark does.
ORIGINAL = os.path.join(common.TOP, "bindings", "rust", "examples", "programs", "src", "bin", "bench.rs")
# The manifest: the crate's folder, name and features.
MANIFEST = common.read("tools", "benches", "original.toml")


# ---- the files

# An item of each kind, by its number.
TYPE, CODE = (lambda i: b"\x60\2\x7f\x7e\1\x7f"), (lambda i: b"\2\0\x0b")
IMPORT, EXPORT = (lambda i: text("env") + text("import%d" % i) + b"\0\0"), (lambda i: text("export%d" % i) + b"\0" + leb(i))
GLOBAL, DATA = (lambda i: b"\x7f\1\x41" + leb(i % 64) + b"\x0b"), (lambda i: b"\0\x41" + leb(i % 64) + b"\x0b" + leb(20) + b"d" * 20)
NAMING, SYMBOL = (lambda i: leb(i) + text("function%d" % i)), (lambda i: b"\0\0" + leb(i) + text("symbol%d" % i))
RELOCATION = lambda i: b"\0" + leb(7 * i) + leb(i % 1000)


def items(ident, one):
    """What makes a module with a section of items."""
    return lambda count: module(listed(ident, map(one, range(count))))


def in_custom(name, before, one):
    """What makes a module with a custom section of items after these bytes; those of names and symbols are in a subsection."""
    def make(count):
        content = leb(count) + b"".join(map(one, range(count)))
        return module(custom(name, before + (section({"name": 1, "linking": 8}[name], content) if name != "reloc.CODE" else content)))

    return make


def bodies(size):
    """What makes a module with bodies that take this many bytes each, with their size of up to two bytes."""
    number = leb(size - len(leb(size - 2)))
    body = number + b"\0" + b"\1" * (size - len(number) - 2) + b"\x0b"
    return lambda count: module(listed(S.TYPE_SECTION, [b"\x60\0\0"]), listed(S.FUNCTION_SECTION, [b"\0"] * count), listed(S.CODE_SECTION, [body] * count))


def segment(index):
    """What makes a module with an element segment of indices."""
    return lambda count: module(section(S.ELEMENT_SECTION, b"\1\0\x41\0\x0b" + leb(count) + b"".join(leb(index(i)) for i in range(count))))


def functions(count):
    # A module with functions and no code is refused at its end, so these are the bodies too.
    return module(listed(S.FUNCTION_SECTION, (leb(i % 300) for i in range(count))), listed(S.CODE_SECTION, map(CODE, range(count))))


def items_of_each_kind(count):
    """As many types, imports, functions, globals, exports, bodies and data segments, and twice as many names."""
    numbers, naming = range(count), leb(2 * count) + b"".join(map(NAMING, range(2 * count)))
    kinds = [(S.TYPE_SECTION, TYPE), (S.IMPORT_SECTION, lambda i: IMPORT(i)[:-1] + leb(i)), (S.FUNCTION_SECTION, leb), (S.GLOBAL_SECTION, GLOBAL),
             (S.EXPORT_SECTION, EXPORT), (S.CODE_SECTION, lambda i: b"\x09\0" + b"\1" * 7 + b"\x0b"), (S.DATA_SECTION, DATA)]
    return module(*(listed(ident, map(one, numbers)) for ident, one in kinds), custom("name", section(1, naming)))


# What each made file holds, how many of them, how it is made, and the ways in memory. The last says which count the time is shared
# among: what the program counted, or the number of things made.
MADE = [
    ("custom sections", 200_000, lambda count: module(*(custom("custom%d" % (i % 10), b"data") for i in range(count))), EVENT_WAYS, False),
    ("bodies of 1,000 bytes", 40_000, bodies(1000), EVENT_WAYS, False),
    ("bodies of 99 bytes", 200_000, bodies(99), ["parse", "parse_all", "frames"], False),
    ("unknown sections", 200_000, lambda count: module(*(section(14 + i % 100, b"x" * 20) for i in range(count))), ["parse", "frames"], False),
    ("indices of one byte", 1_000_000, segment(lambda i: i % 128), ["indices", "items"], True),
    ("indices, a tenth of two bytes", 1_000_000, segment(lambda i: 300 if i % 10 == 9 else i % 128), ["indices", "items"], True),
    ("functions", 100_000, functions, ["items"], False),
]
MADE += [(name, 100_000, make, ["items"], False) for name, make in [
    ("imports", items(S.IMPORT_SECTION, IMPORT)), ("exports", items(S.EXPORT_SECTION, EXPORT)), ("globals", items(S.GLOBAL_SECTION, GLOBAL)),
    ("data segments", items(S.DATA_SECTION, DATA)), ("types of two parameters and a result", items(S.TYPE_SECTION, TYPE)),
    ("names", in_custom("name", b"", NAMING)), ("symbols", in_custom("linking", b"\2", SYMBOL)), ("relocations", in_custom("reloc.CODE", b"\3", RELOCATION))]]
WORDS = {
    "parse": "an event, parse",
    "parse_all": "an event, parse_all",
    "frames": "a frame",
    "65536": "an event, chunks of 64 KiB",
    "4096": "an event, chunks of 4 KiB",
    "100": "an event, chunks of 100 bytes",
    "16": "an event, chunks of 16 bytes",
    "1": "an event, chunks of 1 byte",
    "items": "an item",
    "indices": "an index, walked",
}


# ---- instructions

PARSE = "wasm_parser::parser::Parser::parse"
# The function of the benchmark that goes a way; any other way is the size of a feeder's chunks.
READERS = {"parse": "events::parse", "parse_all": "events::parse_all", "frames": "events::frames", "items": "items::walk_items", "indices": "items::walk_items"}


def called_by_us(way):
    """The word for a way, and the function whose calls are counted. Of a way that a program lacks there is neither."""
    return way, "wasm_bench::" + READERS.get(way, "events::feed")


def called_in_c(way):
    """Many events by one call are next to the walk over all of them."""
    return {"items": None, "indices": None, "frames": None, "parse": ("parse", "whole"), "parse_all": ("batch", "in_batches")}.get(way, (way, "in_pieces"))


def called_at_limit(way):
    return {"parse": ("parse", "limit_parse"), "items": ("items", "limit_items"), "indices": ("indices", "limit_items")}.get(way)


def called_in_original(way):
    return (way, "original_" + way.replace("indices", "items")) if way in READERS and way != "frames" else None


def calls_in(profile):
    """The calls that a file of callgrind has, each as its caller, what is called, how often, and the instructions under it."""
    names, caller, called = {}, None, None

    def name(word):
        number, _, text = word.partition(" ")
        return names.setdefault(number, re.sub(r"('\d+)?( \[.*\])?$", "", text))

    for fn, cfn, count, under in re.findall(r"^(?:fn=(.*)|cfn=(.*)|calls=(\d+) .*\n\S+ (\d+))$", common.read(profile), re.M):
        if fn:
            caller = name(fn)
        elif cfn:
            called = name(cfn)
        else:
            yield caller, called, int(count), int(under)


def profiled(command, path, folder):
    """What a program wrote under callgrind, and its calls."""
    profile = os.path.join(folder, "profile")
    with open(path, "rb") as data:
        valgrind = ["valgrind", "--tool=callgrind", "--callgrind-out-file=" + profile]
        done = subprocess.run(valgrind + command, stdin=data, stdout=subprocess.PIPE, stderr=subprocess.DEVNULL)
    return done.stdout.decode(errors="replace"), list(calls_in(profile))


def of_a_unit(wrote, calls, reader, units):
    """The instructions of a unit in the rounds of a function. With no number of units it is what the program counted."""
    rounds = [(count, under) for _, called, count, under in calls if called == reader]
    units = units or int((wrote.split() + ["0", "0"])[1])
    if not rounds or not units:
        return "-"
    return "%.1f" % (sum(under for _, under in rounds) / sum(count for count, _ in rounds) / units)


def of_process(calls):
    """The instructions of a whole process."""
    return max((under for _, _, _, under in calls), default=0)


def counted(program, called, path, units, folder):
    """The instructions of a unit, what a program wrote but the time, and its calls. Without a program, or a word for it, nothing."""
    if not program or not called:
        return "-", None, []
    wrote, calls = profiled([program, called[0]], path, folder)
    return of_a_unit(wrote, calls, called[1], units), wrote.split()[:3], calls


def print_instructions(given, folder):
    """A row for each made file that is asked for and each way through it."""
    rows, callers, c_program, ruler = [], set(), c_caller(folder, given.archive), built_ruler(folder)
    crate = built_original(given.original, folder) if given.original else None
    others = [("from C", c_program), ("limit", ruler)] + [("original", crate)] * bool(crate)
    path = os.path.join(folder, "made.wasm")
    for what, usual, make, ways, by_made in MADE:
        if given.only not in what:
            continue
        count = usual // 10
        common.write(path, make(count))
        for way in [way for way in ways if way not in ("16", "1")]:
            units = count if by_made else 0
            figure, wrote, calls = counted(PROGRAM, called_by_us(way), path, units, folder)
            callers |= {caller for caller, called, _, _ in calls if called == PARSE}
            in_c = counted(c_program, called_in_c(way), path, 0, folder)[0]
            # The ruler walks all indices, so it has no limit of skipping them.
            limit = counted(ruler, None if by_made and way == "items" else called_at_limit(way), path, units, folder)[0]
            original, read, _ = counted(crate, called_in_original(way), path, units, folder)
            if read not in (None, wrote):
                common.stop(common.DIFFERS, "%s: the original reads %r, and we read %r" % (way, read, wrote))
            rows.append([what, words_of(way, by_made), figure, *[in_c, limit, original][: len(others)]])
        if ways is EVENT_WAYS:
            listed_by_us = "%.1f" % (of_process(profiled([LISTER], path, folder)[1]) / count)
            rows.append([what, "an event, listed by wasm_list", listed_by_us] + ["-"] * len(others))
    print_table(["file", "what", "instructions"] + [name for name, _ in others], rows)
    print("`parse` has %d callers in the benchmark: %s.\n" % (len(callers), ", ".join(sorted(callers))), flush=True)


def print_dumps(only, folder):
    """The instructions of `pulleynavy dump`, all of the process, in each form."""
    if only not in "dump":
        return
    path, rows = os.path.join(folder, "made.wasm"), []
    common.write(path, items_of_each_kind(4000))
    for options in ([], ["--bytes"], ["--json"], ["--color"]):
        wrote, calls = profiled([DUMPER, "dump", *options], path, folder)
        rows.append([" ".join(["pulleynavy dump", *options]), "%.1f" % (len(wrote) / 1e6), "%.1f" % (of_process(calls) / 1e6)])
    print_table(["of %d kB, as many items of each kind" % (os.path.getsize(path) // 1000), "MB written", "million instructions"], rows)


def words_of(way, by_made):
    return "an index, skipped" if by_made and way == "items" else WORDS[way]


# ---- the programs


def build():
    """Builds the programs that are not built yet, or from older sources."""
    for name in ("wasm_list", "pulleynavy"):
        if os.access(programs.path_of(name), os.X_OK) and not programs.is_older(name):
            continue
        if subprocess.run([os.path.join(common.TOP, "tools", "run"), "--build", name]).returncode:
            common.stop(common.NO_PROGRAM, "%s could not be built" % name)
    try:
        benchmark.build()
    except common.Failed as failed:
        common.stop(common.NO_PROGRAM, "the benchmark could not be built: %s" % failed)


# ---- the library for C, and the crate for Rust over it


def archive_in(folder, given):
    """Puts the C library into this folder, for the linker: the given archive, the prebuilt one if it is of these sources, or one that is built here."""
    path = given or os.path.join(common.PREBUILT, "libpulleynavy-x86_64.a")
    if not given and not common.is_prebuilt():
        path = os.path.join(programs.build_targets(os.path.join(folder, "targets"), "x86_64"), "libwasm_c-x86_64.a")
    return shutil.copy(path, os.path.join(folder, "libwasm_c.a"))


def built_ruler(folder):
    """The program that checks nothing but bounds, if there is a compiler for it."""
    if not shutil.which("cc"):
        return None
    program = os.path.join(folder, "limit")
    subprocess.run(["cc", "-O2", os.path.join(common.TOP, "tools", "benches", "limit.c"), "-o", program], check=True)
    return program


def built_original(source, folder):
    """The program that reads with the crate in a folder, built with link-time optimization."""
    manifest = common.read(os.path.join(source, "Cargo.toml"))
    package = re.search(r'^name = "(.*)"$', manifest, re.M).group(1)
    features = [name for name in ("std", "features") if re.search("^%s = " % name, manifest, re.M)]
    project = os.path.join(folder, "original")
    os.makedirs(os.path.join(project, "src"))
    shutil.copy(ORIGINAL, os.path.join(project, "src", "main.rs"))
    common.write(os.path.join(project, "Cargo.toml"), MANIFEST % (json.dumps(os.path.abspath(source)), json.dumps(package), json.dumps(features)))
    if subprocess.run(["cargo", "build", "--offline", "--quiet", "--release"], cwd=project).returncode:
        common.stop(common.NO_PROGRAM, "%s could not be built over %s" % (ORIGINAL, source))
    return os.path.join(project, "target", "release", "original")


def c_caller(folder, given):
    """The program that walks the same events from C, if there is a compiler for it."""
    if not shutil.which("cc"):
        return None
    program, crate = os.path.join(folder, "c_bench"), os.path.join(common.TOP, "crates", "wasm_c")
    words = ["-I", os.path.join(crate, "include"), os.path.join(crate, "examples", "bench.c"), archive_in(folder, given)]
    subprocess.run(["cc", "-O2", *words, "-o", program], check=True)
    return program


def rust_caller(folder):
    """Like `c_walk`, from Rust, over the library that was built for C."""
    if not cargo.found():
        return None
    target = os.path.join(folder, "target")
    manifest = os.path.join(cargo.CRATE, "Cargo.toml")
    words = ["cargo", "build", "--offline", "--quiet", "--release", "--example", "bench", "--target-dir", target, "--manifest-path", manifest]
    cargo.offline(folder)
    subprocess.run(words, cwd=folder, env={**os.environ, "PULLEYNAVY_LIB": folder}, check=True)
    return os.path.join(target, "release", "examples", "bench")


# ---- times


def timed(program, ways, path):
    """How much a program reads each way, and the nanoseconds of its fastest round."""
    with open(path, "rb") as data:
        done = subprocess.run([program, *ways], stdin=data, stdout=subprocess.PIPE)
    times = {}
    for line in done.stdout.decode().splitlines():
        way, count, _, took = line.split()
        times[way] = int(count), min(int(took), times.get(way, (0, int(took)))[1])
    return times


def timed_in_memory(path, ways):
    """The times of the benchmark; of items what they take beyond the walk over the payloads.

    That is a difference, so these ways and the walk are timed twice, in turn.
    """
    items = [way for way in ways if way in ("items", "indices")]
    asked = [way for way in ways if way not in items and way != "parse_all"] + (["parse_all"] + items) * (2 if items else 1)
    times = timed(PROGRAM, asked, path)
    walk = times.get("parse_all", (0, 0))[1]
    return {way: (count, max(0, took - walk) if way in items else took) for way, (count, took) in times.items()}


def nanoseconds(count, took):
    if not count:
        return "-"
    each = took / count
    return "%.2f" % each if each < 10 else "%.1f" % each if each < 100 else "%.0f" % each


def print_callers(only, archive, folder):
    """Nanoseconds of an event from Rattle, and from C and from Rust where there are compilers for them. The crate for Rust has no feeder."""
    program, rows = c_caller(folder, archive), []
    others = {"C": (program, [way for way in EVENT_WAYS if way not in ("parse_all", "frames")])} if program else {}
    other = program and rust_caller(folder)
    others.update({"Rust": (other, ["parse", "parse_all"])} if other else {})
    for what, usual, make, ways, _ in MADE:
        if ways is EVENT_WAYS and only in what:
            path = common.write(os.path.join(folder, "made.wasm"), make(usual))
            times = [timed_in_memory(path, ways), *(timed(program, known, path) for program, known in others.values())]
            rows += [[what, WORDS[way], *(nanoseconds(*of.get(way, (0, 0))) for of in times)] for way in ways]
    print_table(["file", "time of", "Rattle ns"] + [name + " ns" for name in others], rows)


def of_made_files(sizes, only, folder):
    """The rows of times in memory."""
    for what, usual, make, ways, by_made in MADE:
        if only not in what:
            continue
        of_way = {way: [] for way in ways}
        for size in sizes:
            count = int(usual * size)
            times = timed_in_memory(common.write(os.path.join(folder, "made.wasm"), make(count)), ways)
            for way in ways:
                counted_by_it, took = times.get(way, (0, 0))
                of_way[way].append(nanoseconds(count if by_made else counted_by_it, took))
        yield from (["%d %s" % (usual, what), words_of(way, by_made)] + of_way[way] for way in ways)


def of_given_files(files):
    ways, words = EVENT_WAYS + ["items", "indices"], dict(WORDS, indices="an item, or an index of a list")
    for path in files:
        times = timed_in_memory(path, ways)
        yield from ([os.path.basename(path), words[way], nanoseconds(*times.get(way, (0, 0)))] for way in ways)


# ---- the tables


def print_row(cells):
    print("| " + " | ".join(cells) + " |", flush=True)


def print_head(*names):
    print_row(names)
    print("|" + "---|" * len(names))


def print_table(head, rows):
    print_head(*head)
    for row in rows:
        print_row(row)
    print(flush=True)


def sizes_of(word):
    try:
        return [float(size) for size in word.split(",")]
    except ValueError:
        raise argparse.ArgumentTypeError("%r is no list of numbers" % word) from None


def main():
    more = [
        ("--sizes", {"metavar": "LIST", "type": sizes_of, "default": "0.1,1,10", "help": "how many times as large the made files are (0.1,1,10 if left out)"}),
        ("--only", {"metavar": "WORD", "default": "", "help": "the rows that contain this"}),
        ("--count", {"action": "store_true", "help": "the instructions alone"}),
        ("--archive", {"metavar": "FILE", "type": common.existing, "help": "an archive of the C library, instead of the prebuilt one or one that is built here"}),
        ("--original", {"metavar": "FOLDER", "type": common.existing, "help": "count this source of wasmparser too"}),
    ]
    options = common.arguments(__doc__, files=True, more=more)
    if options.count and (options.files or not shutil.which("valgrind")):
        common.stop(common.WRONG_USE, "--count is for made files, and needs valgrind")
    build()
    with tempfile.TemporaryDirectory() as folder:
        if not options.files and shutil.which("valgrind"):
            print_instructions(options, folder)
            print_dumps(options.only, folder)
        if options.count:
            return
        if not options.files:
            print_callers(options.only, options.archive, folder)
        if options.files:
            print_table(["file", "time of", "ns"], of_given_files(options.files))
        else:
            heads = ["ns at %g times" % size for size in options.sizes]
            print_table(["file", "time of", *heads], of_made_files(options.sizes, options.only, folder))
