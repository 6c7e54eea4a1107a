"""Times the programs on whole files that resemble those of linkers, next to what others offer, and prints tables.

    tools/bench files                     the made files
    tools/bench files --scale 0.1         a tenth of their size
    tools/bench files --count             instructions instead of times, which other work on the machine doesn't change
    tools/bench files --original DIR      next to the source of wasmparser in DIR, for all items
    tools/bench files a.wasm              files of one's own
    tools/bench scaling                   how time and memory grow with a file, and what more processes gain

A row is a task: to list or to dump a file, to dump it as JSON, to dump one section of it, to check it, to strip it, to walk over all items of it in memory.
Others are `cat`, the ruler (limit.c, which checks bounds alone), wabt (wasm-objdump, wasm-strip) and LLVM (llvm-objdump, llvm-strip), where they are
installed. A time is the processor time of a process, user and system, and then its wall time, each the least of seven rounds in which the programs take turns. `memory`
is the most that ours held, by GNU time. All items are walked by the benchmark, if tools/bench has built it, and their time is that of the fastest round
in one process. It takes the programs of `prebuilt/`, or those that ./wasm_list and ./pulleynavy built. Leave the machine idle, or use --count.
"""
import os
import re
import shutil
import subprocess
import tempfile
import time

import benchmark
import common
import programs
import standard as S
import tables
from common import leb
from modules import custom, listed, module, section, text

RUNS = 7
MEGABYTE = 1_000_000
# How many files processes share, and how large they are.
FILES, SHARED = 10_000, 0.004
# The tasks that are scaled. The first ones may hold this many KiB more of a larger file; the others hold a section that they show.
SCALED, FREE, MORE = ("list", "strip", "dump", "check"), 2, 1024


# ---- the files


def padded(number):
    """A number as linkers write it where a relocation is: five bytes."""
    return bytes([number & 127 | 128, number >> 7 & 127 | 128, number >> 14 & 127 | 128, number >> 21 & 127 | 128, number >> 28 & 127])


def function_names(count):
    names = leb(count) + b"".join(leb(i) + text("_ZN4core3fmt9Formatter%dwrite_str17h%08xE" % (i % 977, i)) for i in range(count))
    return custom("name", section(1, names))


def calling_body(callees):
    """A body that calls these functions."""
    code = b"\0" + b"".join(b"\x10" + padded(callee) for callee in callees) + b"\x0b"
    return leb(len(code)) + code


def linked(scale):
    """A module as wasm-ld links it with --emit-relocs: functions that call others, names, symbols and relocations."""
    count, calls = int(45_000 * scale), 60
    bodies = [calling_body([(i * 7 + k) % count for k in range(calls)]) for i in range(count)]
    entries, at = [], len(leb(count))
    for i, body in enumerate(bodies):
        first = at + len(body) - 6 * calls - 1
        entries += [b"\0" + leb(first + 6 * k + 1) + leb((i * 7 + k) % count) for k in range(0, calls, 10)]
        at += len(body)
    symbols = leb(count) + b"".join(b"\0\0" + leb(i) + text("function%d" % i) for i in range(count))
    data = [b"\0\x41" + leb(i % 64) + b"\x0b" + leb(1500) + b"d" * 1500 for i in range(int(2_000 * scale))]
    parts = [
        listed(S.TYPE_SECTION, [b"\x60\0\0"]),
        listed(S.FUNCTION_SECTION, [b"\0"] * count),
        listed(S.MEMORY_SECTION, [b"\0\x40"]),
        listed(S.EXPORT_SECTION, (text("export%d" % i) + b"\0" + leb(i) for i in range(int(500 * scale)))),
        listed(S.CODE_SECTION, bodies),
        listed(S.DATA_SECTION, data),
        custom("linking", b"\2" + section(8, symbols)),
        custom("reloc.CODE", leb(4) + leb(len(entries)) + b"".join(entries)),
        function_names(count),
        custom("producers", leb(1) + text("language") + leb(1) + text("Rust") + text("1.85")),
    ]
    return module(*parts)


def as_go_links(scale):
    """A module as Go links it: large functions, names, and very many data segments."""
    count = int(8_000 * scale)
    data = [b"\0\x41" + leb(i % 64) + b"\x0b" + leb(300) + b"d" * 300 for i in range(int(24_000 * scale))]
    parts = [
        custom("go:buildid", b"\xff Go build ID: \"\""),
        listed(S.TYPE_SECTION, [b"\x60\0\0", b"\x60\1\x7f\1\x7f"]),
        listed(S.IMPORT_SECTION, (text("gojs") + text("runtime.%d" % i) + b"\0\1" for i in range(20))),
        listed(S.FUNCTION_SECTION, [b"\0"] * count),
        listed(S.MEMORY_SECTION, [b"\0\x40"]),
        listed(S.CODE_SECTION, [calling_body([(i + k) % count for k in range(300)]) for i in range(count)]),
        listed(S.DATA_SECTION, data),
        function_names(count),
    ]
    return module(*parts)


def with_debug_info(scale):
    """A module of which most is debug information."""
    count = int(2_000 * scale)
    parts = [
        listed(S.TYPE_SECTION, [b"\x60\0\0"]),
        listed(S.FUNCTION_SECTION, [b"\0"] * count),
        listed(S.CODE_SECTION, [calling_body([i]) for i in range(count)]),
        *(custom(name, b"d" * int(size * MEGABYTE * scale)) for name, size in ((".debug_info", 4), (".debug_line", 2), (".debug_str", 2))),
        function_names(count),
    ]
    return module(*parts)


MADE = [("a linked module, with names and relocations", linked), ("as Go links it", as_go_links), ("debug information", with_debug_info)]


# ---- the programs


def megabytes(path):
    return "%.1f" % (os.path.getsize(path) / MEGABYTE)


def program(name):
    """The program of the release, or the one that was built."""
    built, kept = programs.path_of(name), os.path.join(common.TOP, "prebuilt", name)
    return built if os.access(built, os.X_OK) else kept


def others(*commands):
    return [command for command in commands if command[0] and shutil.which(command[0])]


def tasks(path, out="", ruler=None):
    """Each task with its commands, which have the file as their input too. Ours is the first."""
    lister, ours = program("wasm_list"), program("pulleynavy")
    yield "list", [[lister], *others(["cat"], [ruler, "list"], ["wasm-objdump", "-h", path], ["llvm-objdump", "-h", path])]
    yield "dump", [[ours, "dump", path], *others(["cat"], [ruler, "items"], ["wasm-objdump", "-x", path])]
    yield "dump as JSON", [[ours, "dump", "--json", path], *others(["cat"])]
    yield "dump one section", [[ours, "dump", "--section", "type", path], *others(["wasm-objdump", "-x", "-j", "type", path])]
    yield "check", [[ours, "check", path], *others(["cat"], [ruler, "items"])]
    yield "strip", [[ours, "strip", path], *others(["cat"], ["wasm-strip", path, "-o", out], ["llvm-strip", path, "-o", out])]


def timed(words, path, text):
    """The processor time and the wall time of a command that writes to a file, in milliseconds, and whether it fails."""
    with open(path, "rb") as data, open(text, "wb") as text_out:
        start = time.perf_counter()
        process = subprocess.Popen(words, stdin=data, stdout=text_out, stderr=subprocess.DEVNULL)
        _, status, used = os.wait4(process.pid, 0)
    return 1000 * (used.ru_utime + used.ru_stime), 1000 * (time.perf_counter() - start), status


def instructions(words, path, profile):
    """The millions of instructions of a command, by callgrind, and whether it fails."""
    with open(path, "rb") as data:
        valgrind = ["valgrind", "--tool=callgrind", "--callgrind-out-file=" + profile, *words]
        done = subprocess.run(valgrind, stdin=data, stdout=subprocess.DEVNULL, stderr=subprocess.PIPE)
    return int(re.search(rb"Collected : (\d+)", done.stderr)[1]) / 1e6, done.returncode


def measured(commands, path, out, counts):
    """Of each command a cell: the least of what the rounds measure, or that it refuses the file."""
    rounds = [[(instructions if counts else timed)(words, path, out + ".text") for words in commands] for _ in range(1 if counts else RUNS)]
    for tried in zip(*rounds):
        *figures, statuses = zip(*tried)
        yield "refuses the file" if any(statuses) else " / ".join("%.1f" % min(figure) for figure in figures)


def peak_memory(words, path):
    """The most memory that a command held, in KiB, by GNU time. The file is its input."""
    with tempfile.NamedTemporaryFile("r") as said, open(path, "rb") as data:
        subprocess.run(["time", "-q", "-f", "%M", "-o", said.name, *words], stdin=data, stdout=subprocess.DEVNULL, stderr=subprocess.DEVNULL)
        return int(said.read())


def row(path, task, commands, out, counts):
    ours, *cells = measured(commands, path, out, counts)
    named = ["%s %s" % (os.path.basename(words[0]), cell) for words, cell in zip(commands[1:], cells)]
    return [task, ours, "%.1f" % (peak_memory(commands[0], path) / 1024) if shutil.which("time") else "-", ", ".join(named)]


def walked(program, path):
    """The milliseconds of the fastest walk over all items of a file."""
    return "%.1f" % (tables.timed(program, ["items"], path)["items"][1] / 1e6)


def rows(path, out, ruler, crate, counts):
    """A row for each task. All items in memory are walked by our crates and by the original one."""
    for task, commands in tasks(path, out, ruler):
        yield row(path, task, commands, out, counts)
    if os.access(benchmark.PROGRAM, os.X_OK) and not counts:
        yield ["all items", walked(benchmark.PROGRAM, path), "", "wasmparser " + walked(crate, path) if crate else ""]


def arguments(doc, *more):
    """The arguments, and what the columns of figures are called."""
    count = ("--count", {"action": "store_true", "help": "count millions of instructions instead of milliseconds"})
    given = common.arguments(doc, files=True, more=[count, *more])
    if given.count and not common.found("valgrind"):
        common.stop(common.NO_PROGRAM, "--count needs valgrind")
    common.found("time")
    return given, "millions of instructions" if given.count else "ms of processor / wall time"


def main():
    given, unit = arguments(
        __doc__,
        ("--scale", {"metavar": "X", "type": float, "default": 1.0, "help": "how large the made files are (1 if left out)"}),
        ("--original", {"metavar": "FOLDER", "type": common.existing, "help": "walk over all items by this source of wasmparser too"}),
    )
    tables.print_head("File", "MB", "Task", "Ours, " + unit, "Memory, MB", "Others")
    with tempfile.TemporaryDirectory() as folder:
        files = [(os.path.basename(path), path) for path in given.files]
        for what, make in [] if files else MADE:
            files.append((what, common.write(os.path.join(folder, make.__name__ + ".wasm"), make(given.scale))))
        crate = tables.built_original(given.original, folder) if given.original else None
        for what, path in files:
            for cells in rows(path, os.path.join(folder, "out"), tables.built_ruler(folder), crate, given.count):
                tables.print_row([what, megabytes(path), *cells])


# ---- scaling

# The files, and how each is made of a scale. Custom sections and bodies are those of the tables.
KINDS = [("a linked module", linked), *((what, lambda scale, make=make, usual=usual: make(int(usual * scale))) for what, usual, make, _, _ in tables.MADE[:2])]


def growth(given, unit, folder):
    """A table of time and memory by the size of a file. Returns the rows whose memory grows although it may not."""
    tables.print_head("File", "MB", "Task", "Ours, " + unit, "Memory, KiB")
    path, growing = os.path.join(folder, "scaled.wasm"), []
    for what, make in KINDS:
        held = {task: [] for task in SCALED}
        for size in given.sizes:
            common.write(path, make(size))
            for task, words in [(task, words) for task, [words, *_] in tasks(path) if task in SCALED]:
                [figure] = measured([words], path, path, given.count)
                held[task].append(peak_memory(words, path) if shutil.which("time") else 0)
                tables.print_row([what, megabytes(path), task, figure, "%d" % held[task][-1]])
        growing += ["%s, %s: %s KiB" % (what, task, held[task]) for task in SCALED[:FREE] if max(held[task]) > min(held[task]) + MORE]
    return growing


def gain(folder):
    """A table of how long 1 to 4 processes take for a share of many files each, next to sha256sum, which shows what the machine gives.

    What they write is dropped, or goes to one file, to which one writes at a time."""
    data, dump = linked(SHARED), [program("pulleynavy"), "dump"]
    paths = [common.write(os.path.join(folder, "%05d.wasm" % number), data) for number in range(FILES)]
    listed = common.write(os.path.join(folder, "paths"), "\0".join(paths))
    ways = {"dump": (dump, os.devnull), "dump to one file": (dump, os.path.join(folder, "text")), "sha256sum": (["sha256sum"], os.devnull)}
    print()
    tables.print_head("Processes", *(way + ": " + cell for way in ways for cell in ("wall time, s", "efficiency")))
    least = {}
    for jobs, way in RUNS * [(jobs, way) for jobs in range(1, 5) for way in ways]:
        words, text = ways[way]
        share = ["xargs", "-0", "-a", listed, "-P", str(jobs), "-s", "1000000", "-n", str(-(-FILES // jobs)), *words]
        _, took, _ = timed(share, os.devnull, text)
        least[jobs, way] = min(took, least.get((jobs, way), took))
    for jobs in range(1, 5):
        cells = [("%.2f" % (least[jobs, way] / 1000), "%.2f" % (least[1, way] / least[jobs, way] / jobs)) for way in ways]
        tables.print_row(["%d" % jobs, *(cell for pair in cells for cell in pair)])


def scaling():
    """Shows how time and memory grow with the size of a file, and what more processes gain.

    tools/bench scaling                        0.1, 1, 10 and 100 times the usual size, and 1 to 4 processes over 10,000 files
    tools/bench scaling --sizes 0.1,1 --count  instructions instead of times, and no processes

    A time is the least of seven rounds. The largest files have 2.4 GB. The status is 1 if the memory of listing or stripping a file depends on its size.
    """
    sizes = ("--sizes", {"metavar": "LIST", "type": tables.sizes_of, "default": "0.1,1,10,100", "help": "how many times as large the files are (0.1,1,10,100)"})
    given, unit = arguments(scaling.__doc__, sizes)
    with tempfile.TemporaryDirectory() as folder:
        growing = growth(given, unit, folder)
        if not given.count:
            gain(folder)
    return common.tell(growing, "%d files whose memory depends on their size" % len(growing), None)
