"""Compares dumps of object files with llvm-readobj and wasm-objdump, which read them by code that isn't ours.

    tools/compare objects             60 object files of random programs, from seed 1
    tools/compare objects 7 500       500 of them, from seed 7
    tools/compare objects 1 0 a.o     this file

Each object is that of clang for a random C or C++ program, or of `wasm-ld -r` for two of them. What `pulleynavy dump --names --json` says of
its symbols (number, kind, name, flags by name and number, place), of its relocations (section, offset, type, name, addend), of its segments and
of its features is what the other two programs say. `pulleynavy check` finds nothing.
"""
import json
import os
import random
import re
import subprocess
import tempfile

import common
import comparing
import programs

KINDS = {"FUNCTION": "func", "DATA": "data", "GLOBAL": "global", "SECTION": "section", "TAG": "event", "TABLE": "table"}
FLAGS = "-g|-fPIC|-mbulk-memory|-matomics -mbulk-memory|-ffunction-sections|-fno-data-sections|-msimd128".split("|")

# ---- random programs

PARTS = (
    "static int counter{n} = {n}; int step{n}(void) {{ return counter{n} += {n}; }}",
    "__attribute__((weak)) int weak{n}(int a) {{ return a + {n}; }} int (*pointer{n})(int) = weak{n};",
    "__attribute__((import_module(\"env\"), import_name(\"other{n}\"))) int renamed{n}(int); int calls{n}(void) {{ return renamed{n}({n}); }}",
    "extern int shared{n}; int *place{n}(void) {{ return &shared{n} + {n}; }}",
    "__attribute__((constructor({p}))) static void start{n}(void) {{ extern void log{n}(int); log{n}({n}); }}",
    "const char *text{n}(int i) {{ static const char *all[] = {{\"a{n}\", \"b\"}}; return all[i & 1]; }}",
    "__attribute__((visibility(\"hidden\"))) long long wide{n}(double d, float f) {{ return d * f + {n}; }}",
    "__attribute__((export_name(\"out{n}\"))) void out{n}(void) {{}} __attribute__((used)) static int kept{n} = {n};",
    "_Thread_local int local{n} = {n}; int *own{n}(void) {{ return &local{n}; }}",
    "typedef int (*fn{n})(int, int); int indirect{n}(fn{n} f) {{ return f({n}, 1); }}",
)
CPP = "template <int N> int made() { static int x = N; return x++; }\n"


def some_object(rng, folder, name):
    """The path of the object of a random program. Where clang gives up, which it does at some flags together, that of another one."""
    is_cpp = rng.random() < 0.3
    lines = [part.format(n=number, p=rng.randrange(101, 65536)) for number, part in enumerate(rng.choices(PARTS, k=rng.randrange(1, 9)))]
    if is_cpp:
        lines = [line.replace("_Thread_local", "thread_local") for line in lines]
        lines = [CPP] + lines + ["int use%d() { return made<%d>(); }" % (number, number) for number in range(rng.randrange(3))]
    source, made = os.path.join(folder, name + (".cc" if is_cpp else ".c")), os.path.join(folder, name + ".o")
    common.write(source, "\n".join(lines) + "\n")
    flags = " ".join(rng.sample(FLAGS, rng.randrange(4))).split()
    words = ["clang", "--target=wasm32", "-c", "-O" + rng.choice("0123sz"), *flags, source, "-o", made]
    return made if programs.run(words)[1] == 0 else some_object(rng, folder, name)


def some_file(rng, folder, name):
    """An object, or two that are linked to one."""
    first = some_object(rng, folder, name)
    if rng.random() < 0.8:
        return first
    linked = os.path.join(folder, name + "-linked.o")
    done = subprocess.run(["wasm-ld", "-r", first, some_object(rng, folder, name + "b"), "-o", linked], stderr=subprocess.PIPE)
    return linked if done.returncode == 0 else first


# ---- what the other programs say


def by_llvm(path):
    """The symbols of a file, and its relocations, each with the number of its section."""
    text = common.must(["llvm-readobj", "--symbols", "--relocations", path])
    symbols = []
    for block in re.findall(r"  Symbol \{\n(.*?)\n  \}", text, re.S):
        rows = dict(re.findall(r"^    (\w+): (.*)$", block, re.M))
        flags = re.search(r"Flags \[ \(0x([0-9A-F]+)\)(.*?)\]", block, re.S)
        place = [int(rows[key], 16) for key in ("ElementIndex", "Segment", "Offset", "Size") if key in rows]
        symbols.append((rows["Name"], KINDS[rows["Type"].split()[0]], int(flags[1], 16), sorted(re.findall(r"([A-Z_]+) \(", flags[2])), place))
    relocations, section = [], None
    for line in text.split("Symbols [")[0].splitlines():
        found = re.match(r"  Section \((\d+)\)", line)
        section = int(found[1]) - 1 if found else section
        words = line.split()
        if len(words) > 1 and words[1].startswith("R_WASM"):
            relocations.append((section, int(words[0], 16), words[1], words[2], int(words[3]) if len(words) > 3 else 0))
    return symbols, relocations


def by_wabt(path):
    """The segments, the functions for the start and the features of a file."""
    text = common.must(["wasm-objdump", "-x", path])
    segments = re.findall(r"^   - \d+: (\S+) p2align=(\d+) \[ ?(.*?) ?\]$", text, re.M)
    starts = re.findall(r"^   - (\d+): priority=(\d+)$", text, re.M)
    features = re.findall(r"^  - \[(.)\] (\S+)$", text, re.M)
    return [(name, int(align), words.split()) for name, align, words in segments], [(int(a), int(b)) for a, b in starts], features


# ---- what the dump says


def words_of(said):
    return [] if said["flag_words"] == "0" else said["flag_words"].split(" | ")


def symbol_of(said):
    kind = said["kind"]
    if kind == "data":
        place = [] if said.get("symbol") == "undefined" else [said["index"], said["offset"], said["size"]]
    else:
        place = [said["section" if kind == "section" else "index"]]
    return said.get("item_name", said.get("name")), kind, said["flags"], sorted(words_of(said)), place


def by_dump(words, path):
    output, status, errors = programs.run([*words, "--json", path])
    assert status == 0 and not errors, errors
    symbols, relocations, segments, starts, features, section = [], [], [], [], [], None
    for said in map(json.loads, output.decode().splitlines()):
        if said.get("space") == "symbol":
            assert said["number"] == len(symbols), said
            symbols.append(symbol_of(said))
        elif said.get("line") == "section":
            section = said.get("section")
        elif str(said.get("type", "")).startswith("R_WASM"):
            is_type = said["type"] == "R_WASM_TYPE_INDEX_LEB"
            relocations.append((section, said["offset"], said["type"], str(said["index"]) if is_type else said["item_name"], said["addend"]))
        elif "alignment" in said:
            segments.append((said["name"], said["alignment"], words_of(said)))
        elif "priority" in said:
            starts.append((said["symbol_index"], said["priority"]))
        elif "prefix" in said:
            features.append((said["prefix"], said["name"]))
    return symbols, relocations, segments, starts, features


def file_differs(words, checks, path):
    """What a file has otherwise, if anything."""
    symbols, relocations = by_llvm(path)
    segments, starts, features = by_wabt(path)
    try:
        mine = by_dump(words, path)
        for name, one, other in zip(("symbols", "relocations", "segments", "starts", "features"), mine, (symbols, relocations, segments, starts, features)):
            assert one == other, "%s: %s" % (name, next(((a, b) for a, b in zip(one, other) if a != b), (len(one), len(other))))
        assert programs.run([*checks, path]) == (b"", 0, b""), "check finds a fault"
    except (AssertionError, LookupError, ValueError) as error:
        return "%s: %s" % (os.path.basename(path), error)
    return None


def main():
    given = comparing.arguments(__doc__, "dump", numbers=[("seed", 1), ("count", 60)], files=True)
    checks = [given.command[0], "check"]
    if not common.all_found(["clang", "wasm-ld", "llvm-readobj", "wasm-objdump"]):
        return 0
    rng = random.Random(given.seed)
    with tempfile.TemporaryDirectory() as folder:
        paths = [some_file(rng, folder, "p%d" % number) for number in range(given.count)] + given.files
        found = [text for text in comparing.one_by_one(lambda path: file_differs(given.command, checks, path))(paths) if text]
    return common.tell(found, "%d compared, %d differ (seed %d)" % (len(paths), len(found), given.seed))
