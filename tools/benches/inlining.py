"""Tries other inlining of the functions of the benchmark, and counts instructions. Nothing is proved of what it tries.

    tools/bench inlining '^wasm_parser::contents::'                           each of these functions, on the first made files of tools/bench
    tools/bench inlining '^wasm_items::exports::' --only exports              on those whose names contain a word
    tools/bench inlining '^wasm_parser::' --mark wasm_parser::header::read_header=always

It proves and builds `benches/` over the libraries that this checkout proved, and keeps the module that LLVM is given. In that it marks each
function whose name matches as `inline(always)` and then as `inline(never)`, beside those of --mark, compiles it, and counts. The first line has the
instructions of an event or item in each row as it is, and each further line by how much they change. A mark that changes nothing has no line.
Attributes need no new proof, but the crate is proved again. The status is 3 if something that it needs is not there.
"""
import argparse
import os
import re
import tempfile

import benchmark
import common
import tables
import toolchain

MARKS = {"always": "alwaysinline", "never": "noinline"}
# How many things a made file has. The count of an event hardly depends on it.
MANY = 2000
WAYS = ("parse", "parse_all", "items")


class Module:
    """The module of the benchmark, as text, and how clang compiles it."""

    def __init__(self, folder):
        self.folder = folder
        benchmark.proved(os.path.join(folder, "whole.o"), toolchain.keeping(folder))
        text = os.path.join(folder, "module.ll")
        common.must(toolchain.text_command(folder, text))
        self.text = common.read(text)
        self.groups = dict(re.findall(r"^attributes #(\d+) = \{ (.*) \}$", self.text, re.M))
        self.places = {found.group(1): found for found in re.finditer(r'^define [^\n]*?@"([^"]*)"\([^\n]*\) #(\d+)', self.text, re.M)}

    def marked(self, marks):
        """The text with these functions marked, each in attributes of its own."""
        text, added = self.text, []
        for name, mark in sorted(marks.items(), key=lambda one: self.places[one[0]].start(), reverse=True):
            place, number = self.places[name], 1000 + len(added)
            others = re.sub(r"\b(alwaysinline|noinline|cold) ", "", self.groups[place.group(2)])
            text = text[: place.start(2)] + str(number) + text[place.end(2) :]
            added.append("attributes #%d = { %s %s }\n" % (number, MARKS[mark], others))
        return text + "".join(added)

    def built(self, marks):
        """The program with these functions marked."""
        module, made, program = (os.path.join(self.folder, name) for name in ("marked.ll", "marked.o", "marked"))
        common.write(module, self.marked(marks))
        common.must(toolchain.compile_command(self.folder, module, made))
        common.must(toolchain.link_program(program, made))
        return program


def files(only, folder):
    """The made files whose names contain the word, or the first ones, each with its name and the ways through it."""
    for what, _, make, ways, by_made in tables.MADE:
        if only in what if only else "parse" in ways:
            path = os.path.join(folder, what.replace(" ", "_"))
            common.write(path, make(MANY))
            yield what, path, [way for way in WAYS if way in ways], MANY if by_made else 0


def counts(program, made, folder):
    """The instructions of a unit in each row."""
    rows = {}
    for what, path, ways, units in made:
        for way in ways:
            wrote, calls = tables.profiled([program, way], path, folder)
            figure = tables.of_a_unit(wrote, calls, "wasm_bench::" + tables.READERS[way], units)
            # A reader that is inlined itself has no count.
            rows["%s, %s" % (what, way)] = float("nan") if figure == "-" else float(figure)
    return rows


def pattern(word):
    try:
        return re.compile(word)
    except re.error as error:
        raise argparse.ArgumentTypeError("%r is no regular expression: %s" % (word, error))


def marks_of(module, words):
    """The marks that words name, FUNCTION=always or FUNCTION=never."""
    marks = dict(word.rpartition("=")[::2] for word in words)
    for name, mark in marks.items():
        if name not in module.places or mark not in MARKS:
            common.stop(common.WRONG_USE, "--mark takes FUNCTION=always or FUNCTION=never with a function of the module, not %s=%s" % (name, mark))
    return marks


def main():
    line = common.parser(__doc__)
    line.add_argument("pattern", type=pattern, metavar="PATTERN", help="a regular expression for names of functions")
    line.add_argument("--only", default="", metavar="WORD", help="the files whose names contain this word")
    line.add_argument("--mark", action="append", default=[], metavar="FUNCTION=MARK", help="a function that is always marked, `always` or `never`")
    given = line.parse_args()
    if not common.found("valgrind"):
        return common.NO_PROGRAM
    with tempfile.TemporaryDirectory() as folder:
        try:
            module, made = Module(folder), list(files(given.only, folder))
            base, names = marks_of(module, given.mark), list(filter(given.pattern.search, module.places))
            if not names or not made:
                common.stop(common.WRONG_USE, "no function or no file has such a name")
            before = counts(module.built(base), made, folder)
            print("; ".join("%s: %.1f" % row for row in before.items()), flush=True)
            for name in names:
                for mark in MARKS:
                    after = counts(module.built({**base, name: mark}), made, folder)
                    changed = ["%s %+.1f" % (row, after[row] - before[row]) for row in before if abs(after[row] - before[row]) > 0.5]
                    if changed:
                        print("%s=%s: %s" % (name, mark, "; ".join(changed)), flush=True)
        except common.Failed as failed:
            common.stop(common.NO_PROGRAM, str(failed))
    return 0
