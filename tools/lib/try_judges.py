"""Tries what judges the sources on sources that are wrong: each check of tools/check, the comparisons, and the cases of tools/statuses. Each has to refuse.

    tools/try judges

It plants one fault after the other in a copy of the files that git knows. The status is 1 if a judge refuses none.
"""
import importlib.machinery
import importlib.util
import os
import random
import re
import subprocess
import sys
import tempfile

import common
import comparing
import suites

# Of each check: a file, a text in it and what replaces it, by regular expression; without a text, the line is added.
PLANTS = {
    "layout": ("crates.txt", r"^test_rows:.*\n", ""),
    "widths": ("crates/wasm_base/specs/Number.antt", None, "-- " + "a" * 130),
    "labels": ("docs/DUMP.md", None, "See the paper."),
    "links": ("docs/DUMP.md", None, "[Nothing](NOTHING.md)"),
    "quotes": ("docs/THEOREMS.md", r"pub differ : event ≢ other_event", "pub differ : event ≡ other_event"),
    "edits": ("crates/wasm_io/must-fail/lost_bytes.edit", r"^old: .*$", "old: what stands nowhere"),
    "made": ("docs/man/pulleynavy.1", r"components", "componentz"),
    "version": ("VERSION", r"^\d+", "9"),
    "debian": ("debian/libpulleynavy0.16.symbols", r"^ pulleynavy_parse@Base.*\n", ""),
    "calls": ("tools/lib/sequences.c", r"CALL\(pulleynavy_edit,", "CALL(pulleynavy_parse,"),
    "models": ("tools/golden.jsonl", r"unexpected end-of-file", "unexpected end"),
    "rows": ("crates/test_rows/stdout", r"unexpected end-of-file", "unexpected end"),
    "golden": ("crates/program_tests/src/tests/dump/golden.rt", r"^section 1 ", "section 2 "),
    "tests": ("tools/lib/tests.txt", r"\d+", "1"),
    "kept": ("tools/golden.jsonl", r"\A.*\n", ""),
    "trusted": ("docs/SECURITY.md", r"rests on 12", "rests on 11"),
    "helps": ("tools/README.md", r"`tools/profile`", "`tools/profiles`"),
    "imports": ("crates/wasm_lines/proofs/Lib.antt", None, "use Rattle.wasm_io.proofs.Cut.{cut}"),
    "words": ("docs/DUMP.md", None, "It gives again the names."),
    "names": ("docs/DUMP.md", None, "Call `BinaryReader::read_nothing`."),
}
# Those that have no plant here, and why.
WITHOUT = {"formats": "the formatter of the toolchain judges"}


def copy_of_sources(place):
    """Copies the files that git knows."""
    names = subprocess.run(["git", "ls-files", "-z"], cwd=common.TOP, stdout=subprocess.PIPE, check=True).stdout
    subprocess.run(["tar", "-cf", place + ".tar", "--null", "-T", "-"], cwd=common.TOP, input=names, check=True)
    subprocess.run(["tar", "-xf", place + ".tar", "-C", place], check=True)
    os.remove(place + ".tar")


def refuses(place, check):
    """Whether a check refuses the copy with the fault that is planted for it, and nothing is wrong with the file without it."""
    name, old, new = PLANTS[check]
    path = os.path.join(place, name)
    text = common.read(path)
    wrong = re.sub(old, lambda _: new, text, count=1, flags=re.M) if old else text + new + "\n"
    common.require(wrong != text, "%s: %r is not in it" % (name, old))
    common.write(path, wrong)
    done = subprocess.run([os.path.join(place, "tools", "check"), check], stdout=subprocess.PIPE, stderr=subprocess.STDOUT)
    common.write(path, text)
    # A check that fell over has not judged.
    return done.returncode == common.DIFFERS and b"Traceback" not in done.stdout


def compared(differences):
    """The status of a comparison of ten streams, by what differs of each."""
    given = type("Given", (), {"seed": 1})()
    rng = random.Random(1)
    return comparing.compare(given, [rng.randbytes(9) for _ in range(10)], differences)


def raises(function, *arguments):
    try:
        function(*arguments)
    except common.Failed:
        return True
    return False


def of_functions():
    """Whether each function that judges for others refuses, by its name."""
    statuses = loaded("statuses")
    case = statuses.Case("true", {"MODULE": b""})
    case.add("=", '"text"', "")
    yield "comparing.compare", compared(lambda batch: [None] * len(batch)) == 0 and compared(lambda batch: ["always"] * len(batch))
    yield "common.first_difference", common.first_difference(["a", "b"], ["a"]) and common.first_difference(["a"], ["b"])
    yield "common.tell", common.tell(["a difference"], "one difference") == common.DIFFERS
    yield "common.require", raises(common.require, False, "wrong")
    yield "common.must", raises(common.must, ["false"])
    yield "suites.passed", raises(suites.passed, "python", 0) and raises(suites.passed_in_python, "no test ran")
    yield "tell of tools/statuses", not statuses.tell(case, (0, b"other", b"")) and not statuses.tell(case, (1, b"text", b"")) and not statuses.tell(case, (0, b"text", b"said"))
    yield "as_nobody of tools/statuses", not statuses.as_nobody(lambda: 1) and statuses.as_nobody(lambda: 0)


def loaded(tool):
    """A tool as a module, which does not run."""
    path = os.path.join(common.TOP, "tools", tool)
    loader = importlib.machinery.SourceFileLoader(tool, path)
    module = importlib.util.module_from_spec(importlib.util.spec_from_loader(tool, loader))
    common.end, end = (lambda main: None), common.end
    try:
        loader.exec_module(module)
    finally:
        common.end = end
    return module


def checks():
    """The names of all checks, as tools/check has them."""
    usage = subprocess.run([os.path.join(common.TOP, "tools", "check"), "--help"], stdout=subprocess.PIPE, check=True).stdout.decode()
    return set(re.search(r"\n  CHECK\s+(.*?)\n\n", usage, re.S)[1].replace(",", " ").split())


def main():
    common.arguments(__doc__)
    found = [name for name, holds in of_functions() if not holds]
    with tempfile.TemporaryDirectory() as place:
        copy_of_sources(place)
        found += ["tools/check %s" % check for check in PLANTS if not refuses(place, check)]
    found += ["tools/check %s: nothing is planted for it" % check for check in sorted(checks() - {*PLANTS, *WITHOUT})]
    return common.tell(["%s refuses nothing that is wrong" % name for name in found], "%d judges, %d refuse nothing" % (len(PLANTS) + 8, len(found)))
