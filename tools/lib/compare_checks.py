"""Compares what the three programs called `check` say of files: that of the command line, that of the wheel and that of the npm package.

    tools/compare checks                500 files, from seed 1
    tools/compare checks 7 10000        10,000 files, from seed 7
    tools/compare checks --program P    the program P, instead of the built one; --archive and --wasm name the libraries of the other two

Each file is a golden stream or a random module with some bytes changed. The programs must agree which files are malformed, and on the first fault
of each. The exit status must be 1 if a file is malformed, of many files and of one. A warning, which only the program of the command line gives, is
no fault.
"""
import os
import random
import re
import sys
import tempfile

import common
import packages
import programs
from modules import mutants

PROGRAMS = ("pulleynavy", "the wheel", "the npm package")
# How many files a run reads, and of how many one is read alone.
BATCH, ALONE = 500, 50
NATIVE, BOUND = re.compile(r"(\d+): 0x([0-9a-f]+): (.*)"), re.compile(r"(\d+): (.*) \(at offset 0x([0-9a-f]+)\)")


def commands(given, folder):
    """The words of each program and its environment, by its name."""
    library = os.path.join(folder, packages.soname())
    common.must([packages.LINKER, given.archive, library])
    script = os.path.join(packages.javascript(os.path.join(folder, "npm"), given.wasm, "tests"), "cli.js")
    settings = {"PYTHONPATH": packages.source("bindings", "python"), "PULLEYNAVY_LIB": library}
    native = [given.program, "check"] if given.program else programs.command("check")
    words = [(native, {}), ([sys.executable, "-B", "-m", "pulleynavy", "check"], settings), (["node", script, "check"], {})]
    return dict(zip(PROGRAMS, words))


def said(command, names, folder):
    """The first fault that a program reports of each file, as its offset and its text, and its exit status."""
    words, settings = command
    output, status, errors = programs.run([*words, *names], cwd=folder, env={**os.environ, **settings})
    first = {}
    for line in (output + errors).decode(errors="backslashreplace").splitlines():
        native, bound = NATIVE.fullmatch(line), BOUND.fullmatch(line)
        common.require(native or bound, "%s says %r" % (" ".join(words), line))
        if not native or not native[3].startswith("warning: "):
            first.setdefault((native or bound)[1], (int(native[2], 16), native[3]) if native else (int(bound[3], 16), bound[2]))
    return first, status


def is_same(native, bound):
    """Whether two faults are the same: after its text the program of the command line names the section."""
    return native == bound or native and bound and native[0] == bound[0] and native[1].startswith(bound[1] + ", in ")


def differences(found, names):
    """What differs of each file, by its name."""
    for name in names:
        faults = [first.get(name) for first, _ in found]
        if not all(is_same(faults[0], fault) for fault in faults[1:]):
            yield name, "; ".join("%s: %s" % (program, fault and "0x%x %s" % fault or "no fault") for program, fault in zip(PROGRAMS, faults))


def batch(known, streams, folder):
    """What differs of these streams, by their bytes, and what is wrong with an exit status."""
    names = ["%05d" % number for number in range(len(streams))]
    for name, stream in zip(names, streams):
        common.write(os.path.join(folder, name), stream)
    for some in [names, *([name] for name in names[::ALONE])]:
        found = [said(known[program], some, folder) for program in PROGRAMS]
        for program, (first, status) in zip(PROGRAMS, found):
            if status != bool(first):
                yield "%s: status %d with %d malformed files of %d, %s" % (program, status, len(first), len(some), streams[int(some[0])].hex()[:200])
        for name, text in differences(found, some) if len(some) > 1 else ():
            yield "%s\n  %s" % (streams[int(name)].hex()[:4000], text)


def main():
    paths = {"program": "a program, instead of the built one", "archive": "the library for the wheel, instead of that in prebuilt/"}
    given = common.arguments(__doc__, [("seed", 1), ("count", 500)], wasm="the module for the npm package, instead of that in prebuilt/", **paths)
    if not common.all_found(["node", "cc"]):
        return 0
    given.archive, given.wasm = given.archive or packages.archive("x86_64"), given.wasm or packages.prebuilt("pulleynavy.wasm")
    streams = list(mutants(random.Random(given.seed), [stream for stream, _ in common.golden()], given.count))
    with tempfile.TemporaryDirectory() as folder:
        known, place = commands(given, folder), os.path.join(folder, "files")
        found = [text for at in range(0, len(streams), BATCH) for text in batch(known, streams[at : at + BATCH], place)]
    return common.tell(found, "%d files, checked by %d programs, %d differ (seed %d)" % (len(streams), len(PROGRAMS), len(found), given.seed))
