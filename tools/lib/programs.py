"""The programs of this repository: the one place that says how each is called, where it is once it is built, and how it is run."""
import functools
import os
import shutil
import subprocess
import sys

import common

# The words of each task: a crate that is a program, and its first arguments.
WORDS = {
    "list": ["wasm_list"],
    "dump": ["pulleynavy", "dump"],
    "check": ["pulleynavy", "check"],
    "strip": ["pulleynavy", "strip"],
    "add": ["pulleynavy", "add"],
    "rows": ["test_rows"],
}


def path_of(crate):
    """The path of a program once it is built."""
    return os.path.join(common.TOP, "crates", crate, "out", crate)


def is_older(crate):
    """Whether a built program is older than what it is made of."""
    built_at = os.path.getmtime(path_of(crate))
    return any(os.path.getmtime(path) > built_at for name in common.crates_of(crate) for path in common.files_of(name))


@functools.lru_cache(maxsize=None)
def built(crate):
    """The path of a built program; if it isn't built, that of the release if there is no toolchain to build it. Else the tool stops."""
    path, kept = path_of(crate), os.path.join(common.PREBUILT, crate)
    if not os.access(path, os.X_OK) and os.access(kept, os.X_OK) and common.runs_prebuilt() and (common.is_prebuilt() or not shutil.which("rt")):
        return kept
    if not os.access(path, os.X_OK):
        common.stop(common.NO_PROGRAM, "%s is not built: `tools/run --build %s` proves and builds it" % (crate, crate))
    if is_older(crate):
        print("%s is older than the sources: `tools/run --build %s` builds it anew" % (crate, crate), file=sys.stderr)
    return path


def command(task):
    """The words with which a task begins: the built program, and its first arguments."""
    crate, *words = WORDS[task]
    return [built(crate), *words]


def build_targets(folder, *targets):
    """Builds the C library for these targets into a folder. Returns the folder."""
    words = [os.path.join(common.TOP, "tools", "build_targets"), folder, *targets, "--jobs", "4"]
    if subprocess.run(words, stdin=subprocess.DEVNULL, stdout=sys.stderr).returncode:
        common.stop(common.NO_PROGRAM, "the C library could not be built")
    return folder


def run(words, stream=b"", seconds=600, **options):
    """What a command writes, its status, and what it says on standard error."""
    done = subprocess.run(words, input=stream, stdout=subprocess.PIPE, stderr=subprocess.PIPE, timeout=seconds, **options)
    return done.stdout, done.returncode, done.stderr


def lines_of(words, stream=b"", **options):
    """The lines that a command writes, its status, and what it says on standard error."""
    output, status, errors = run(words, stream, **options)
    return lines_in(output), status, errors


def lines_in(output):
    """The lines of a program's output; where the last has no line feed, that is a line of its own."""
    lines = output.decode("ascii", errors="backslashreplace").split("\n")
    return lines[:-1] if lines[-1] == "" else lines + ["(no line feed)"]


def status(lines):
    """The exit status of a program that writes these lines."""
    return 0 if lines[-1].startswith("end ") else 1
