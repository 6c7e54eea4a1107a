"""Runs programs for Windows under wine, which sometimes ends with status 1 before a program begins: twice in 12,000 runs on a busy machine.

A program is linked with tools/lib/witness.c, which writes to a file that it began and how many bytes it wrote. A run with status 1 that never began, or whose bytes did
not arrive, says nothing about the program: it is repeated, at most twice, and listed. Every other run counts, also one that crashes, writes nothing or lacks a DLL.
"""
import contextlib
import glob
import os
import re
import subprocess

import cargo
import common

COMPILERS = ("x86_64-w64-mingw32-gcc", "x86_64-w64-mingw32-g++")
PROGRAMS = [*COMPILERS, "wine", "wineserver"]
WITNESS = os.path.join(common.LIB, "witness.c")
# The exit status where no run was one of the program, and how many runs may be repeated.
LOST, MOST_REPEATED = 99, 10
SCRIPT = common.read("tools", "lib", "templates", "wine.sh")
# What Rust calls Windows, and the DLL from which it takes random numbers and that wine 8 lacks.
TARGET = "x86_64-pc-windows-gnu"
RANDOM = common.read("tools", "lib", "templates", "random.c")
# Runs the tests of a file, which begin with a line that says how many there are. A run without it is one that wine lost.
RUNNER = common.read("tools", "lib", "templates", "runner.sh")


class Wine:
    """A new Windows of its own in a folder."""

    def __init__(self, folder):
        self.folder = folder
        self.words = ["env", "WINEDEBUG=-all", "WINEPREFIX=" + os.path.join(folder, "windows")]

    def call(self, *words):
        subprocess.run([*self.words, *words], stdin=subprocess.DEVNULL, stdout=subprocess.DEVNULL, stderr=subprocess.DEVNULL)

    def running(self, program):
        """The path of a script that runs this program."""
        script = program + ".sh"
        common.write(script, SCRIPT % {"folder": self.folder, "wine": " ".join([*self.words, "wine"]), "program": program, "lost": LOST})
        os.chmod(script, 0o755)
        return script

    def repeated(self):
        """A line for each run that wine lost."""
        path = os.path.join(self.folder, "repeated")
        if not os.path.exists(path):
            return []
        with open(path, encoding="utf-8", errors="replace") as file:
            return file.read().splitlines()


@contextlib.contextmanager
def windows(folder):
    """A Windows that ends afterwards. Prints which runs it lost."""
    wine = Wine(folder)
    try:
        # Between programs the server and the services stay, so that a program starts in hundredths of a second. The server can't begin before
        # the folder is made. The services begin with the first program, and keep its standard streams open.
        for command in (["wine", "wineboot", "--init"], ["wineserver", "--wait"], ["wineserver", "--persistent"], ["wine", "wineboot"]):
            wine.call(*command)
        yield wine
    finally:
        wine.call("wineserver", "--kill", "--wait")
        for line in wine.repeated():
            print("wine lost a run: %s" % line, flush=True)


def wrong_crate(system):
    """What is wrong with the tests of the crate for Rust on Windows. Debian has no standard library of a
    new Rust for Windows, so cargo builds it from Debian's sources of Rust."""
    found = cargo.with_sources("std,test,panic_unwind") if cargo.found() else None
    if not found:
        common.skip("missing: rustc-web with rust-web-src, so the crate for Rust is not tried on Windows")
        return []
    words, settings = found
    place = os.path.join(system.folder, "rust")
    crate = cargo.copied(os.path.join(place, "clone"))
    random, dll = common.write(os.path.join(place, "random.c"), RANDOM), os.path.join(place, "bcryptprimitives.dll")
    subprocess.run([COMPILERS[0], "-shared", "-static", "-o", dll, random, "-ladvapi32"], check=True)
    # A script that runs a program of cargo under wine.
    values = {"dlls": "Z:" + place.replace("/", "\\"), "wine": " ".join([*system.words, "wine"]), "folder": system.folder}
    runner = common.write(os.path.join(place, "wine"), RUNNER % values)
    os.chmod(runner, 0o755)
    cargo.leave_out_serde(crate)
    settings |= {"CARGO_TARGET_DIR": os.path.join(place, "target"), "PULLEYNAVY_GOLDEN": common.GOLDEN}
    name = "CARGO_TARGET_%s_" % TARGET.upper().replace("-", "_")
    settings |= {name + "LINKER": COMPILERS[0], name + "RUNNER": runner}
    words = ["cargo", "test", "--offline", "--quiet", "--tests", "--no-fail-fast", "--target", TARGET, *words]
    done = subprocess.run(words, cwd=crate, env={**os.environ, **settings}, stdin=subprocess.DEVNULL, stdout=subprocess.PIPE, stderr=subprocess.STDOUT)
    text = done.stdout.decode(errors="replace")
    # A result for the tests in src, and one for each file of tests.
    passed, wanted = re.findall(r"^test result: ok\. (\d+) passed; 0 failed; 0 ignored;", text, re.M), 1 + len(glob.glob(crate + "/tests/*.rs"))
    if done.returncode or len(passed) != wanted:
        return ["the tests of the crate on Windows: status %d, %d of %d files pass\n%s" % (done.returncode, len(passed), wanted, text[-2000:])]
    print("x86_64-windows, the crate for Rust under wine: %d tests pass" % sum(map(int, passed)), flush=True)
    return []
