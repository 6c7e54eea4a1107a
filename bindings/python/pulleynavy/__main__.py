"""The program `pulleynavy-py`, which is also `python -m pulleynavy`: lists, checks and strips modules."""
# SPDX-License-Identifier: Apache-2.0 OR MIT
from __future__ import annotations

import argparse
import io
import os
import shutil
import sys
from typing import Callable

from . import ALL_FEATURES, Module, ParseError, Section, __version__, events, load, strip
from .module import check_event

NAMES = ["custom", "type", "import", "function", "table", "memory", "global", "export", "start", "element", "code", "data", "data count", "tag"]
MALFORMED, WRONG_USE, FAILED = 1, 2, 3
# Another name than that of the program of the proved sources, which has more commands.
NAME = "pulleynavy-py"
EPILOG = "FILE may be -, standard input. The exit status is 1 for a malformed module, 2 for wrong use, and 3 if a file, the library or wasm_dump fails."


def arguments(words: list[str]) -> argparse.Namespace:
    line = argparse.ArgumentParser(prog=NAME, description="Reads WebAssembly binaries.", epilog=EPILOG)
    line.add_argument("--version", action="version", version=f"{NAME} {__version__}")
    commands = line.add_subparsers(dest="command", required=True, metavar="COMMAND")
    listed = commands.add_parser("list", help="prints the sections with their sizes in bytes")
    checked = commands.add_parser("check", help="reads all items and known custom sections, and prints a fault of each file")
    stripped = commands.add_parser("strip", help="writes a module without its custom sections to standard output")
    listed.add_argument("file", metavar="FILE")
    checked.add_argument("files", metavar="FILE", nargs="+")
    stripped.add_argument("--keep-names", action="store_true", help="keeps the sections called name")
    stripped.add_argument("file", metavar="FILE")
    commands.add_parser("dump", help="runs the program wasm_dump with the arguments that follow", add_help=False)
    # A file in place of a command is listed.
    return line.parse_args(words if not words or words[0].startswith("-") or words[0] in commands.choices else ["list", *words])


def main(words: list[str] | None = None) -> int:
    """Runs the program with these arguments, by default those of the command line. Returns its exit status."""
    words = sys.argv[1:] if words is None else words
    if words[:1] == ["dump"]:
        return dump(words[1:])
    given = arguments(words)
    if isinstance(sys.stdout, io.TextIOWrapper):
        # The encoding of standard output may lack characters of a name, as on Windows.
        sys.stdout.reconfigure(errors="backslashreplace")
    try:
        status = run(given)
        sys.stdout.flush()
        return status
    except OSError as error:
        # A reader that has closed the pipe needs no message. Python flushes standard output once more at its end.
        if not isinstance(error, BrokenPipeError):
            print(f"{NAME}: {error.strerror or error}", file=sys.stderr)
        os.dup2(os.open(os.devnull, os.O_WRONLY), sys.stdout.fileno())
        return FAILED


def run(given: argparse.Namespace) -> int:
    """Runs a command. Returns its exit status."""
    if given.command == "check":
        return max([attempt(path, check) for path in given.files])
    return attempt(given.file, lambda stream: show(given, stream))


def read(path: str) -> bytes:
    """The bytes of a file, or of standard input for `-`."""
    if path == "-":
        return sys.stdin.buffer.read()
    with open(path, "rb") as file:
        return file.read()


def check(stream: bytes) -> None:
    """Reads all items, and raises the first fault of the stream."""
    for event in events(io.BytesIO(stream)):
        check_event(event, ALL_FEATURES, load())


def show(given: argparse.Namespace, stream: bytes) -> None:
    """Lists or strips a module."""
    if given.command == "strip":
        sys.stdout.buffer.write(strip(stream, given.keep_names))
    else:
        for section in Module(stream).sections:
            print(row(section))


def attempt(path: str, act: Callable[[bytes], None]) -> int:
    """Runs a function over the bytes of a file, prints its fault, and returns the exit status."""
    try:
        stream = read(path)
    except OSError as error:
        print(f"{path}: {error.strerror}", file=sys.stderr)
        return FAILED
    try:
        act(stream)
    except ParseError as error:
        print(f"{path}: {error}", file=sys.stderr)
        return MALFORMED
    return 0


def row(section: Section) -> str:
    """A line for a section: its size, its offset, its name, and the number of its items."""
    name = section.name if section.name is not None else NAMES[section.id] if section.id < len(NAMES) else f"section {section.id}"
    return f"{section.size:>12,} {section.start:>#12x}  {name}" + ("" if section.count is None else f" ({section.count})")


def dump(words: list[str]) -> int:
    """Runs the program `wasm_dump` of this project in place of this one."""
    program = shutil.which("wasm_dump")
    if not program:
        print(f"{NAME}: there is no program wasm_dump on the path", file=sys.stderr)
        return FAILED
    os.execv(program, [program, *words])


if __name__ == "__main__":
    sys.exit(main())
