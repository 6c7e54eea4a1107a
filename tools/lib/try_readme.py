"""Runs every command and every program of README.md in a new clone, as a reader would.

    tools/try readme

A command or a program in a language that is new there needs a way to be tried here: what has none is a fault. Without prebuilt artifacts for these
sources the commands would prove everything first, so nothing is run then, and that is said in one line.
"""
import glob
import os
import re
import shutil
import subprocess
import sys
import tempfile

import cargo
import common

PAGE = os.path.join(common.TOP, "README.md")
MOST_BYTES = 8192
# Commands that are the gate itself, and those that tools/try packages and tools/try cargo run.
ELSEWHERE = ["rt ci", ".ci/run", "cargo run --release -- dump FILE", "cargo test", "pip install dist/", "npm install dist/", "dpkg -i dist/", "pulleynavy dump --names m.wasm"]
# What stands for what in a command.
STANDS_FOR = {"FILE...": "a.wasm", "FILE": "a.wasm", "OTHER": "other.wasm", "NAME=DATA": "note=data"}
COMMANDS = ("./pulleynavy ", "./install ", "tools/package")
# The program that a command runs.
PROGRAM_OF = {"./pulleynavy": ["prebuilt/pulleynavy"]}
C = "#include <pulleynavy.h>\n#include <stdbool.h>\n#include <stdio.h>\n\nstatic unsigned char bytes[1 << 16];\n\nint main(void) {\n"
C += "size_t size = fread(bytes, 1, sizeof bytes, stdin);\n%sreturn event.kind == PULLEYNAVY_EVENT_FAULT;\n}\n"
RUST = 'fn main() -> Result<(), pulleynavy::Error> {\nlet module = std::fs::read("a.wasm").unwrap();\n%sOk(())\n}\n'
JS = 'import { readFileSync } from "node:fs";\nconst bytes = readFileSync("a.wasm");\n%s'
MANIFEST = '[package]\nname = "reader"\nversion = "0.0.0"\nedition = "2024"\n\n[dependencies]\npulleynavy = { path = "%s" }\n'


class Reader:
    """Someone with a new clone and a module."""

    def __init__(self, place):
        self.place, self.clone = place, os.path.join(place, "clone")
        self.file, self.prefix = os.path.join(place, "a.wasm"), os.path.join(place, "prefix")
        self.write("a.wasm", next(stream for stream, lines in common.golden() if "\nsection 2 " in "\n".join(lines) and "fault " not in "\n".join(lines)))
        self.write("data", b"by hand")
        self.run(["git", "clone", "--quiet", common.TOP, self.clone])

    def write(self, name, data):
        return common.write(os.path.join(self.place, name), data)

    def run(self, words, **options):
        """What a command prints; a fault if its status is not 0."""
        environment = {**os.environ, "PULLEYNAVY_LIB": os.path.join(self.prefix, "lib", "libpulleynavy.so"), **options.pop("env", {})}
        with open(self.file, "rb") as file:
            done = subprocess.run(words, stdin=file, stdout=subprocess.PIPE, stderr=subprocess.PIPE, cwd=self.place, env=environment, **options)
        assert not done.returncode, "%s: status %d, %s" % (" ".join(words[:4]), done.returncode, done.stderr.decode()[-400:])
        return done.stdout

    def command(self, line):
        """Runs a command, which has to print what its program prints. `tools/package` may lack programs for some packages."""
        first, *words = [{**STANDS_FOR, "PREFIX": self.prefix}.get(word, word) for word in line.split(" ")]
        quiet = {"cwd": self.place, "stdout": subprocess.PIPE, "stderr": subprocess.PIPE}
        done, *again = [subprocess.run([os.path.join(self.clone, program), *words], **quiet) for program in (first, *PROGRAM_OF.get(first, ()))]
        if first == "tools/package" and done.returncode == common.NO_PROGRAM:
            for missing in done.stderr.decode().splitlines():
                common.skip(missing)
            return
        assert not done.returncode, "status %d, %s" % (done.returncode, done.stderr.decode()[-400:])
        assert all(one.stdout == done.stdout for one in again), "it prints other than its program"

    # ---- programs

    def c(self, code):
        self.write("reader.c", C % code)
        flags = self.run(["pkg-config", "--cflags", "--libs", "pulleynavy"], env={"PKG_CONFIG_PATH": self.prefix + "/lib/pkgconfig"})
        self.run(["cc", "-Wall", "-Werror", "reader.c", *flags.decode().split(), "-o", "reader"])
        self.run(["./reader"], env={"LD_LIBRARY_PATH": self.prefix + "/lib"})

    def python(self, code):
        imports = self.run([sys.executable, "-B", "-c", code], env={"PYTHONPATH": self.clone + "/bindings/python"})
        assert imports, "the program in Python prints nothing"

    def js(self, code):
        package = os.path.join(self.place, "node_modules", "pulleynavy")
        shutil.copytree(self.clone + "/bindings/js", package)
        shutil.copy(self.clone + "/prebuilt/pulleynavy.wasm", package)
        self.write("reader.mjs", JS % code)
        assert self.run(["node", "reader.mjs"]), "the program in JavaScript prints nothing"

    def rust(self, code):
        if "Parser::new(0).parse_all(bytes)" in code:
            lines = {line.strip() for path in glob.glob(common.TOP + "/crates/wasm_examples/src/*.rt") for line in open(path, encoding="utf-8")}
            assert {line.strip() for line in code.splitlines()} <= lines, "the program in Rattle is in no crate"
            return
        self.write("rust/src/main.rs", RUST % code)
        self.write("rust/Cargo.toml", MANIFEST % (self.clone + "/bindings/rust"))
        cargo.offline(self.place)
        words = ["cargo", "run", "--offline", "--quiet", "--manifest-path", self.place + "/rust/Cargo.toml"]
        environment = {name: value for name, value in os.environ.items() if name != "PULLEYNAVY_LIB"}
        done = subprocess.run(words, cwd=self.place, env=environment, stdout=subprocess.PIPE, stderr=subprocess.PIPE)
        assert done.stdout and not done.returncode, "the program in Rust: %s" % done.stderr.decode()[-400:]


PROGRAMS = {"c": Reader.c, "js": Reader.js, "python": Reader.python, "rust": Reader.rust}
# What the machine needs for a program. `./install` makes the library for Python with a C compiler.
NEEDED = {"c": ["cc", "pkg-config"], "js": ["node"], "python": ["cc"], "rust": ["cargo"]}


def commands(text):
    """The commands of the page: lines of blocks, and words in code that begin with a program."""
    plain = re.sub(r"^```.*?^```$", "", text, flags=re.M | re.S)
    for line in re.findall(r"^    (?:\$ )?((?:\./|rt |\.ci/|cargo |pulleynavy ).*)$", plain, re.M):
        yield re.split(r" {3,}", line)[0]
    yield from re.findall(r"`((?:\./|tools/package|pip |npm |dpkg )[^`]*)`", plain)


def faults(text):
    if len(text.encode()) > MOST_BYTES:
        yield "README.md has %d bytes, and %d are the most" % (len(text.encode()), MOST_BYTES)
    for name in re.findall(r"`(prebuilt/[\w.]+)`", text):
        if not os.path.exists(os.path.join(common.TOP, name)):
            yield "there is no %s" % name
    with tempfile.TemporaryDirectory() as place:
        reader = Reader(place)
        for command in dict.fromkeys(commands(text)):
            try:
                if command.startswith(COMMANDS):
                    reader.command(command)
                elif not command.startswith(tuple(ELSEWHERE)):
                    yield "%s is not tried" % command
            except AssertionError as failed:
                yield "%s: %s" % (command, failed)
        for language, code in re.findall(r"^```(\w+)\n(.*?)^```", text, re.M | re.S):
            try:
                if common.all_found(NEEDED[language]) and (language != "rust" or cargo.found()):
                    PROGRAMS[language](reader, code)
            except (AssertionError, KeyError) as failed:
                yield "a program in %s: %s" % (language, failed)


def main():
    common.parser(__doc__).parse_args()
    if not common.is_prebuilt():
        common.skip("the sources have moved on since version %s, so the commands of README would prove everything" % common.made_from().get("version", "0"))
        return 0
    if not common.found("git"):
        return 0
    found = list(faults(common.read(PAGE)))
    return common.tell(found, "README: %d faults" % len(found), None)
