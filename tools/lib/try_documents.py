"""Builds and runs the programs of docs/CALLING.md in C, C++, Rust, Python and JavaScript: those of one task have to write the same.

    tools/try documents --archive libwasm_c.a --wasm pulleynavy32.wasm

The archive and the module are those that tools/build_targets makes. The programs read golden streams without a fault, those with
relocations among them; a task about faults has malformed streams too. A program in Rattle is run by `rt try`, without a proof. A
language that the machine lacks is said in one line, and left out.
"""
import os
import re
import shutil
import subprocess
import sys
import tempfile

import cargo
import common
import packages
import trial

sys.path.insert(0, os.path.join(common.TOP, "bindings", "python"))
from pulleynavy.declared import RelocationKind

PAGE = os.path.join(common.TOP, "docs", "CALLING.md")
# How the line of a section of relocations begins.
RELOCATIONS = "  x72656c6f632e"
# The tasks of the page that have programs: the heading, and how each language gets the module.
TASKS = [
    ("List a module's imports", {}),
    ("Report a malformed file", {"c": "stdin", "rust": "stdin", "python": "stdin", "js": "stdin"}),
    ("Parse a download as it arrives", {"c": "stdin", "rust": "stdin", "python": "url", "js": "stdin"}),
    ("Strip debug info", {"c": "stdin", "rust": "stdin", "python": "stdin", "js": "stdin"}),
    ("Resolve relocations", {}),
]
# The tasks that read malformed streams too, and some of these: bytes are missing, or items of an export section are wrong.
ON_FAULTS = {"Report a malformed file"}
MODULE = b"\0asm\1\0\0\0"
MALFORMED = [b"", MODULE[:6], MODULE + b"\7", MODULE + b"\7\5\1\1a", MODULE + b"\7\5\1\1a\5\0", MODULE + b"\7\6\1\1a\0\0\0",
             MODULE + b"\7\5\2\1a\0\0", MODULE + b"\7\5\1\1a\4\0\7\1\0", b"\0asm\x0d\0\1\0\7\1\0"]
MANIFEST = '[package]\nname = "programs"\nversion = "0.0.0"\nedition = "2021"\n\n[dependencies]\npulleynavy = { path = "%s" }\n'


def sources():
    """The program of each task in each language, by the number of the task."""
    parts = dict(re.findall(r"^## (.*?)\n(.*?)(?=^## |\Z)", common.read(PAGE), re.M | re.S))
    for number, (heading, _) in enumerate(TASKS):
        blocks = re.findall(r"^```(\w+)\n(.*?)^```", parts[heading], re.M | re.S)
        found = {language: code for language, code in blocks if language != "rust" or "fn main" in code and "HostRuntime" not in code}
        found.update({"rattle": code for language, code in blocks if "fn main(rt: HostRuntime)" in code})
        yield number, found


def with_c(folder, number, code, archive, compiler="cc", more=(), ending="c"):
    """A program in C, or in C++ with its compiler."""
    program = os.path.join(folder, "%s%d" % (ending, number))
    include = "-I" + os.path.join(common.TOP, "crates", "wasm_c", "include")
    words = [compiler, "-O1", "-Wall", "-Wextra", "-Werror", include, common.write("%s.%s" % (program, ending), code), *more, archive, "-o", program]
    subprocess.run(words, check=True)
    return [program]


def with_rust(folder, codes, archive):
    """The programs in Rust, which are built together."""
    place = os.path.join(folder, "programs")
    common.write(os.path.join(place, "Cargo.toml"), MANIFEST % os.path.join(common.TOP, "bindings", "rust"))
    for number, code in codes.items():
        common.write(os.path.join(place, "src", "bin", "r%d.rs" % number), code)
    os.makedirs(os.path.join(folder, "lib"), exist_ok=True)
    shutil.copy(archive, os.path.join(folder, "lib", "libwasm_c.a"))
    settings = {"PULLEYNAVY_LIB": os.path.join(folder, "lib"), "CARGO_TARGET_DIR": os.path.join(folder, "programs-target")}
    cargo.offline(folder)
    subprocess.run(["cargo", "build", "--offline", "--quiet"], cwd=place, env={**os.environ, **settings}, check=True)
    return {number: [os.path.join(folder, "programs-target", "debug", "r%d" % number)] for number in codes}


def with_rattle(folder, code, streams):
    """What a program in Rattle writes of each stream, and whether it ends with status 0."""
    place, cases = os.path.join(folder, "rattle"), os.path.join(folder, "cases")
    os.mkdir(place)
    trial.listed(place, "program", trial.copied(place, ["wasm_parser"]))
    common.write(os.path.join(place, "crates", "program", "src", "main.rt"), code)
    for number, stream in enumerate(streams):
        common.write(os.path.join(cases, str(number)), stream)
    words = ["rt", "try", "--cases", cases]
    done = subprocess.run(words, cwd=os.path.join(place, "crates", "program"), stdout=subprocess.PIPE, stderr=subprocess.PIPE)
    outputs = dict(re.findall(rb"^== (\d+)\n(.*?)(?=^== |\Z)", done.stdout, re.M | re.S))
    statuses = dict(re.findall(rb"^case=(\d+) run=ended status=(\d+)", done.stdout + done.stderr, re.M))
    if len(outputs) != len(streams):
        common.stop(common.DIFFERS, "rt try: status %d\n%s" % (done.returncode, done.stderr.decode(errors="replace")[-2000:]))
    return {stream: (outputs[b"%d" % number], statuses.get(b"%d" % number) == b"0") for number, stream in enumerate(streams)}


def built(folder, archive, wasm):
    """How each program is run, by the number of its task and its language."""
    commands, rust, node = {}, {}, common.found("node")
    if node:
        packages.javascript(os.path.join(folder, "node_modules", "pulleynavy"), wasm)
    for number, blocks in sources():
        commands[number, "c"] = with_c(folder, number, blocks["c"], archive)
        if "cpp" in blocks and common.found("c++"):
            commands[number, "cpp"] = with_c(folder, number, blocks["cpp"], archive, "c++", ["-std=c++17"], "cpp")
        commands[number, "python"] = [sys.executable, "-B", common.write(os.path.join(folder, "p%d.py" % number), blocks["python"])]
        rust[number] = blocks["rust"]
        if node:
            commands[number, "js"] = ["node", common.write(os.path.join(folder, "j%d.mjs" % number), blocks["js"])]
    if cargo.found():
        commands.update(((number, "rust"), command) for number, command in with_rust(folder, rust, archive).items())
    return commands


def run(command, way, path):
    """What a program writes of a module, with the kinds of relocations in one form, and whether it ends with status 0."""

    def kind(match):
        word = match[2].decode()
        word = RelocationKind(int(word)).name if word.isdecimal() else word
        return match[1] + word.replace("_", "").lower().encode() + b" "

    words = command + {"stdin": [], "url": ["file://" + path]}.get(way, [path])
    settings = {**os.environ, "PYTHONPATH": os.path.join(common.TOP, "bindings", "python")}
    with open(path, "rb") as file:
        done = subprocess.run(words, stdin=file, stdout=subprocess.PIPE, stderr=subprocess.DEVNULL, env=settings, timeout=600)
    # C has numbers, Rust and Python have names.
    return re.sub(rb"(?m)^(\d+\.\.\d+ )(\w+) ", kind, done.stdout), done.returncode == 0


def differences(folder, archive, wasm, streams, malformed):
    """What the programs of a task write of each module, where that isn't the same."""
    library = os.environ["PULLEYNAVY_LIB"] = os.path.join(folder, "libpulleynavy.so")
    subprocess.run([os.path.join(common.TOP, "tools", "shared_library"), archive, library], check=True)
    commands, path = built(folder, archive, wasm), os.path.join(folder, "module.wasm")
    rattle, has_rattle = {}, common.found("rt")
    for number, blocks in sources():
        if has_rattle and "rattle" in blocks:
            rattle[number] = with_rattle(folder, blocks["rattle"], streams + malformed)
    for stream in streams + malformed:
        common.write(path, stream)
        for number, (heading, ways) in enumerate(TASKS):
            if stream in malformed and heading not in ON_FAULTS:
                continue
            found = {word: run(command, ways.get(word), path) for (of, word), command in commands.items() if of == number}
            if number in rattle:
                found["rattle"] = rattle[number][stream]
            if len(set(found.values())) != 1:
                yield "%s of %s\n  %s" % (heading, stream.hex()[:200], found)


def chosen():
    """Golden modules without a fault, and the first with relocations. Then malformed streams, and a component."""
    pairs = [(stream, lines) for stream, lines in common.golden() if stream[4:8] == b"\1\0\0\0"]
    modules = [pair for pair in pairs if not any("fault " in line for line in pair[1])]
    linked = [pair for pair in modules if any(line.startswith(RELOCATIONS) for line in pair[1])]
    faulty = [stream for stream, lines in pairs if lines[-1].startswith("fault ")]
    streams = [stream for stream, _ in modules[:: max(1, len(modules) // 12)] + linked[:6]]
    return streams, MALFORMED + faulty[:: max(1, len(faulty) // 12)]


def main():
    line = common.parser(__doc__)
    line.add_argument("--archive", metavar="FILE", type=common.existing, required=True, help="the C library")
    line.add_argument("--wasm", metavar="FILE", type=common.existing, required=True, help="the WebAssembly module")
    given = line.parse_args()
    if not common.found("cc"):
        return 0
    streams, malformed = chosen()
    with tempfile.TemporaryDirectory() as folder:
        differ = list(differences(folder, given.archive, given.wasm, streams, malformed))
    counts = len(TASKS), len(streams), len(malformed), len(differ)
    return common.tell(differ, "%d tasks, %d modules, %d malformed streams, %d differ" % counts)
