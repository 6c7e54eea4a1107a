"""Does what docs/FIRST_PROOF.md says, from an empty folder to a proved crate, with the commands and the files of the page.

    tools/try first_proof

Goals remain before the proof is there, and none after it; the edit of the page is refused. The status is 1 if one of these is not so. What `rt ci` proved
of the libraries on this machine is not proved again. Without the toolchain it says so in a line.
"""
import os
import re
import subprocess
import tempfile

import common

PAGE = "docs/FIRST_PROOF.md"
# Code, and the names of files in bold.
FENCED, NAME = re.compile(r"```\w+\n(.*?)```\n", re.S), re.compile(r"\*\*([\w/.-]+)\*\*")
# Indented lines.
COMMANDS = re.compile(r"^(?:    .+\n)+", re.M)
CRATE = os.path.join("first", "crates", "first_part")


def files_of(text):
    """The files of the page: the first name in bold of each paragraph that code follows, and the code."""
    for code in FENCED.finditer(text):
        paragraph = text[: code.start()].rstrip().rpartition("\n\n")[2]
        yield NAME.search(paragraph)[1], code[1]


def commands_of(text):
    """The blocks of indented lines."""
    return [re.sub(r"^    ", "", block, flags=re.M) for block in COMMANDS.findall(FENCED.sub("", text))]


def run(commands, place):
    """The status of commands of the page, and what they print."""
    done = subprocess.run(["bash", "-euc", commands], cwd=place, stdout=subprocess.PIPE, stderr=subprocess.STDOUT)
    return done.returncode, done.stdout.decode(errors="replace")


def main():
    common.arguments(__doc__)
    if not common.found("rt"):
        return 0
    text = common.read(PAGE)
    files, blocks = dict(files_of(text)), commands_of(text)
    common.require(len(files) == 4 and len(blocks) == 4, "%s: %d files and %d blocks of commands, and 4 of each are expected" % (PAGE, len(files), len(blocks)))
    with tempfile.TemporaryDirectory() as place:
        clone = os.path.join(place, "clone")
        common.must(["git", "clone", "-q", common.TOP, clone])
        common.must(["bash", "-euc", blocks[0].replace("PULLEYNAVY", clone)], folder=place)
        first, crate = os.path.join(place, "first"), os.path.join(place, CRATE)
        for name in ("src/lib.rt", "specs/First.antt"):
            common.write(os.path.join(crate, name), files.pop(name))
        common.write(os.path.join(crate, "specs", "Lib.antt"), "pub mod First\n")
        status, said = run(blocks[1], first)
        goals = set(re.findall(r"pub (returns-[\w-]+) :", said))
        common.require(status and goals == {"returns-in-Ok-Parsed", "returns-in-Err"}, "%s: these goals remain: %s\n%s" % (PAGE, sorted(goals), said[-3000:]))
        for name, data in files.items():
            common.write(os.path.join(crate, name), data)
        for block in blocks[2:]:
            status, said = run(block, first)
            common.require(status == 0 and "first_part" in said, "%s: status %d of %s\n%s" % (PAGE, status, block, said[-3000:]))
        print("%s: proved, and its edit is refused" % PAGE)
    return 0
