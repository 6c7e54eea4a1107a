"""Counts the instructions of writing one item, as cargo builds the proved sources, next to a short program in C."""
import os
import re
import subprocess
import tempfile

import cargo
import common

KINDS = {"import": "an import of 22 bytes", "export": "an export", "type": "a type of two parameters and a result", "name": "a name"}
# The instructions of more runs less those of few are those of a run.
FEW, MORE = 1_000, 11_000


def instructions(program, kind, folder):
    """The instructions that one run takes, by callgrind."""
    def counted(count):
        words = ["valgrind", "--tool=callgrind", "--callgrind-out-file=" + os.path.join(folder, "profile"), program, kind, str(count)]
        said = subprocess.run(words, stdout=subprocess.PIPE, stderr=subprocess.PIPE, check=True).stderr.decode()
        return int(re.search(r"Collected : (\d+)", said)[1])

    return (counted(MORE) - counted(FEW)) / (MORE - FEW)


def main():
    """Counts the instructions of writing one item: whether it fits, its length and its bytes.

    tools/bench writing

    The proved sources are those that cargo builds, next to the shortest program in C. Status 3: there is no cargo, C compiler or valgrind.
    """
    common.arguments(main.__doc__)
    if not cargo.found() or not common.all_found(["cc", "valgrind"]):
        return common.NO_PROGRAM
    with tempfile.TemporaryDirectory() as folder:
        clone, target, short = (os.path.join(folder, name) for name in ("clone", "target", "short"))
        cargo.copied(clone)
        common.must(["cargo", "build", "--release", "--offline", "--quiet", "--example", "writing", "--target-dir", target], folder=clone)
        common.must(["cc", "-O2", "-o", short, os.path.join(common.TOP, "tools", "benches", "writing.c")])
        ours = os.path.join(target, "release", "examples", "writing")
        print("| Instructions to write | Here | Short program in C | Ratio |\n|---|---|---|---|")
        for kind, words in KINDS.items():
            one, other = instructions(ours, kind, folder), instructions(short, kind, folder)
            print("| %s | %.0f | %.0f | %.1f |" % (words, one, other, one / other))
    return 0
