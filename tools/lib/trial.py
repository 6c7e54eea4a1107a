"""Runs Rattle without proofs: a crate in a copy of the repository, for `rt try`. Also where the benchmark is."""
import os
import re
import shutil
import subprocess

import common

BENCHES = os.path.join(common.TOP, "benches")


def sources(top):
    """The files of the benchmark. They are Rattle, whatever their names end in."""
    for folder, folders, names in os.walk(top):
        folders[:] = sorted(name for name in folders if name != "out")
        for name in sorted(names):
            if name.endswith(".rs"):
                yield os.path.join(folder, name)


def crates_of_tests():
    """How many tests each crate has that has some."""
    found = {}
    for crate in common.crates():
        for path in common.files_of(crate):
            if path.endswith(".rt"):
                found[crate] = found.get(crate, 0) + len(re.findall(r"^\s*#\[test\]$", common.read(path), re.M))
    return {crate: count for crate, count in found.items() if count}


def number_of_tests():
    """How many tests there are, as tools/lib/tests.txt says, so that none is lost unseen."""
    return int(common.read(os.path.join(common.LIB, "tests.txt")))


def used(paths):
    """The crates that these files name."""
    return {name for path in paths for name in re.findall(r"\b(wasm_\w+)::", common.read(path))}


def with_libraries(crates):
    """These crates and their libraries, lowest first."""
    return [name for name in common.crates() if any(name in common.crates_of(crate) for crate in crates)]


def of_toolchain(crates):
    """The libraries of the toolchain that these crates use."""
    return sorted({name for crate in crates for name in common.crates()[crate] if name not in common.crates()})


def copied(folder, crates):
    """Copies these crates and their libraries. Returns their names, lowest first."""
    wanted = with_libraries(crates)
    for name in wanted:
        for path in common.files_of(name):
            to = os.path.join(folder, os.path.relpath(path, common.TOP))
            os.makedirs(os.path.dirname(to), exist_ok=True)
            shutil.copy(path, to)
    shutil.copy(os.path.join(common.TOP, "HANDLES"), folder)
    return wanted


def listed(folder, crate, wanted):
    """Writes crates.txt: the copied crates, and the crate that is tried, which uses all of them."""
    libraries = {**{name: common.crates()[name] for name in wanted}, crate: wanted + of_toolchain(wanted)}
    common.write(os.path.join(folder, "crates.txt"), "".join("%s: %s\n" % (name, " ".join(of)) for name, of in libraries.items()))


def tried(place):
    """Compiles and runs the tests of the crate in a folder. Returns the status and what was printed."""
    done = subprocess.run(["rt", "try", "--test"], cwd=place, stdin=subprocess.DEVNULL, stdout=subprocess.PIPE, stderr=subprocess.STDOUT)
    return done.returncode, done.stdout.decode(errors="replace")
