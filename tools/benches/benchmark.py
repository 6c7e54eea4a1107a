"""The benchmark `benches/`, a program over the parser and the readers: where it is, and how it is proved and built.

It is in no crate, so `rt ci` doesn't prove it. `tools/bench` proves it before it measures, and `tools/try tests` runs it without a proof.
"""
import os
import shutil
import tempfile

import common
import toolchain
import trial

CRATE = "wasm_bench"
PROGRAM = os.path.join(trial.BENCHES, "out", CRATE)


def libraries():
    """The crates that the benchmark stands on, lowest first."""
    return trial.with_libraries(trial.used(trial.sources(trial.BENCHES)))


def written(place):
    """Writes the benchmark as a crate into a folder. Returns the paths of its files, by those of the benchmark."""
    source = os.path.join(place, "src")
    os.makedirs(source)
    names = {path: os.path.splitext(os.path.basename(path))[0] + ".rt" for path in trial.sources(trial.BENCHES)}
    return {path: shutil.copyfile(path, os.path.join(source, name)) for path, name in names.items()}


def proved(made, real):
    """Proves the benchmark over the libraries that this checkout proved, and compiles it by a toolchain into an object file."""
    names = libraries()
    words = toolchain.command(CRATE, "src/main.rt", [*names, *trial.of_toolchain(names)])
    with tempfile.TemporaryDirectory() as place:
        written(place)
        common.must([*words, "--jobs", "4", "--toolchain", real, "--backend", "llvm", "-o", made], place)


def is_built():
    """Whether the program is there and not older than its sources."""
    if not os.access(PROGRAM, os.X_OK):
        return False
    paths = [*trial.sources(trial.BENCHES), *(path for crate in libraries() for path in common.files_of(crate))]
    return all(os.path.getmtime(path) <= os.path.getmtime(PROGRAM) for path in paths)


def build():
    """Proves and builds the program if it isn't built from these sources. Its libraries must be proved."""
    if is_built():
        return
    os.makedirs(os.path.dirname(PROGRAM), exist_ok=True)
    with tempfile.TemporaryDirectory() as folder:
        made = os.path.join(folder, "made.o")
        proved(made, os.path.join(toolchain.folder(), "toolchain"))
        common.must(toolchain.link_program(PROGRAM, made))
