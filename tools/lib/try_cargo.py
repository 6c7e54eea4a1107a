"""Runs the tests and the programs that cargo builds of a clone, with nothing but cargo: no network, no crates, no toolchain of Rattle.

    tools/try cargo

It also compares what these programs print with what those of Rattle's compiler do, for each stream of tools/golden.jsonl. The status is 1 if a test
fails, if fewer ran than there are, or if an output differs. Status 3: there is no cargo.
"""
import os
import re
import shutil
import subprocess
import tempfile

import cargo
import common
import programs
import trial

RESULT = re.compile(r"^test result: ok\. (\d+) passed; 0 failed", re.M)
EXAMPLE = re.compile(r"^[ \t]*//[/!] ?```rattle$", re.M)
# The commands of each program whose output is compared. The second reads its standard input.
RUNS = {
    "pulleynavy": (["list"], ["list", "--json"], ["dump", "--bytes", "--names"], ["dump", "--json"], ["check"], ["strip"]),
    "wasm_list": ([], ["strip"]),
}


def number_of_examples():
    """How many examples the doc comments have, without those of the C library, which cargo does not build."""
    paths = [path for crate in common.crates() if crate != "wasm_c" for path in common.files_of(crate) if path.endswith(".rt")]
    return sum(len(EXAMPLE.findall(common.read(path))) for path in paths)


def environment(home):
    """What cargo sees: its own programs, and an empty folder for what it keeps."""
    toolchain = subprocess.run(["rustc", "--print", "sysroot"], stdout=subprocess.PIPE, check=True).stdout.decode().strip()
    return {"PATH": os.path.join(toolchain, "bin") + ":/usr/bin:/bin", "HOME": home, "CARGO_HOME": os.path.join(home, "cargo"), "CARGO_NET_OFFLINE": "true"}


def tested(clone, settings):
    """Runs the tests. Returns what is wrong, or None."""
    done = subprocess.run(["cargo", "test", "--quiet"], cwd=clone, env=settings, stdout=subprocess.PIPE, stderr=subprocess.STDOUT)
    output = done.stdout.decode(errors="replace")
    counts, tests, examples = [int(count) for count in RESULT.findall(output)], trial.number_of_tests(), number_of_examples()
    if done.returncode or tests not in counts or examples not in counts or "lines are equal" not in output:
        return "%s\ncargo test: status %d; %s passed, and %d tests, %d examples and the rows are expected" % (output, done.returncode, counts, tests, examples)
    print("cargo test: %d tests and %d examples passed, and the rows are equal" % (tests, examples))
    return None


def differing(name, one, other, folder):
    """The first run whose output, messages or status differ between both builds of a program, or None."""
    path = os.path.join(folder, "a.wasm")
    for stream, _ in common.golden():
        common.write(path, stream)
        for words in RUNS[name]:
            words = [*words, path] if name == "pulleynavy" else words
            runs = [subprocess.run([program, *words], input=stream, stdout=subprocess.PIPE, stderr=subprocess.PIPE) for program in (one, other)]
            said = [(run.returncode, run.stdout, run.stderr) for run in runs]
            if said[0] != said[1]:
                return "%s %s of %s: %r, and not %r" % (name, " ".join(words), stream.hex(), said[0], said[1])
    print("cargo install: %d runs of %s print what the program of Rattle does" % (len(RUNS[name]) * len(common.golden()), name))
    return None


def of_rattle(name):
    """The program that Rattle's compiler built of these sources: in the gate that of `rt ci`, otherwise the prebuilt one; None if both are of others."""
    if os.path.exists(programs.path_of(name)) and not programs.is_older(name):
        return programs.path_of(name)
    return os.path.join(common.PREBUILT, name) if common.is_prebuilt() else None


def installed(clone, folder, settings):
    """Installs the programs and compares them. Returns what is wrong, or None."""
    subprocess.run(["cargo", "install", "--quiet", "--path", ".", "--root", folder], cwd=clone, env=settings, check=True)
    for name in RUNS:
        other = of_rattle(name)
        if not other:
            print("cargo install: there is no %s of Rattle of these sources to compare with" % name)
            continue
        wrong = differing(name, os.path.join(folder, "bin", name), other, folder)
        if wrong:
            return wrong
    return None


def judged(clone, settings):
    """Has rustfmt and clippy judge what is written by hand. Returns what is wrong, or None."""
    for words in (["fmt", "--all", "--check"], ["clippy", "--quiet", "--all", "--all-targets", "--", "-D", "warnings"]):
        if not shutil.which("cargo-" + words[0], path=settings["PATH"]):
            common.skip("missing: cargo %s" % words[0])
            continue
        done = subprocess.run(["cargo", *words], cwd=clone, env=settings, stdout=subprocess.PIPE, stderr=subprocess.STDOUT)
        if done.returncode:
            return done.stdout.decode(errors="replace")
    return None


def main():
    common.parser(__doc__).parse_args()
    if not cargo.found():
        return common.NO_PROGRAM
    with tempfile.TemporaryDirectory() as folder:
        clone = os.path.join(folder, "clone")
        cargo.copied(clone)
        settings = environment(folder)
        wrong = tested(clone, settings) or judged(clone, settings) or installed(clone, folder, settings)
    if wrong:
        print(wrong)
    return common.DIFFERS if wrong else 0
