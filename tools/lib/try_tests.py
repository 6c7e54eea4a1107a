"""Runs the tests of the crates without proofs, and the benchmark once. `rt ci` proves the tests and runs them.

    tools/try tests                  all tests, and the benchmark over benches/stdin
    tools/try tests stream_tests     the tests of these crates alone
    tools/try tests --counted LOG    only the benchmark: counts the tests that passed by what `rt ci`, which runs them too, printed to a file
    tools/try tests --fmt            runs nothing: lays out the files of the benchmark, which is in no crate

The status is 1 if a test fails, or if fewer tests passed than tools/lib/tests.txt says. `tools/check tests` compares that number with the
sources. Status 3: `rt` is not on the path.
"""
import os
import re
import shutil
import subprocess
import tempfile

import benchmark
import common
import trial

RESULT = re.compile(r"^test result: .*?(\d+) passed; (\d+) failed", re.M)


def try_benchmark(given):
    """Lays out the benchmark, or runs it without a proof and compares what it writes. Returns the status."""
    with tempfile.TemporaryDirectory() as folder:
        trial.listed(folder, benchmark.CRATE, trial.copied(folder, benchmark.libraries()))
        place = os.path.join(folder, "crates", benchmark.CRATE)
        files = benchmark.written(place)
        if given.fmt:
            return laid_out(place, files)
        with open(os.path.join(trial.BENCHES, "stdin"), "rb") as stream:
            done = subprocess.run(["rt", "try"], cwd=place, stdin=stream, stdout=subprocess.PIPE, stderr=subprocess.PIPE)
    differs = done.stdout != common.read_bytes(os.path.join(trial.BENCHES, "stdout"))
    if done.returncode or differs:
        print((done.stderr + done.stdout).decode(errors="replace"))
    print("benchmark: %s" % ("status %d" % done.returncode if done.returncode else "other output" if differs else "passed"))
    return common.DIFFERS if done.returncode or differs else 0


def laid_out(place, files):
    """Lays out the files of a crate, and takes each back to where it came from."""
    status = subprocess.run(["rt", "fmt"], cwd=place, stdin=subprocess.DEVNULL).returncode
    for source, path in files.items():
        shutil.copyfile(path, source)
    return common.DIFFERS if status else 0


def passed(crate):
    """Runs the tests of a crate without proofs. Returns how many passed, or None if one failed or didn't compile."""
    status, output = trial.tried(os.path.join(common.TOP, "crates", crate))
    result = RESULT.search(output)
    if status or not result:
        print(output.rstrip())
    print("%s: %s" % (crate, "%s passed, %s failed" % result.groups() if result else "status %d" % status))
    return int(result[1]) if result and not status else None


def enough(count):
    """The status for this many tests that passed: there may not be fewer than last time."""
    wanted = trial.number_of_tests()
    print("tests: %d passed%s" % (count, "" if count >= wanted else ", and %d are expected (tools/lib/tests.txt)" % wanted))
    return 0 if count >= wanted else common.DIFFERS


def counted(path):
    """The status by what `rt ci` printed: no test failed, and enough passed."""
    with open(path, encoding="utf-8", errors="replace") as file:
        results = [(int(good), int(bad)) for good, bad in RESULT.findall(file.read())]
    return enough(sum(good for good, _ in results)) or (common.DIFFERS if any(bad for _, bad in results) else 0)


def main():
    line, known = common.parser(__doc__), trial.crates_of_tests()
    line.add_argument("crates", nargs="*", metavar="CRATE", type=common.one_of("crate of tests", known), help="crates of tests, instead of all")
    line.add_argument("--counted", metavar="LOG", help="count in what rt ci printed")
    line.add_argument("--fmt", action="store_true", help="lay out the files of the benchmark")
    given = line.parse_args()
    if given.counted and counted(given.counted):
        return common.DIFFERS
    if not shutil.which("rt"):
        common.stop(common.NO_PROGRAM, "rt is not on the path")
    if given.fmt or given.counted:
        return try_benchmark(given)
    counts = [passed(crate) for crate in given.crates or known]
    if None in counts:
        return common.DIFFERS
    return 0 if given.crates else enough(sum(counts)) or try_benchmark(given)
