"""The tests of the bindings: how many there are in their sources, and how many pass, so that none is lost unseen."""
import glob
import os
import re

import common

# Where the tests of each suite are, and what each begins with.
SOURCES = {"python": (os.path.join("bindings", "python", "tests", "*.py"), r"^    def test_"), "js": (os.path.join("bindings", "js", "tests", "*.test.js"), r"^ *test\(")}


def kept():
    """How many tests each suite has in its sources, and how many pass at least, as tools/lib/suites.txt says."""
    rows = [line.split() for line in common.read("tools", "lib", "suites.txt").splitlines() if not line.startswith("#")]
    return {name: (int(written), int(passing)) for name, written, passing in rows}


def wrong():
    """The suites whose sources have another number of tests."""
    for name, (pattern, start) in SOURCES.items():
        found = sum(len(re.findall(start, common.read(path), re.M)) for path in glob.glob(os.path.join(common.TOP, pattern)))
        if found != kept()[name][0]:
            yield "tools/lib/suites.txt: %d tests of the suite %s, and there are %d" % (kept()[name][0], name, found)


def passed(name, count):
    """Raises Failed if fewer tests of a suite passed than should. Returns how many did."""
    common.require(count >= kept()[name][1], "%d tests of the suite %s passed, and %d are expected (tools/lib/suites.txt)" % (count, name, kept()[name][1]))
    return count


def passed_in_python(text):
    """The same of what `python -m unittest` prints: those that it skipped have not passed."""
    ran, skipped = re.search(r"^Ran (\d+) tests?", text, re.M), re.search(r"skipped=(\d+)", text)
    return passed("python", int(ran[1]) - int(skipped[1] if skipped else 0) if ran else 0)
