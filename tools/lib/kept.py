"""Counts that may only grow: what is tested, compared and refused, so that none of it is lost unseen."""
import glob
import os
import re

import common
import trial

WHERE = os.path.join("tools", "lib", "kept.txt")


def edits():
    """The edits that the prover must refuse, of each crate."""
    paths = glob.glob(os.path.join(common.TOP, "crates", "*", "must-fail", "*.edit"))
    crates = sorted(path.split(os.sep)[-3] for path in paths)
    return {"edits of %s" % crate: crates.count(crate) for crate in set(crates)}


def tests():
    return {"tests of %s" % crate: count for crate, count in trial.crates_of_tests().items()}


def lines(*path, start=r"\S"):
    return len(re.findall(r"^%s" % start, common.read(*path), re.M))


def counts():
    """What there is of each kind now."""
    others = {
        "golden streams": lines("tools", "golden.jsonl"),
        "lines of rows": lines("crates", "test_rows", "stdout", start=""),
        "lines of cases of statuses": lines("tools", "lib", "statuses.txt", start=r"[^#\s]"),
        "worked streams of the model": lines("tools", "model", "streams.txt", start=r"[^#\s]"),
    }
    return {**edits(), **tests(), **others}


def kept():
    """What there was of each kind before."""
    rows = [line.rpartition(": ") for line in common.read(WHERE).splitlines() if not line.startswith("#")]
    return {name: int(count) for name, _, count in rows}


def wrong():
    """The kinds of which there is less than before, or more than is noted."""
    before, now = kept(), counts()
    for name in sorted({*before, *now}):
        had, has = before.get(name, 0), now.get(name, 0)
        if has < had:
            yield "%s: %s: %d, and there are %d: none may go" % (WHERE, name, had, has)
        elif has > had:
            yield "%s: %s: %d, and there are %d: note the new number" % (WHERE, name, had, has)
