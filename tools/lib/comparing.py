"""What the subcommands of tools/compare share: their arguments, random streams, and the smallest stream that fails."""
import itertools
import os
import random
from concurrent.futures import ThreadPoolExecutor

import common
import programs
from common import number_at

# How often a failing stream is made smaller and tried, and how many streams are looked at together.
TRIES, BATCH = 3000, 4000


def sections_in(data):
    """Where each section of a module begins and ends, as far as they can be read."""
    place = 8
    try:
        while place < len(data):
            size, start = number_at(data, place + 1)
            yield place, min(len(data), start + size)
            place = start + size
    except IndexError:
        return


def smallest(data, fails):
    """The smallest bytes that still fail: sections and parts are left out, and bytes become 0, as long as `fails` is true of the rest."""
    for start, end in reversed(list(sections_in(data))):
        data = data[:start] + data[end:] if fails(data[:start] + data[end:]) else data
    tries, size = TRIES, max(1, len(data) // 2)
    while size and tries > 0:
        at, has_changed = 0, False
        while at < len(data) and tries > 0:
            tries -= 2
            shorter, plain = data[:at] + data[at + size :], data[:at] + bytes(len(data[at : at + size])) + data[at + size :]
            found = next((other for other in (shorter, plain) if other != data and fails(other)), None)
            data, has_changed = (data, has_changed) if found is None else (found, True)
            at += 0 if found == shorter else size
        size = size if has_changed and size == 1 else size // 2
    return data


def arguments(about, task, model=None, **others):
    """The arguments of a comparison; `command` is that of its program, and `known` its model."""
    if model:
        others["model"] = "a model, instead of tools/model/%s" % os.path.basename(model)
    given = common.arguments(about, **others)
    given.command = programs.command(task) if task else None
    if model:
        given.model = given.model or model
        given.known = common.load(given.model)
    return given


def one_by_one(differs):
    """Finds the differences of many streams, each by its own runs of a program."""
    def find(streams):
        with ThreadPoolExecutor(len(os.sched_getaffinity(0))) as pool:
            return list(pool.map(differs, streams))

    return find


def compare(given, streams, differences, data_of=lambda one: one, with_data=lambda one, data: data, size=BATCH):
    """Compares streams, or cases with bytes. `differences` returns of each what differs, or None. Returns the status of the tool.

    What is printed of a difference is that of the smallest bytes that fail.
    """
    streams, found, count = iter(streams), [], 0
    while True:
        batch = list(itertools.islice(streams, size))
        if not batch:
            break
        count += len(batch)
        found += [one for one, text in zip(batch, differences(batch)) if text]
    for one in found[: common.SHOWN]:
        data = smallest(data_of(one), lambda data: differences([with_data(one, data)])[0])
        print("DIFFERS %s\n  %s" % (data.hex()[:4000], differences([with_data(one, data)])[0]))
    print("%d compared, %d differ%s" % (count, len(found), " (seed %d)" % given.seed if hasattr(given, "seed") else ""))
    return common.DIFFERS if found else 0


def random_streams(about, task, model, differs, draw, large=None, count=2000, files=True):
    """The main part of a comparison of random streams and of files. `differs` returns what differs of a stream, by the arguments."""
    given = arguments(about, task, model, numbers=[("seed", 1), ("count", count)], files=files)
    given.modules = set(common.modules_of(given.files))
    return compare(given, drawn(given, draw, large), one_by_one(lambda data: differs(given, data)))


def drawn(given, draw, large=None):
    """Random streams, one more for each hundred with a part that is larger than a chunk, and the modules of files."""
    rng = random.Random(given.seed)
    yield from (draw(rng) for _ in range(given.count))
    yield from (large(rng) for _ in range(given.count // 100 if large else 0))
    yield from common.modules_of(given.files)
