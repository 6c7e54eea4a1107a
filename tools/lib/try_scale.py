"""Runs the first command of docs/SCALE.md on 800 files, and compares the lines of each with those of a run on that file alone.

    tools/try scale

The files are the streams of tools/golden.jsonl, some of them malformed, with a section `producers` after every third. The status is 1 if a line is under
another file, or missing.
"""
import collections
import glob
import json
import os
import re
import subprocess
import tempfile

import common
import programs

PAGE, COUNT = "docs/SCALE.md", 800
# A language, as the tool conventions have it.
PRODUCERS = bytes.fromhex("0018 09") + b"producers\1\10language\1\1C\0"


def write_files(folder):
    """Writes the files."""
    os.mkdir(folder)
    streams = [stream for stream, _ in common.golden()]
    for number in range(COUNT):
        common.write(os.path.join(folder, "%03d.wasm" % number), streams[number % len(streams)] + PRODUCERS * (number % 3 == 0))


def of_all(place, path):
    """The lines of each file, from what the command of the page writes."""
    [command] = re.findall(r"^    (find REGISTRY .*)$", common.read(PAGE), re.M)
    done = subprocess.run(["bash", "-c", command], cwd=place, env={**os.environ, "PATH": path}, stderr=subprocess.DEVNULL)
    common.require(done.returncode == 123, "%s: status %d of its command, and 123 is expected" % (PAGE, done.returncode))
    found = collections.defaultdict(list)
    for name in glob.glob(os.path.join(place, "producers-*.jsonl")):
        for line in common.read(name).splitlines():
            found[json.loads(line)["file"]].append(line)
    return found


def main():
    common.arguments(__doc__)
    program = programs.built("pulleynavy")
    path = os.pathsep.join([os.path.dirname(program), os.environ["PATH"]])
    with tempfile.TemporaryDirectory() as place:
        write_files(os.path.join(place, "REGISTRY"))
        found, wrong = of_all(place, path), []
        for name in sorted(os.path.join("REGISTRY", name) for name in os.listdir(os.path.join(place, "REGISTRY"))):
            alone = subprocess.run([program, "dump", "--json", "--section", "producers", name], cwd=place, stdout=subprocess.PIPE, stderr=subprocess.DEVNULL)
            if found.pop(name, []) != alone.stdout.decode().splitlines():
                wrong.append(name)
    return common.tell(wrong + sorted(found), "%d files, %d differ" % (COUNT, len(wrong) + len(found)))
