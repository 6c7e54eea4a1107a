"""Tables of rows, which the program test_rows reads, and writes with the result of each row under it.

A row is a line: the name of a reader, features, the offset of the first byte, and bytes in hexadecimal. Its result is the lines after
it that begin with two blanks. Empty lines and lines that begin with `#` are comments.
"""
import os
import re
import subprocess

import common
import pieces

TABLE = os.path.join(common.TOP, "crates", "test_rows", "stdout")
INPUT = os.path.join(common.TOP, "crates", "test_rows", "stdin")

# The bits of the features.
FEATURES = {"none": 0, "memory64": 1, "compact": 2, "all": 3}
NAMES = {bits: name for name, bits in FEATURES.items()}


def row_line(reader, data, offset=0, features=3):
    """The line of a row."""
    return "%s %s %d  %s\n" % (reader, NAMES[features], offset, data.hex())


def parsed(line):
    """The reader, the bytes, the offset and the features of a row; a ValueError or a KeyError where the line is not one."""
    reader, features, offset, *words = line.split()
    data = b""
    for word in words:
        pairs, _, times = word.partition("*")
        data += bytes.fromhex(pairs) * int(times or 1)
    return reader, data, int(offset), sum({FEATURES[name] for name in features.split("+")})


def is_result(line):
    return line.startswith("  ")


def results(lines):
    """Each row of a table: the number of its line, that line, and the lines of its result."""
    found = []
    for number, line in enumerate(lines, 1):
        if is_result(line):
            found[-1][2].append(line)
        elif re.match(r"[^#\s]", line):
            found.append((number, line, []))
    return found


def model_lines(model, case):
    """The lines that a model of items gives of a row, or None of a reader that it does not have."""
    reader, data, offset, features = case
    if reader in ("events", "steps"):
        return pieces.model_lines(model.model, reader, data, offset)
    if reader == "stream":
        lines = model.model.reading(data, offset, True, True)
    elif reader == "prefix":
        lines = model.model.prefix(data, offset, True)
    elif reader in model.CALLS or reader in model.LISTS or reader == "subsections":
        lines = model.call_lines(reader, data, offset, features)
    elif reader in model.ITEMS or reader in model.SECTIONS:
        lines = model.outcome(*case).under
    else:
        return None
    return ["  " + line for line in lines]


def run(words, rows):
    """The lines that the program writes of each of these rows, which are lines."""
    done = subprocess.run(words, input="".join(rows).encode(), stdout=subprocess.PIPE, timeout=600, check=True)
    found = [lines for _, _, lines in results(done.stdout.decode("ascii").split("\n"))]
    assert len(found) == len(rows), (len(found), len(rows))
    return found
