#!/usr/bin/env python3
"""Tabulates the WebAssembly modules of a registry: sections, items and producers, a row for each file, on one machine or many.

    scan.py OUT.csv FOLDER..                     all *.wasm files under these folders
    scan.py OUT.parquet --list FILES             the files that FILES names, one per line (Parquet needs pandas with pyarrow)
    scan.py OUT.csv FOLDER --workers 8           with eight processes on this machine
    scan.py OUT.csv FOLDER --scheduler HOST:8786 on the machines of a Dask cluster, which see the same files

A malformed module is a row with its fault, and a file that can't be read is a row with the reason. It needs Dask (Debian:
python3-distributed) and pulleynavy, on each machine.
"""
import argparse
import csv
import os
import sys

import pulleynavy
from dask.distributed import Client, as_completed

COLUMNS = ["file", "bytes", "fault", "offset", "types", "imports", "functions", "exports", "data_segments", "code_bytes", "data_bytes"]
COLUMNS += ["custom_bytes", "names", "language", "processed_by", "sdk"]
SECTIONS = {1: "types", 2: "imports", 3: "functions", 7: "exports", 11: "data_segments"}
# The files that a worker reads in one task.
BATCH = 200


def producers(module):
    """The values of the section `producers`, by the name of the field."""
    return {field: "; ".join(f"{one.name} {one.version}".strip() for one in values) for field, values in module.producers.items()}


def row_of(path):
    """The row of a file: a dictionary of columns."""
    row = {"file": path}
    try:
        with open(path, "rb") as file:
            stream = file.read()
        row["bytes"] = len(stream)
        module = pulleynavy.Module(stream)
        for section in module.sections:
            if section.id in SECTIONS:
                row[SECTIONS[section.id]] = section.count
            column = {0: "custom_bytes", 10: "code_bytes", 11: "data_bytes"}.get(section.id)
            if column:
                row[column] = row.get(column, 0) + section.size
        row["names"] = len(module.names.functions)
        said = producers(module)
        row.update(language=said.get("language"), processed_by=said.get("processed-by"), sdk=said.get("sdk"))
    except pulleynavy.ParseError as fault:
        row.update(fault=fault.text, offset=fault.offset)
    except (OSError, UnicodeDecodeError) as error:
        row["fault"] = str(error)
    return row


def rows_of(paths):
    return [row_of(path) for path in paths]


def files(folders, lists):
    """The paths of all modules, in order."""
    for name in lists:
        with open(name, encoding="utf-8") as file:
            yield from (line.rstrip("\n") for line in file if line.strip())
    for folder in folders:
        for place, names, found in os.walk(folder):
            names.sort()
            yield from (os.path.join(place, name) for name in sorted(found) if name.endswith(".wasm"))


def progress(done, of):
    if sys.stderr.isatty() or done == of:
        bar = "#" * (40 * done // max(1, of))
        end = "\n" if done == of else ""
        print("\r[%-40s] %d of %d files" % (bar, done, of), end=end, file=sys.stderr, flush=True)


def scan(client, paths):
    """The rows of all files, in order."""
    batches = [paths[at : at + BATCH] for at in range(0, len(paths), BATCH)]
    rows, done = {}, 0
    futures = {client.submit(rows_of, batch, pure=False): number for number, batch in enumerate(batches)}
    for future, result in as_completed(futures, with_results=True):
        rows[futures[future]] = result
        done += len(result)
        progress(done, len(paths))
    return [row for number in range(len(batches)) for row in rows[number]]


def parquet():
    """The module that writes Parquet, or None if it or its engine is missing."""
    try:
        import pandas
        import pyarrow  # noqa: F401
    except ImportError:
        return None
    return pandas


def write(path, rows):
    if path.endswith(".parquet"):
        parquet().DataFrame(rows, columns=COLUMNS).to_parquet(path, index=False)
        return
    with open(path, "w", newline="", encoding="utf-8") as file:
        table = csv.DictWriter(file, COLUMNS)
        table.writeheader()
        table.writerows(rows)


def main():
    line = argparse.ArgumentParser(description=__doc__.strip(), formatter_class=argparse.RawDescriptionHelpFormatter)
    line.add_argument("out", metavar="OUT", help="a file .csv or .parquet")
    line.add_argument("folders", metavar="FOLDER", nargs="*")
    line.add_argument("--list", metavar="FILES", action="append", default=[], help="a file with a path on each line")
    line.add_argument("--workers", metavar="N", type=int, default=os.cpu_count(), help="the processes on this machine")
    line.add_argument("--scheduler", metavar="ADDRESS", help="a Dask scheduler, in place of processes here")
    given = line.parse_args()
    if given.out.endswith(".parquet") and not parquet():
        line.error("Parquet needs pandas with pyarrow; write a .csv instead")
    paths = list(files(given.folders, given.list))
    if not paths:
        line.error("there are no modules")
    here = {"n_workers": given.workers, "threads_per_worker": 1, "dashboard_address": None}
    with Client(given.scheduler) if given.scheduler else Client(**here) as client:
        rows = scan(client, paths)
    write(given.out, rows)
    faults = sum("fault" in row for row in rows)
    print("%d files, %d with a fault: %s" % (len(rows), faults, given.out))


if __name__ == "__main__":
    main()
