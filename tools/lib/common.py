"""What the tools share: their arguments, the built programs, the models, and how differences are printed."""
import argparse
import datetime
import functools
import hashlib
import importlib.machinery
import importlib.util
import itertools
import json
import os
import platform
import re
import shutil
import subprocess
import sys

sys.dont_write_bytecode = True
TOP = os.path.dirname(os.path.dirname(os.path.dirname(os.path.abspath(__file__))))
LIB = os.path.join(TOP, "tools", "lib")
# Where modules are that only one part of the project needs. They can be imported after this one.
PLACES = ("bindings/js/tests", "bindings/packaging", "bindings/rust/tests/surface", "crates/wasm_c/examples", "page/site", "page/tests", "tools/benches")
sys.path[1:1] = [os.path.join(TOP, place) for place in PLACES]
MODEL = os.path.join(TOP, "tools", "model", "model.py")
MODEL_OF_ITEMS = os.path.join(TOP, "tools", "model", "model_items.py")
GOLDEN = os.path.join(TOP, "tools", "golden.jsonl")

# How many differences a tool prints.
SHOWN = 5
# The status of a tool that found a difference, that was called wrongly, that lacks its program, and that may skip nothing.
DIFFERS, WRONG_USE, NO_PROGRAM, SKIPPED = 1, 2, 3, 4


def version():
    """The version of this project, which is in one file."""
    return read("VERSION").strip()


def date_of_release():
    """The date of packages, in seconds: SOURCE_DATE_EPOCH, or that in the heading of this version in the changelog, or an early one before there is such a heading."""
    if "SOURCE_DATE_EPOCH" in os.environ:
        return int(os.environ["SOURCE_DATE_EPOCH"])
    found = re.search(r"^## \[?%s\]? - (\S+)" % re.escape(version()), read("CHANGELOG.md"), re.M)
    day = datetime.datetime.fromisoformat(found[1] if found else "2026-01-01")
    return int(day.replace(tzinfo=datetime.timezone.utc).timestamp())


def read(*parts):
    """The text of a file, by its path below the top."""
    with open(os.path.join(TOP, *parts), encoding="utf-8") as file:
        return file.read()


def read_bytes(path):
    with open(path, "rb") as file:
        return file.read()


def write(path, data):
    """Writes a text or bytes, and makes the folder. Returns the path."""
    os.makedirs(os.path.dirname(path) or ".", exist_ok=True)
    with open(path, "wb") as file:
        file.write(data.encode() if isinstance(data, str) else data)
    return path


def slug(heading):
    """The anchor of a heading."""
    text = re.sub(r"\[([^\]]*)\]\([^)]*\)", r"\1", heading).strip().lower()
    return re.sub(r"[^\w\- ]", "", text).replace(" ", "-")


class Failed(Exception):
    """A command failed, or something differs."""


def require(holds, what):
    """Raises Failed, with what is wrong, unless something holds."""
    if not holds:
        raise Failed(what)


def must(words, folder=None, stream=b"", env=None, **options):
    """What a command prints, its errors among it. Raises Failed if its status is not 0. A variable that is None is not set."""
    settings = {name: value for name, value in {**os.environ, **(env or {})}.items() if value is not None}
    done = subprocess.run(words, cwd=folder, input=stream, stdout=subprocess.PIPE, stderr=subprocess.STDOUT, env=settings, **options)
    if done.returncode:
        raise Failed("%s: status %d\n%s" % (" ".join(map(str, words)), done.returncode, done.stdout.decode(errors="replace")[-4000:]))
    return done.stdout.decode(errors="replace")


def end(main):
    """Runs the main part of a tool, and ends with its status: also where a command failed, or where nobody reads what it prints."""
    try:
        status = main()
        sys.stdout.flush()
    except Failed as failed:
        print("FAILED", failed)
        status = DIFFERS
    except BrokenPipeError:
        os.dup2(os.open(os.devnull, os.O_WRONLY), sys.stdout.fileno())
        status = DIFFERS
    sys.exit(status)


def stop(status, message):
    print("%s: %s" % (os.path.basename(sys.argv[0]), message), file=sys.stderr)
    sys.exit(status)


# ---- what a machine lacks


def skip(why):
    """Prints why something is skipped. `.ci/run` collects these lines in a file that it names; with `--all` the tool ends here."""
    print(why, flush=True)
    if "PULLEYNAVY_SKIPPED" in os.environ:
        with open(os.environ["PULLEYNAVY_SKIPPED"], "a", encoding="utf-8") as file:
            file.write(why + "\n")
    if "PULLEYNAVY_ALL" in os.environ:
        sys.exit(SKIPPED)


def found(name):
    """The path of a program. If it is missing, what needs it is skipped. `a|b` is one of two programs."""
    path = next((path for path in map(shutil.which, name.split("|")) if path), None)
    if not path:
        skip("missing: %s" % name.replace("|", " or "))
    return path


def all_found(names):
    """Whether all these programs are there. Each that is missing is reported."""
    return all([found(name) for name in names])


# ---- arguments


def parser(doc, **options):
    """A parser whose help is the tool's own text."""
    return argparse.ArgumentParser(description=doc.strip(), formatter_class=argparse.RawDescriptionHelpFormatter, allow_abbrev=False, **options)


def whole(word):
    """A number that isn't negative."""
    if not word.isdecimal():
        raise argparse.ArgumentTypeError("%r is no number" % word)
    return int(word)


def one_of(what, names):
    """The type of an argument that is one of these names."""
    def known(word):
        if word not in names:
            raise argparse.ArgumentTypeError("there is no %s %s; there are %s" % (what, word, ", ".join(names)))
        return word

    return known


def existing(path):
    """The whole path of a file or folder that is there."""
    if not os.path.exists(path):
        raise argparse.ArgumentTypeError("there is no %s" % path)
    return os.path.abspath(path)


def arguments(doc, numbers=(), files=False, more=(), **paths):
    """The arguments of a tool: first numbers, each with its name and what it is if left out, then files.

    `paths` has options for a file or folder, each with what it is, and `more` other options, as `add_argument` takes them.
    """
    usage = "".join(" [%s]" % name.upper() for name, _ in numbers) + (" [FILE..]" if files else "")
    line = parser(doc, usage="%(prog)s" + usage + " [OPTION..]")
    line.add_argument("files", nargs="*", metavar=usage.strip() or "nothing", help=argparse.SUPPRESS)
    for name, what in paths.items():
        line.add_argument("--" + name, metavar="FILE", type=existing, help=what)
    for flag, options in more:
        line.add_argument(flag, **options)
    given = line.parse_intermixed_args()
    for name, usual in numbers:
        setattr(given, name, int(given.files.pop(0)) if given.files and given.files[0].isdecimal() else usual)
    if given.files and not files:
        line.error("%r is no argument" % given.files[0])
    for path in given.files:
        if not os.path.isfile(path):
            line.error("there is no file %s" % path)
    return given


def out_or_check(doc):
    """The arguments of a tool that writes a folder, or with --check says what is wrong and writes nothing."""
    line = parser(doc, usage="%(prog)s OUT | --check")
    line.add_argument("out", nargs="?", metavar="OUT", help="the folder, which is made if it isn't there")
    line.add_argument("--check", action="store_true", help="write nothing; the status is 1 if there is a fault")
    given = line.parse_args()
    if bool(given.out) == given.check:
        line.error("it takes a folder or --check")
    return given


def generate(doc, make):
    """The main part of a tool that writes files. `make` returns their texts by their paths. With --check it says which differ. Returns its status."""
    line = parser(doc, usage="%(prog)s [--check]")
    line.add_argument("--check", action="store_true", help="write nothing; the status is 1 if a file differs")
    given, status = line.parse_args(), 0
    for path, text in make().items():
        is_current = os.path.exists(path) and read(path) == text
        if given.check and not is_current:
            print("%s is not what %s writes" % (os.path.relpath(path, TOP), sys.argv[0]))
            status = DIFFERS
        elif not is_current:
            write(path, text)
    return status


# ---- crates


def crates():
    """The libraries of each crate, as crates.txt has them and in its order."""
    found = {}
    for line in read("crates.txt").splitlines():
        name, colon, libraries = line.split("#")[0].partition(":")
        if colon:
            found[name.split()[0]] = libraries.split()
    return found


def crates_of(name):
    """The crates of this repository that a crate is made of, itself among them, lowest first."""
    libraries = crates()
    return [crate for crate in libraries if crate in libraries[name]] + [name]


def files_of(crate):
    """The files of a crate, without those that were made from them."""
    for folder, folders, names in os.walk(os.path.join(TOP, "crates", crate)):
        folders[:] = sorted(name for name in folders if name != "out")
        for name in sorted(names):
            yield os.path.join(folder, name)


def is_program(crate):
    """Whether a crate is a program."""
    return os.path.isfile(os.path.join(TOP, "crates", crate, "src", "main.rt"))


# ---- prebuilt artifacts

PREBUILT = os.path.join(TOP, "prebuilt")
# The crates and folders that the artifacts are made of.
MADE_OF = ("src", "specs", "proofs", "include")


def sources_of(crate):
    """The files of a crate that its proof and its code are made of."""
    for path in files_of(crate):
        if os.path.relpath(path, os.path.join(TOP, "crates", crate)).split(os.sep)[0] in MADE_OF:
            yield path


def sources():
    """The files that the prebuilt artifacts are made of, in order."""
    for crate in sorted({crate for name in ("wasm_c", "wasm_list", "pulleynavy") for crate in crates_of(name)}):
        yield from sources_of(crate)
    for folder in ("page", os.path.join("bindings", "js")):
        for name in sorted(os.listdir(os.path.join(TOP, folder))):
            if name.endswith((".js", ".html", ".css")) and not name.endswith(".wasm.js") or name == "pack":
                yield os.path.join(TOP, folder, name)
    yield os.path.join(TOP, "VERSION")
    yield os.path.join(TOP, "crates.txt")


def checksum_lines(paths, top=TOP):
    """The checksum and the name of each of these files below a folder, as sha256sum writes them."""
    for path in paths:
        yield "%s  %s\n" % (hashlib.sha256(read_bytes(path)).hexdigest(), os.path.relpath(path, top))


def checksum_of_sources():
    """A checksum of the names and bytes of all sources."""
    whole = hashlib.sha256()
    for line in checksum_lines(sources()):
        whole.update(line.encode())
    return whole.hexdigest()


def made_from():
    """What the prebuilt artifacts were made from, by name."""
    path = os.path.join(PREBUILT, "MADE-FROM")
    return dict(line.split(": ", 1) for line in read(path).splitlines()) if os.path.exists(path) else {}


def is_prebuilt():
    """Whether the prebuilt artifacts are those of the sources."""
    known = made_from().get("sources")
    return known is not None and known == checksum_of_sources()


def runs_prebuilt():
    """Whether this machine can run the prebuilt programs: x86-64 Linux with the GNU C library."""
    return platform.system() == "Linux" and platform.machine() == "x86_64" and platform.libc_ver()[0] == "glibc"


# ---- models and files


@functools.lru_cache(maxsize=None)
def load(path, *names):
    """A model, which is a file in Python, with these names in it. It is read once."""
    loader = importlib.machinery.SourceFileLoader("model_" + os.path.basename(path).partition(".")[0], path)
    model = importlib.util.module_from_spec(importlib.util.spec_from_loader(loader.name, loader))
    try:
        loader.exec_module(model)
    except Exception as error:
        stop(WRONG_USE, "%s is no model: %s: %s" % (path, type(error).__name__, error))
    missing = [name for name in names if not hasattr(model, name)]
    if missing:
        stop(WRONG_USE, "%s is no such model: it has no %s" % (path, ", ".join(missing)))
    return model


def modules_in(data):
    """The modules of a file: it is one, or an archive of them."""
    if data[:4] == b"\0asm":
        yield data
    elif data[:8] == b"!<arch>\n":
        place = 8
        while place + 60 <= len(data):
            size = int(data[place + 48 : place + 58])
            member = data[place + 60 : place + 60 + size]
            if member[:4] == b"\0asm":
                yield member
            place += 60 + size + size % 2


def modules_of(files):
    """The modules of all these files."""
    for path in files:
        found = list(modules_in(read_bytes(path)))
        if not found:
            stop(WRONG_USE, "%s is neither a module nor an archive of modules" % path)
        yield from found


def golden():
    """Each golden stream and its lines."""
    return [(bytes.fromhex(row["hex"]), row["lines"]) for row in map(json.loads, read(GOLDEN).splitlines())]


def leb(value):
    """An unsigned number in LEB128, in as few bytes as it takes."""
    out = bytearray()
    while value >= 128:
        out.append(value & 127 | 128)
        value >>= 7
    out.append(value)
    return bytes(out)


def number_at(data, place):
    """A u32 in LEB128, and the place after it; an IndexError where there is none."""
    value = shift = 0
    while True:
        byte = data[place]
        value |= (byte & 127) << shift
        place, shift = place + 1, shift + 7
        if value >= 2**32 or shift == 35 and byte >= 128:
            raise IndexError
        if byte < 128:
            return value, place


# ---- differences


def first_difference(given, expected):
    """The first line that isn't what the model says, as a text, if there is one."""
    for number, (said, wanted) in enumerate(itertools.zip_longest(given, expected, fillvalue="nothing"), 1):
        if said != wanted:
            return "line %d\n  program %s\n  model   %s" % (number, said[:300], wanted[:300])
    return None


def tell(found, summary, shown=SHOWN):
    """Prints some of the differences, or all of them, and the summary, and gives the status of the tool."""
    for text in found[:shown]:
        print("DIFFERS", text)
    print(summary)
    return DIFFERS if found else 0
