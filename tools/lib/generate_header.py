"""Writes include/pulleynavy.h of wasm_c, the declarations for C and C++, and those of the bindings, from the sources: structs from those of
wasm_c_items, calls from those of wasm_c.

    tools/generate header            writes the files
    tools/generate header --check    says whether the files are what it would write, and writes nothing

Each struct and each call has its doc comment. A slice is a pointer and how many there are of what it points to. The layout is stated by
assertions that a compiler checks. What the C side owes is at the head of the file.
"""
import collections
import functools
import os
import re
import textwrap

import common

CRATE, STRUCTS, PARSER = (os.path.join(common.TOP, "crates", name) for name in ("wasm_c", "wasm_c_items", "wasm_frames"))
TARGET = os.path.join(CRATE, "include", "pulleynavy.h")
TYPES = {"u8": ("uint8_t", 1), "u32": ("uint32_t", 4), "u64": ("uint64_t", 8), "i64": ("int64_t", 8), "usize": ("size_t", 8), "bool": ("bool", 1)}
# The order of the sources, which is that of the declarations.
SOURCES = ["version", "faults", "messages", "events", "stored", "parsing", "event_batches", "feeding", "cursors", "spans", "numbers", "values", "types", "kinds"]
SOURCES += ["imports", "flat_imports", "exports", "instructions", "segments", "names", "producers", "hints", "dylink", "linking", "symbols", "target_features", "relocations", "coredumps", "customs", "ends", "strip", "edits"]

# The header without what is written from the sources. Compilers of older standards, of C or C++ before 2011, skip its assertions.
TEMPLATE = common.read("tools", "lib", "templates", "header.h")
# The enumerations.
TABLE = common.read("tools", "lib", "templates", "enumerations.txt")


@functools.lru_cache(maxsize=None)
def source(name):
    """The structs and the calls of a module. The struct of a parser is the one that wasm_frames parses with."""
    paths = (os.path.join(crate, "src", name + ".rt") for crate in ((PARSER,) if name == "stored" else (STRUCTS, CRATE)))
    return "".join(common.read(path) for path in paths if os.path.exists(path))


def tag(name):
    """The name of a struct in C."""
    bare = re.sub(r"^(Plain|Stored)", "", name)
    return "pulleynavy_" + re.sub(r"(?<!^)(?=[A-Z])", "_", bare).lower()


def wrapped(text, indent):
    return textwrap.wrap(text, 131 - len(indent), break_long_words=False, break_on_hyphens=False)


def boxed(lines, indent=""):
    if len(lines) == 1:
        return "%s/** %s */\n" % (indent, lines[0])
    return "%s/**\n" % indent + "".join((indent + " * " + line).rstrip() + "\n" for line in lines) + indent + " */\n"


def paragraphs(lines):
    """The parts of a doc comment: whether a part is code, and its lines. An item of a list is a part, and so is what is under a heading."""
    texts = [line.strip()[3:] for line in lines if line.strip().startswith("///")]
    parts, is_code, heading, is_new = [], False, "", True
    for text in texts:
        if text.strip().startswith("```"):
            is_code, is_new = not is_code, True
        elif text.startswith(" # ") and not is_code:
            heading, is_new = text[3:].strip() + ": ", True
        elif not text.strip() and not is_code:
            is_new = True
        else:
            if is_new or text.startswith(" * ") and not is_code:
                parts.append((is_code, []))
            parts[-1][1].append(text[1:] if is_code else heading + text.strip())
            heading, is_new = "", False
    return parts


def doc(lines, indent=""):
    """A doc comment as Doxygen reads it: its paragraphs, lists and examples, and a heading for errors."""
    out = []
    for is_code, part in paragraphs(lines):
        first, *more = part if is_code else wrapped(" ".join(part), indent)
        is_listed = not is_code and first.startswith("* ")
        out += [] if not out or is_listed else [""]
        if is_code:
            out += ["@code{.c}", first, *more, "@endcode"]
        elif is_listed:
            out += ["- " + first[2:], *("  " + line for line in more)]
        elif first.startswith("Errors: "):
            out += ["@par Errors", first[len("Errors: ") :], *more]
        else:
            out += [first, *more]
    return boxed(out, indent)


Struct = collections.namedtuple("Struct", "name comment fields")


def structs_of(text):
    for comment, name, body in re.findall(r"((?:^///.*\n)+)#\[repr\(C\)\]\n#\[derive.*\n(?:#.*\n)*pub struct (\w+) \{\n([^}]*)^\}", text, re.M):
        fields = re.findall(r"((?:^    ///.*\n)+)    pub (\w+): (\w+),", body, re.M)
        yield Struct(name, comment.split("\n"), [(field, kind, lines.split("\n")) for lines, field, kind in fields])


def calls_of(text):
    pattern = r'((?:^///.*\n)+)#\[unsafe\(no_mangle\)\]\npub extern "C" fn (\w+)\(([^)]*)\)(?: -> (\w+))?'
    for comment, name, arguments, result in re.findall(pattern, text, re.M):
        words = [word.strip() for word in arguments.replace("\n", " ").split(",") if word.strip()]
        yield name, comment.split("\n"), [tuple(part.strip() for part in word.split(":", 1)) for word in words], result


def all_structs():
    return [struct for name in SOURCES for struct in structs_of(source(name))]


def all_calls():
    return [call for name in SOURCES for call in calls_of(source(name))]


# ---- enumerations


def upper(name):
    """The name of an enumerator."""
    return re.sub(r"(?<!^)(?<![0-9])(?=[A-Z]|[0-9][A-Z])", "_", name).upper()


def prefix_of(tag):
    """What the enumerators of an enumeration begin with."""
    return re.sub(r"_(?:kind|id)$|code$|(?<=flag)s$", "", tag).upper()


def numbered(pattern, text, what):
    """The enumerators and the numbers that a pattern finds in a text."""
    rows = re.findall(pattern, text, re.M)
    if not rows:
        common.stop(common.DIFFERS, "the sources have no numbers of %s" % what)
    return [(name if name.isupper() else upper(name), int(number, 0)) for name, number in rows]


def faults():
    """The numbers of faults, as the code has them."""
    return numbered(r"Fault::(\w+)(?:\(\w+\))? => (\d+)", source("faults"), "faults")


def detail(of):
    """The numbers that the bits above the kind of a fault may be, by an enum of the sources."""
    return numbered(r"\b%s::(\w+) => (\d+)," % of, source("faults"), of)


def matched(name):
    """The numbers that the sources turn the variants of an enum into, or turn into them, by the names of enumerators."""
    rows = [row for one in SOURCES for row in re.findall(r"\b%s::(\w+)(?:\(\w+\)| \{ \.\. \})? => \(?(\d+)[,)]" % name, source(one))]
    rows += [(variant, number) for one in SOURCES for number, variant in re.findall(r"\b(\d+) => Some\(%s::(\w+)\(" % name, source(one))]
    return sorted({(upper(variant), int(number)) for variant, number in rows}, key=lambda row: row[1])


def opcodes(words):
    """The opcodes of constant expressions by the variants of `ConstOperator`, compared with those that the sources name in one line with their variant."""
    text, known = source("instructions"), {name: int(code, 16) for name, _, code in (word.partition("=") for word in words)}
    found = dict(re.findall(r"ConstOperator::(\w+)(?: \{ \w+ \})? => \w+\(consumed, (0x\w+)", text))
    missing = set(re.findall(r"ConstOperator::(\w+)", text)) ^ set(known)
    if missing or any(int(code, 16) != known[name] for name, code in found.items()):
        common.stop(common.DIFFERS, "the opcodes are not those of crates/wasm_c_items/src/instructions.rt")
    return [(re.sub(r"(?<=[0-9])(?=[A-Z])", "_", upper(name)), code) for name, code in known.items()]


def custom_source(name):
    return common.read("crates", "wasm_custom", "src", name + ".rt")


def subsection_ids(file, of):
    """The ids of subsections, by the variants that they are read as. Rust's `Types` and `module_name` are the exceptions."""
    text = custom_source(file)
    rows = re.findall(r"^ +(\d+) => .*\b%s::(\w+)\b" % of, text, re.M) + re.findall(r"^ +(\d+) => (module)_name\(", text, re.M)
    if len(rows) < 5:
        common.stop(common.DIFFERS, "no ids of %s in crates/wasm_custom/src/%s.rt" % (of, file))
    return sorted(((upper(name.replace("Types", "Type")), int(number)) for number, name in rows), key=lambda row: row[1])


def flags(of):
    """The bits of flags, by the type of the sources that has them."""
    return numbered(r"pub const (\w+): %s = %s\(([0-9x_a-f]+)\);" % (of, of), custom_source("flags"), of)


def coded(names, of):
    """The numbers of a coded field by their names, from 0 on, among them those of the `match` that an enum of the sources has. Without names, the latter."""
    found = [] if of == "-" else matched(of)
    rows = [(name, number) for number, name in enumerate(names)] or found
    if any(row not in rows for row in found) or of != "-" and not found:
        common.stop(common.DIFFERS, "the numbers of %s are %s, and not those of the header" % (of, found))
    return rows


# What finds the numbers of an enumeration, by the names in its row and the words after how it is found.
FINDS = {
    "faults": lambda names: faults(),
    "detail": lambda names, of: detail(of),
    "coded": coded,
    "subsections": lambda names, file, of: subsection_ids(file, of),
    "opcodes": opcodes,
    "flags": lambda names, of: flags(of),
}


@functools.lru_cache(maxsize=None)
def enumerations():
    """The comment, the name and the numbers of each enumeration."""
    found = []
    for tag, how, lines in re.findall(r"^(\w+): (.*)\n((?: .*\n)+)", TABLE, re.M):
        comment, names = (re.findall(start + "(.*)", lines) for start in ("    ", "  = "))
        find, *words = how.split()
        found.append((" ".join(comment), tag, FINDS[find](" ".join(names).split(), *words)))
    return found


# ---- the header


def type_of(kind):
    return TYPES[kind][0] if kind in TYPES else tag(kind)


@functools.lru_cache(maxsize=None)
def layouts():
    """The size of each struct, its alignment, and the offsets of its fields."""
    known = {name: (size, size, {}) for name, (_, size) in TYPES.items()}
    for struct in all_structs():
        at, align, offsets = 0, 1, {}
        for field, kind, _ in struct.fields:
            size, most, _ = known[kind]
            offsets[field] = -(-at // most) * most
            at, align = offsets[field] + size, max(align, most)
        known[struct.name] = -(-at // align) * align, align, offsets
    return known


def enumeration(comment, tag, rows):
    values = ",\n".join("    %s_%s = %d" % (prefix_of(tag), name, number) for name, number in rows)
    return boxed(wrapped(comment, "")) + "typedef enum %s {\n%s\n} %s;\n" % (tag, values, tag)


def declared(struct):
    name = tag(struct.name)
    lines = doc(struct.comment) + "typedef struct %s {\n" % name
    for field, kind, comment in struct.fields:
        lines += doc(comment, "    ") + "    %s %s;\n" % (type_of(kind), field)
    return lines + "} %s;\n" % name


def crossing(kind):
    """What a reference points to, whether it may change, and what a second argument with its length is called; None of a value."""
    found = re.fullmatch(r"&(mut )?(?:\[(\w+)\]|(\w+))", kind)
    return found and (found[2] or found[3], bool(found[1]), found[2] and ("size" if found[2] == "u8" else "count"))


def argument(name, kind):
    to, may_change, length = crossing(kind) or (None, None, None)
    if not to:
        return "%s %s" % (type_of(kind), name)
    return "%s%s *%s%s" % ("" if may_change else "const ", type_of(to), name, ", size_t %s_%s" % (name, length) if length else "")


def declared_call(name, result, arguments):
    arguments = arguments or ["void"]
    line = "%s %s(%s);\n" % (result, name, ", ".join(arguments))
    if len(line) <= 120:
        return line
    whole = wrapped(", ".join(one.replace(" ", "~") for one in arguments), "    ")
    return "%s %s(\n    %s);\n" % (result, name, "\n    ".join(whole).replace("~", " "))


def header():
    parts = common.version().split(".")
    if "result ≡ %d " % sum(int(part) << shift for part, shift in zip(parts, (16, 8, 0))) not in source("version"):
        common.stop(common.DIFFERS, "crates/wasm_c/src/version.rt is not of version %s" % common.version())
    declarations = [enumeration(*one) for one in enumerations()]
    for name in SOURCES:
        declarations += [declared(struct) for struct in structs_of(source(name))]
        for call, comment, arguments, result in calls_of(source(name)):
            declarations.append(doc(comment) + declared_call(call, type_of(result) if result else "void", [argument(*one) for one in arguments]))
    assertions = []
    for struct in all_structs():
        name, last, (size, _, offsets) = tag(struct.name), struct.fields[-1][0], layouts()[struct.name]
        assertions.append('PULLEYNAVY_ASSERT(sizeof(%s) == %d && offsetof(%s, %s) == %d, "layout");\n' % (name, size, name, last, offsets[last]))
    values = {"DECLARATIONS": "".join("\n" + one for one in declarations), "LAYOUTS": "".join(assertions)}
    values.update({"VERSION": common.version(), **dict(zip(("MAJOR", "MINOR", "PATCH"), parts))})
    return re.sub("@(%s)@" % "|".join(values), lambda found: values[found[1]], TEMPLATE)


# ---- the bindings


def short_enumerations():
    """The enumerations with shorter comments, and that of the kinds of events, which the template has."""
    events = [(name, int(number)) for name, number in re.findall(r"PULLEYNAVY_EVENT_(\w+) = (\d+)", TEMPLATE)]
    yield "The kind of an event.", "pulleynavy_event_kind", events
    yield "The kind of a fault.", "pulleynavy_fault_kind", faults()
    for comment, tag, rows in enumerations()[1:]:
        yield comment.split(": ")[0].rstrip(".") + ".", tag, rows


def pascal(tag):
    return "".join(word.capitalize() for word in tag.split("_")[1:])


def rust_name(name):
    return re.sub(r"^(Plain|Stored)", "", name)


def objects(form, row, kind_of):
    """The structs in a language: the form of a struct, that of a field, and what writes a type."""
    rows = {struct.name: "".join(row % (field, kind_of(kind)) for field, kind, _ in struct.fields) for struct in all_structs()}
    return "".join(form % (rust_name(name), text) for name, text in rows.items())


def codes():
    """The numbers of faults for Rust, and those of what faults name, a module for each."""
    text = "//! The numbers of faults in the C library, written by `tools/generate header` from its sources.\n"
    for _, tag, rows in short_enumerations():
        name = tag[len("pulleynavy_") :]
        if name in ("fault_kind", "number_kind", "lead", "core_start"):
            numbers = "".join("    pub(crate) const %s: u32 = %d;\n" % row for row in rows)
            text += "\npub(crate) mod %s {\n%s}\n" % (name, numbers)
    return text


CTYPES = {"u8": "c_uint8", "u32": "c_uint32", "u64": "c_uint64", "i64": "c_int64", "usize": "c_size_t", "bool": "c_bool"}
PYTHON_HEAD = '''\
"""The declarations of the library, written by tools/generate header from its sources."""
# SPDX-License-Identifier: Apache-2.0 OR MIT
from __future__ import annotations

import ctypes
import enum
from typing import Any

'''


def python_type(kind):
    return "ctypes." + CTYPES[kind] if kind in TYPES else rust_name(kind)


def python():
    """The declarations for Python's ctypes."""
    text = PYTHON_HEAD + 'VERSION = "%s"\n' % common.version()
    for comment, tag, rows in short_enumerations():
        text += '\n\nclass %s(enum.%s):\n    """%s"""\n\n' % (pascal(tag), "IntFlag" if tag.endswith("_flags") else "IntEnum", comment)
        text += "".join("    %s = %d\n" % row for row in rows)
    text += objects("\n\nclass %s(ctypes.Structure):\n    _fields_ = [\n%s    ]\n", '        ("%s", %s),\n', python_type)
    text += "\n\n# What each call returns and takes.\nCALLS: dict[str, tuple[Any, list[Any]]] = {\n"
    for call, _, arguments, result in all_calls():
        words = []
        for _, kind in arguments:
            to, _, length = crossing(kind) or (kind, None, None)
            pointer = "ctypes.c_void_p" if to == "u8" else "ctypes.POINTER(%s)" % python_type(to)
            words += [python_type(kind) if to == kind else pointer] + ["ctypes.c_size_t"] * bool(length)
        text += '    "%s": (%s, [%s]),\n' % (call, python_type(result) if result else "None", ", ".join(words))
    return text + "}\n\nFAULTS = {\n" + "".join('    %d: "%s",\n' % (number, name) for name, number in faults()) + "}\n"


JAVASCRIPT_HEAD = """\
// SPDX-License-Identifier: Apache-2.0 OR MIT
// The declarations of the library, written by tools/generate header from its sources.
"""
JAVASCRIPT_LAYOUTS = """
// The layout of each struct: its size as SIZE, and the offset of each field, in bytes. Pointers and sizes take 8 bytes, also in the
// module whose memory has 32-bit addresses.
"""


def in_javascript(comment, form, row):
    """The enumerations and the layouts for JavaScript, or as its types: the forms of a comment, of an object and of its rows."""
    numbers = ["\n" + comment % said + form % (pascal(tag), "".join(row % one for one in rows)) for said, tag, rows in short_enumerations()]
    sizes = []
    for struct in all_structs():
        size, _, offsets = layouts()[struct.name]
        rows = [("SIZE", size), *((re.sub(r"_(\w)", lambda found: found[1].upper(), field), at) for field, at in offsets.items())]
        sizes.append(form % (rust_name(struct.name) + "Layout", "".join(row % one for one in rows)))
    return "".join(numbers), sizes


def javascript():
    """The declarations for JavaScript: enumerations, layouts, and the names of the calls."""
    found, sizes = in_javascript("// %s\n", "export const %s = Object.freeze({\n%s});\n", "    %s: %d,\n")
    calls = "".join('    "%s",\n' % call for call, _, _, _ in all_calls())
    text = JAVASCRIPT_HEAD + '\nexport const VERSION = "%s";\n' % common.version() + found + JAVASCRIPT_LAYOUTS + "".join(sizes)
    return text + "\n// The calls that the module exports.\nexport const CALLS = Object.freeze([\n%s]);\n" % calls


def typescript():
    """The types of `javascript`."""
    found, sizes = in_javascript("/** %s */\n", "export declare const %s: {\n%s};\n", "    readonly %s: %d;\n")
    text = JAVASCRIPT_HEAD + "\nexport declare const VERSION: string;\n" + found + "".join("\n" + one for one in sizes)
    return text + "\nexport declare const CALLS: readonly string[];\n"


# ---- what is written


BINDINGS = os.path.join(common.TOP, "bindings")
# Each file that is written, by what writes it.
TARGETS = {
    TARGET: header,
    os.path.join(BINDINGS, "rust", "src", "codes.rs"): codes,
    os.path.join(BINDINGS, "python", "pulleynavy", "declared.py"): python,
    os.path.join(BINDINGS, "js", "declared.js"): javascript,
    os.path.join(BINDINGS, "js", "declared.d.ts"): typescript,
}


def missing_targets():
    """The systems with processors of docs/PLATFORMS.md that the header does not name as targets."""
    sentence = re.search(r" \* Targets: (.*?)\. ", TEMPLATE, re.S)[1].replace("\n * ", " ")
    # A system comes before its processors.
    parts = {part.split()[0]: part.split() for part in re.split(r", (?=\w+ on )", sentence)}
    for system, processor in re.findall(r"^\| (\w+), (\S+) \|", common.read("docs", "PLATFORMS.md"), re.M):
        if processor not in " ".join(parts.get(system, [])).replace(",", "").split():
            yield "%s on %s" % (system, processor)


def made():
    lacking = list(missing_targets())
    if lacking:
        common.stop(common.DIFFERS, "the header does not name %s as a target" % ", ".join(lacking))
    page = common.read("docs", "C.md")
    for name in [path[:-3] for path in sorted(os.listdir(os.path.join(CRATE, "src"))) if path.endswith(".rt")]:
        if name not in SOURCES and "no_mangle" in source(name):
            common.stop(common.DIFFERS, "crates/wasm_c/src/%s.rt is not in SOURCES" % name)
    for call, _, _, _ in all_calls():
        word = call.replace("pulleynavy_", "")
        # A call that reads one item may be named by the one that stores many.
        if not re.search(r"`(pulleynavy_)?%s`" % word, page) and "`next_" + word.replace("read_", "")[:-1] not in page:
            common.stop(common.DIFFERS, "docs/C.md does not name %s" % call)
    return {path: write() for path, write in TARGETS.items()}


def main():
    return common.generate(__doc__, made)
