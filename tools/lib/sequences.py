"""Writes the tables of tools/lib/sequences.c: each call of the header that reads an item or walks a list, and the fields of what it stores."""
import os
import re

import common
import generate_header as header

SOURCE = os.path.join(common.LIB, "sequences.c")
READS = ["const uint8_t *bytes", "size_t bytes_size", "uint64_t offset", "uint32_t features"]
WALKS = ["const uint8_t *bytes", "size_t bytes_size"]
# The calls of both kinds with an argument more, and what is passed for it.
MORE = {"pulleynavy_read_core_module": ("", ", offset / 2"), "pulleynavy_read_bundled_import": ("&bundle, ", "")}
READER = common.read("tools", "lib", "templates", "reader.c")
WALKER = common.read("tools", "lib", "templates", "walker.c")


def calls():
    """The result, the name and the arguments of each call of the header."""
    for of in header.SOURCES:
        for name, _, arguments, result in header.calls_of(header.source(of)):
            yield header.type_of(result) if result else "void", name, [part for one in arguments for part in header.argument(*one).split(", ")]


def structs():
    """The types and the names of the fields of each struct."""
    found = (one for of in header.SOURCES for one in header.structs_of(header.source(of)))
    return {header.tag(one.name): [(header.type_of(kind), field) for field, kind, _ in one.fields] for one in found}


def leaves(known, of, before=""):
    """The paths of the fields of a struct that are numbers."""
    for kind, name in known[of]:
        if kind in known:
            yield from leaves(known, kind, before + name + ".")
        else:
            yield before + name


def kind_of(result, arguments):
    """The table of a call and the type that it returns or stores; none of a call that the program makes by its name."""
    stored = re.match(r"(pulleynavy_\w+) \*out$", arguments[-2]) if len(arguments) > 2 else None
    if [one for one in arguments if one in READS] == READS:
        return "READERS", result
    if stored and arguments[1:3] == WALKS and arguments[0].split()[0] in ("pulleynavy_items", "pulleynavy_imports"):
        return "WALKERS", stored[1]
    return None, None


def uncalled():
    """The calls of the header that the program does not make: those of neither table have to be in it by their names."""
    program = common.read(SOURCE)
    for result, name, arguments in calls():
        if not kind_of(result, arguments)[0] and not re.search(r"\bCALL0?\(%s\b" % name, program):
            yield name


def tables():
    """The text of the tables."""
    known, out, rows, used = structs(), [], {"READERS": [], "WALKERS": []}, set()
    for result, name, arguments in calls():
        kind, stored = kind_of(result, arguments)
        if kind:
            before, after = MORE.get(name, ("", ""))
            names = {"name": name[len("pulleynavy_") :], "type": stored, "before": before, "after": after}
            out.append((READER if kind == "READERS" else WALKER) % names)
            rows[kind].append('    {"%(name)s", sizeof(%(type)s), fields_of_%(type)s, %(name)s, 0},\n' % names)
            used.add(stored)
    for of in sorted(used):
        fields = "".join("    {offsetof(%s, %s), sizeof ((%s *)0)->%s},\n" % (of, path, of, path) for path in leaves(known, of))
        out.insert(0, "static const struct field fields_of_%s[] = {\n%s    {0, 0},\n};\n" % (of, fields))
    out.append("static struct reader READERS[] = {\n%s};\n" % "".join(rows["READERS"]))
    out.append("static struct walker WALKERS[] = {\n%s};\n" % "".join(rows["WALKERS"]))
    return "/* Written by tools/lib/sequences.py. */\n" + "\n".join(out)


def with_sizes(path, streams):
    """Writes streams into a file, each after its size, as the program reads them. Returns the path."""
    return common.write(path, b"".join(len(stream).to_bytes(4, "little") + stream for stream in streams))


def written(folder):
    """Writes the tables into a folder, for `tables.h` of the program."""
    path = os.path.join(folder, "tables.h")
    return common.write(path, tables())
