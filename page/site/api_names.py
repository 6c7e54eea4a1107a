"""What a name in a contract or a signature stands for: definitions of specs/, and items of the libraries."""
import collections
import functools
import glob
import os
import re

import common
import documents

# A definition: where it stands, the comment over it, and its text. `parts` are its constructors.
Definition = collections.namedtuple("Definition", "crate module name comment text parts")

# What a name stands for: ("definition", crate, module, name), ("item", crate, name) with ::VARIANT after it, or ("std", path).
Target = collections.namedtuple("Target", "kind crate path")

USE = re.compile(r"^( *)(?:ghost )?use Rattle\.(\w+)\.specs\.([^\s{};]+?)(?:\.\{([^}]*)\}| as (\w+))?;?$", re.M)
HEAD = re.compile(r"(?:(?:abbrev|unfoldable)(?: pub)?|pub(?: record| data)?) ([^\s:]+)")
CRATES = frozenset(common.crates())
# Words of a definition or a clause. A name is one word with its qualifiers; an operator is one too.
WORD = re.compile(r'"(?:[^"\\]|\\.)*"|--[^\n]*|[^\W\d][\w-]*(?:\.\w+)*|\.?\d\w*|\.[^\W\d]\w*|[^\s\w(){}\[\],;"⟦⟧]+|.', re.S)


def row_as_comment(row):
    """A comment that is a row of DEFINITIONS, in words."""
    words, _, source = documents.parts_of_row(re.sub(r"\n--\s+", " ", row[1]))
    return "-- %s%s.%s" % (words[0].upper(), words[1:], " (%s.)" % source if source else "")


def comment_of(lines):
    text = re.sub(r"^-- \| (.*(?:\n--   .*)*)", row_as_comment, "\n".join(line for line in lines if line.startswith("--")), flags=re.M)
    return tuple(line[2:].strip() for line in text.split("\n") if line)


def definition_in(crate, module, block):
    """The definition that a block of lines without a blank one has, if it has one."""
    code = [line for line in block if not line.startswith("--")]
    head = next((found for found in map(HEAD.match, code) if found), None)
    if not head or code[0].startswith(("use ", "pub mod ")):
        return None
    constructors = (re.match(r"  ([^\s(:-]+(?: [^\s(:]+)*) :", line) for line in code[1:] if " data " in head[0])
    parts = [name for found in constructors if found for name in found[1].split()]
    return Definition(crate, module, head[1], comment_of(block), "\n".join(code), tuple(parts))


def blocks_of(text):
    """The blocks of a file without blank lines, each as its lines. Those of a module without a name are as if they stood outside."""
    for block in re.split(r"\n\n+", text.rstrip("\n")):
        lines = re.sub(r"^module (?:.*\n)*?.* where\n", "", block).split("\n")
        yield [line[2:] for line in lines] if lines[0].startswith("  ") else lines


class Specs:
    """A file of definitions: its comment, what it defines, and what its names stand for."""

    def __init__(self, crate, module, text):
        blocks = list(blocks_of(text))
        self.comment = comment_of(blocks[0]) if any(line.startswith("use ") for line in blocks[0]) else ()
        self.definitions = list(filter(None, (definition_in(crate, module, block) for block in blocks)))
        names, self.aliases = uses_of(text, 0)
        own = (name for one in self.definitions for name in (one.name, *one.parts))
        self.names = {**names, **{name: Target("definition", crate, (module, name)) for name in own}}


@functools.lru_cache(maxsize=None)
def all_specs(crate):
    """The files of definitions of a crate, by their names."""
    paths = glob.glob(os.path.join(common.TOP, "crates", crate, "specs", "*.antt"))
    names = sorted(os.path.basename(path)[: -len(".antt")] for path in paths)
    return {name: Specs(crate, name, common.read("crates", crate, "specs", name + ".antt")) for name in names if name != "Lib"}


@functools.lru_cache(maxsize=None)
def definition(crate, module, name):
    """A definition by its name or that of one of its constructors, or None."""
    specs = all_specs(crate).get(module)
    return next((one for one in specs.definitions if name == one.name or name in one.parts), None) if specs else None


def names_in(text):
    """The names of a `use`, each with what it is called here."""
    for part in text.split(","):
        name, _, other = " ".join(part.split()).partition(" as ")
        if name:
            yield name, other or name


def target_of(crate, path, name):
    """What a name of a module of definitions stands for."""
    parts = path.split(".")
    if crate not in CRATES:
        return Target("std", crate, ".".join((path, name)))
    if parts[0] == "declared":
        variant = (name,) if parts[-1] == "TheVariants" else ()
        kind = parts[-2] if variant else parts[-1]
        return Target("item", crate, (kind, *variant))
    if parts[0] == "contracts":
        return Target("contract", crate, (*parts[1:], name))
    return Target("definition", crate, (path, name))


@functools.lru_cache(maxsize=None)
def uses_of(text, indent):
    """The names that `use` brings in with this indent, and the modules that it brings in under another name."""
    names, aliases = {}, {}
    for spaces, crate, path, many, other in USE.findall(text):
        if len(spaces) != indent:
            continue
        if many:
            names.update((here, target_of(crate, path, name)) for name, here in names_in(many))
        else:
            aliases[other or path.split(".")[-1]] = (crate, path)
    return names, aliases


class Scope:
    """What names stand for in one place: those of definitions, and those of the code."""

    def __init__(self, names, aliases, code, bound=()):
        self.names, self.aliases, self.code, self.bound = names, aliases, code, frozenset(bound)

    def target(self, word):
        """What a word of a definition or a clause stands for, or None."""
        first, _, rest = word.partition(".")
        if first in self.bound:
            return None
        if word in self.names:
            return self.names[word]
        if rest and first in self.aliases and first not in self.names:
            crate, path = self.aliases[first]
            return target_of(crate, path, rest.split(".")[0])
        found = self.names.get(first) or self.names.get("◌%s◌" % word)
        return found or self.code.get(first)


def code_uses(text, word):
    """What the names stand for that each `use` brings in from another library, or from this crate, of which the library is None."""
    for tree in re.findall(r"^%s ([^;]*);" % word, text, re.M):
        prefix, _, names = tree.strip().rstrip("}").rpartition("{")
        for path, here in names_in(names):
            first, *_, name = (prefix + path).split("::")
            if first in ("crate", "super", "self") or first in CRATES:
                yield here.split("::")[-1], first if first in CRATES else None, name


@functools.lru_cache(maxsize=None)
def origins(crate):
    """The names that a crate re-exports of other libraries, and the libraries that define them."""
    uses = code_uses(common.read("crates", crate, "src", "lib.rt"), "pub use")
    return {here: item_of(other, name) for here, other, name in uses if other}


def item_of(crate, name):
    """What a name stands for that a crate gives."""
    return origins(crate).get(name, Target("item", crate, (name,)))


@functools.lru_cache(maxsize=None)
def code_names(crate, source):
    """What the names of the code of a source stand for, as far as they are items of the libraries."""
    text = "\n".join(source.lines)
    found = {here: item_of(other or crate, name) for here, other, name in [*code_uses(text, "use"), *code_uses(text, "pub use")]}
    declared = re.findall(r"^(?:pub(?:\([\w ]+\))? )?(?:struct|enum|trait|fn|const fn|const|type|unsafe fn) (\w+)", text, re.M)
    return {**found, **{name: Target("item", crate, (name,)) for name in declared}}


def bound_in(text):
    """The names that a definition or a clause binds: those of λ, of binders with a type, of `do`, and of fields of records."""
    found = set()
    for names in re.findall(r"λ ([^.]*)\.|[({]((?:[\w-]+ )+): ", text):
        found.update(" ".join(names).split())
    found.update(re.findall(r"^\s+(\w+) ←", text, re.M))
    found.update(re.findall(r"[{;]\s*([\w-]+) = ", text))
    found.update(re.findall(r"^  pub ([\w-]+) :", text, re.M))
    return found
