"""What the sources say of the libraries: the items that each crate gives its callers, with their signatures, docs and clauses."""
import collections
import functools
import os
import re

import common
import documents

LIBRARIES = ("wasm_base", "wasm_grammar", "wasm_frames", "wasm_items", "wasm_custom", "wasm_io", "wasm_parser", "wasm_streams", "wasm_lines", "wasm_edits", "wasm_feed", "wasm_output", "wasm_show",
             "wasm_dumper", "wasm_commands")
CLAUSE = re.compile(r"^\s+(requires|ensures|within|decreases)\b")
# A comment over clauses.
COMMENT = re.compile(r"^\s+// ")
# What may be over a declaration: comments and attributes, also of several lines.
OVER = re.compile(r"\s*(//|#\[|\)\]|[\w, ]+\)\]$)")
ITEM = re.compile(r"^pub (struct|enum|trait|fn|const fn|const|type|unsafe fn) (\w+)")
METHOD = re.compile(r"    (?:pub )?(?:const |unsafe )?fn \w")
IMPL = re.compile(r"impl(?:%s)?\s+(?:(.+?) for )?&?(?:'\w+ )?(?:mut )?(\(.*\)|[\w:]+)(<.*)?" % documents.GENERICS)

# What a source declares, and the line that it begins at. `owner` is the type or the trait of a member.
Item = collections.namedtuple("Item", "kind name signature at")
Member = collections.namedtuple("Member", "kind owner name signature at")
Impl = collections.namedtuple("Impl", "header trait type at")
# A variant or a field, with the fields of a variant.
Part = collections.namedtuple("Part", "name text at parts")
# A source with those of its items that a crate gives.
Module = collections.namedtuple("Module", "crate path source items")


def first_paragraph(lines):
    return " ".join(lines[: lines.index("")] if "" in lines else lines)


def summary(lines):
    """The first sentence of a doc comment."""
    text = first_paragraph([line.strip() for line in lines])
    found = re.match(r"(.*?\.)(?= [A-Z`]|$)", text)
    return (found[1] if found else text).rstrip(":")


class Source:
    """The items of a source, the members of each type and trait, and what each type implements."""

    def __init__(self, text):
        self.lines = text.split("\n")
        self.items, self.members, self.impls = [], {}, []
        for at, line in enumerate(self.lines):
            item = ITEM.match(line)
            if item:
                self.add_item(at, item[1], item[2])
            elif line.startswith("impl"):
                self.add_impl(at)

    def over(self, at):
        """The comments and attributes over a line."""
        first = at
        while first and OVER.match(self.lines[first - 1]):
            first -= 1
        return [line.strip() for line in self.lines[first:at]]

    def doc(self, at):
        return [re.sub("^/// ?", "", line) for line in self.over(at) if line.startswith("///")]

    def comment(self, at):
        """The doc comment over a line and what follows it, up to what a clause proves."""
        lines = [re.sub("^///? ?", "", line) for line in self.over(at) if not line.startswith("#[")]
        return lines[: next((number for number, line in enumerate(lines) if line.startswith("Proved: ")), None)]

    def derives(self, at):
        return [name for line in self.over(at) for name in re.findall(r"\w+", "".join(re.findall(r"#\[derive\((.*)\)\]", line)))]

    def signature(self, at):
        """A signature from this line on, and the line after it."""
        words = []
        for at in range(at, len(self.lines)):
            text = self.lines[at].strip()
            if CLAUSE.match(self.lines[at]) or COMMENT.match(self.lines[at]) or text in ("{", "where {"):
                break
            words.append(re.sub(r" \{.*\}$|\s*\{$", "", text))
            if text.endswith((" }", "{}", "{", ";")):
                at += 1
                break
        joined = " ".join(words).rstrip(";").replace("( ", "(").replace(", )", ")").replace(",)", ")")
        return re.sub(r"\s+", " ", joined), at

    def add_item(self, at, kind, name):
        signature = self.signature(at)[0]
        if kind == "const":
            signature = signature.split(" = ")[0] if len(signature) > 100 or "{" in signature else signature
        if kind == "struct" and signature.endswith(")") and not re.search(r"pub [^(]", signature.split("(", 1)[1]):
            signature = signature.split("(", 1)[0] + "(..)"
        self.items.append(Item(kind, name, signature, at))
        if kind == "trait":
            self.add_members(at, name, r"    (final fn|fn|type|const) (\w+)")

    def add_impl(self, at):
        header = self.signature(at)[0]
        found = IMPL.match(header)
        self.impls.append(Impl(header, found and found[1], found and found[2], at))
        if found and not found[1]:
            self.add_members(at, found[2], r"    pub (const fn|fn|const) (\w+)")

    def add_members(self, at, owner, pattern):
        for place in range(at + 1, self.end_of(at)):
            found = re.match(pattern, self.lines[place])
            if found:
                is_method, signature = found[1].endswith("fn"), re.sub(r"^(pub|final) ", "", self.signature(place)[0])
                member = Member("method" if is_method else found[1], owner, found[2], signature if is_method else signature.split(" = ")[0], place)
                self.members.setdefault(owner, []).append(member)

    def end_of(self, at):
        """The line that ends an item that begins with this one."""
        return next((place for place in range(at, len(self.lines)) if self.lines[place] == "}"), at)

    def block(self, at):
        """The lines from one on, up to the one that closes its braces and parentheses."""
        depth = 0
        for end in range(at, len(self.lines)):
            # Without strings and comments.
            code = re.sub(r'"(?:[^"\\]|\\.)*"|\'[{}]\'|//.*', "", self.lines[end])
            depth += len(re.findall(r"[{(]", code)) - len(re.findall(r"[})]", code))
            if depth <= 0:
                break
        return self.lines[at : end + 1]

    def clauses(self, at):
        """The clauses of the function that is declared from this line on: of each the line that it begins at, and its text."""
        found, at = [], self.signature(at)[1]
        while at < len(self.lines) and (CLAUSE.match(self.lines[at]) or COMMENT.match(self.lines[at])):
            lines = [self.lines[at]] if COMMENT.match(self.lines[at]) else self.block(at)
            if CLAUSE.match(lines[0]):
                found.append((at, dedented(lines)))
            at += len(lines)
        return found

    def proved(self, at):
        """What comments say that the clause at a line proves, as sentences."""
        first = at
        while COMMENT.match(self.lines[first - 1]):
            first -= 1
        texts = (re.sub(r" \[[^\[]*\]$", "", text) for text, _ in documents.comments(self.lines[first : at + 1], "// Proved: "))
        return ["%s%s." % (text[0].upper(), text[1:]) for text in texts]

    def declared(self, at):
        """What is declared from this line on, as it is written, without its clauses and its body."""
        lines = self.lines[at : self.signature(at)[1]]
        lines[-1] = re.sub(r"\s*(\{\s*|\{.*\}|;)$", "", lines[-1])
        return dedented([line for line in lines if line.strip()])

    def ghosts(self, at):
        """The ghost members of a trait or of an implementation: of each its name, its text, and the line that it begins at."""
        for place in range(at + 1, self.end_of(at)):
            found = documents.MEMBER.match(self.lines[place])
            if found:
                yield found[1], dedented(self.block(place)), place

    def fields(self, at, end, start):
        """The fields of a struct or of a variant, from a line to another. Each begins with `start`."""
        found = ((place, re.match(start + r"(\w+): (.*?),?$", self.lines[place])) for place in range(at + 1, end))
        return [Part(field[1], "%s: %s" % (field[1], field[2]), place, []) for place, field in found if field]

    def parts(self, item):
        """The variants of an enum, or the public fields of a struct."""
        if not self.lines[item.at].endswith("{"):
            return []
        if item.kind == "struct":
            return self.fields(item.at, self.end_of(item.at), "    pub ")
        return list(self.variants(item.at)) if item.kind == "enum" else []

    def variants(self, at):
        for place in range(at + 1, self.end_of(at)):
            variant = re.match(r"    ([A-Z]\w*)", self.lines[place])
            lines = self.block(place) if variant else []
            if variant and lines[0].endswith(" {"):
                yield Part(variant[1], variant[1], place, self.fields(place, place + len(lines), " " * 8))
            elif variant:
                yield Part(variant[1], re.sub(r"\s+", " ", " ".join(map(str.strip, lines))).rstrip(","), place, [])


def dedented(lines):
    least = min((len(line) - len(line.lstrip()) for line in lines if line.strip()), default=0)
    return "\n".join(line[least:].rstrip() for line in lines).rstrip(";")


@functools.lru_cache(maxsize=None)
def source_of(crate, module):
    return Source(common.read("crates", crate, "src", module + ".rt"))


@functools.lru_cache(maxsize=None)
def source_names(crate):
    top = os.path.join(common.TOP, "crates", crate, "src")
    found = (os.path.relpath(path, top) for path in common.files_of(crate) if path.startswith(top) and path.endswith(".rt"))
    return sorted(os.path.splitext(path)[0] for path in found)


def modules(crate):
    """The sources of a crate with those of their items that it gives: all public ones of a public module, or those that it re-exports of another."""
    text, given = "\n".join(source_of(crate, "lib").lines), {}
    for path, many, one in re.findall(r"^pub use ([\w:]+?)::(?:\{([^}]*)\}|(\w+));", text, re.M):
        if path.split("::")[0] not in common.crates():
            given.setdefault(path.split("::")[0], set()).update(re.findall(r"\w+", many or one))
    given.update(dict.fromkeys(re.findall(r"^pub mod (\w+);", text, re.M)))
    for module, names in sorted(given.items()):
        found, paths = set(), [path for path in source_names(crate) if path == module or names is not None and path.startswith(module + "/")]
        for path in paths:
            source = source_of(crate, path)
            items = [item for item in source.items if names is None or item.name in names]
            found.update(item.name for item in items)
            yield Module(crate, path, source, items)
        if names and names - found:
            common.stop(common.WRONG_USE, "%s/src/%s.rt has no %s in a form that this tool reads" % (crate, module, ", ".join(sorted(names - found))))


def members(module, name):
    """The members of a type or a trait of a module, each with the module that it is in: first those next to it."""
    for member in module.source.members.get(name, []):
        yield module, member
    for other in source_names(module.crate):
        source = source_of(module.crate, other)
        if other != module.path and name not in [item.name for item in source.items]:
            for member in source.members.get(name, []):
                yield Module(module.crate, other, source, []), member


def about(crate):
    return [line[4:].rstrip() for line in source_of(crate, "lib").lines if line.startswith("//!")]
