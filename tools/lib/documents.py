"""The tables of docs/PROVED.md and docs/DEFINITIONS.md, from the comments of the sources.

A row of PROVED is a comment over a clause, `// Proved: WORDS [CITATION]`; without a citation the clause is cited. A row of DEFINITIONS
is a comment over a definition, `-- | WORDS [OTHERS] <SOURCE>`, with the other definitions that it describes, and the section of the
standard if it comes from there. A line with three spaces after its dashes or slashes continues a comment. In the documents a line such as
`<!-- wasm_io: page digits -->` says of which modules, in this order, the table after it has the rows.
"""
import glob
import os
import re

import common

TABLE = re.compile(r"^<!-- (wasm_\w+: .*) -->\n+(?:\|.*\n)*", re.M)
FUNCTION = re.compile(r'\s*(?:pub(?:\([\w ]*\))? )?(?:(?:final|const|unsafe|extern "C") )*fn (\w+)')
BLOCK = re.compile(r"(?:unsafe )?(?:pub(?:\([\w ]*\))? )?(?:impl|trait)\b")
# The parameters of a type, whose bounds may have some.
GENERICS = r"<(?:[^<>]|<(?:[^<>]|<[^<>]*>)*>)*>"
MEMBER = re.compile(r"    ghost (\w+)(?:: | = |\()")
CLAUSE = re.compile(r"\s+(?:requires|ensures)\*?(?: (\w+))? \{")
DEFINITION = re.compile(r"(?:(?:pattern|unfoldable|abbrev|pub|data|record) )+([\w◌]+)")
THIS = "this project"
# Definitions that a clause names on the way to what it says.
NOT_SAID = {"Place", "place", "joined", "the_row"}


def comments(lines, first):
    """Each comment that begins with a mark: its text on one line, and the line after all comments there."""
    for at, line in enumerate(lines):
        if line.strip().startswith(first):
            words, end = [line.strip()[len(first) :]], at + 1
            while lines[end].strip().startswith(first[:2] + "   "):
                words.append(lines[end].strip()[2:].strip())
                end += 1
            while lines[end].strip().startswith(("//", "--", "#[")):
                end += 1
            yield " ".join(words), end


def owners_of(head):
    """The trait and the type that the head of an `impl` names, or the name of a trait."""
    head = re.sub("^" + GENERICS, "", head[BLOCK.match(head).end() :].split(" where ")[0].rstrip(" {"))
    parts = re.sub(r"'\w+|\bmut\b|&", " ", head).split(" for ")
    words = [re.search(r"(\w+)\s*(?:[<(\[,]|$|:(?!:))", part.strip()) for part in parts]
    return [word[1] for word in words if word]


def citation(lines, at, module, names):
    """What cites the clause or the ghost member at a line, and in parentheses the first definition of ours that it names."""
    text, end = lines[at].partition("{")[2] or lines[at].partition("=")[2], at + 1
    while text.count("{") >= text.count("}") and end < len(lines) and lines[end].startswith("      "):
        text += " " + lines[end]
        end += 1
    said = next((" (`%s`)" % word for word in re.findall(r"\w+", text) if word in names), "")
    before = lines[: at + 1]
    block = next((line for line in reversed(before) if BLOCK.match(line) or line == "}"), "}")
    owner = (owners_of(block) or [""])[-1] if block != "}" else ""
    member, clause = MEMBER.match(lines[at]), CLAUSE.match(lines[at])
    if member:
        return "`%s` of `%s`%s" % (member[1], owner, said)
    name = next(found[1] for found in map(FUNCTION.match, reversed(before)) if found)
    if module == "laws":
        return "`laws::%s`%s" % (name, said)
    return "%s of `%s`%s" % ("`%s`" % clause[1] if clause[1] else "the clause", owner + "::" * bool(owner) + name, said)


def proved(crate, module):
    """The rows of PROVED in a module."""
    lines = common.read("crates", crate, "src", module + ".rt").split("\n")
    imported = re.findall(r"ghost use Rattle\.wasm_\w+\.specs\.[\w.]+?\.\{([^}]*)\}", "\n".join(lines))
    names = {word.split(" as ")[-1].strip() for one in imported for word in one.split(",")} - NOT_SAID
    for text, at in comments(lines, "// Proved: "):
        if not MEMBER.match(lines[at]) and not CLAUSE.match(lines[at]):
            common.stop(common.DIFFERS, "crates/%s/src/%s.rt:%d: a comment says what a clause proves, and no clause is below it" % (crate, module, at + 1))
        words, cited = re.fullmatch(r"(.*?)(?: \[(.*)\])?", text).groups()
        yield words, cited or citation(lines, at, module, names)


def parts_of_row(text):
    """The words of a comment over a definition, the others that it describes, and its source."""
    return re.fullmatch(r"(.*?)(?: \[([^\]]*)\])?(?: <([^>]*)>)?", text).groups()


def defined(crate, module):
    """The rows of DEFINITIONS in a module."""
    lines = common.read("crates", crate, "specs", module + ".antt").split("\n")
    for text, at in comments(lines, "-- | "):
        words, others, source = parts_of_row(text)
        name = DEFINITION.match(lines[at].lstrip(" "))
        if not name and not all(line.startswith("--") for line in lines[:at]):
            common.stop(common.DIFFERS, "crates/%s/specs/%s.antt:%d: a comment says what a definition is, and none is below it" % (crate, module, at + 1))
        cited = "`%s`" % (module.split("/")[-1] + (".%s" % name[1] if name else ""))
        if others:
            cited += {"`": ", ", ";": ""}.get(others[0], " ") + others
        yield words, cited, source or THIS


DOCUMENTS = {
    "PROVED.md": (proved, "src", ".rt", "| Proved | Clause |\n|---|---|"),
    "DEFINITIONS.md": (defined, "specs", ".antt", "| In words | Identifier | Source |\n|---|---|---|"),
}


def written(name):
    """A document as it is generated. Each module with rows has to be one that a table names."""
    rows, folder, ending, head = DOCUMENTS[name]
    named = set()

    def table(found):
        parts = (part.partition(": ") for part in found[1].split("; "))
        modules = [(crate, module) for crate, _, names in parts for module in names.split()]
        named.update(modules)
        lines = ["| %s |" % " | ".join(row) for module in modules for row in rows(*module)]
        return "\n".join(["<!-- %s -->" % found[1], "", head, *lines, ""])

    text = TABLE.sub(table, common.read("docs", name))
    crates = os.path.join(common.TOP, "crates")
    for path in sorted(glob.glob(os.path.join(crates, "*", folder, "**", "*" + ending), recursive=True)):
        crate, _, module = os.path.relpath(path, crates)[: -len(ending)].split(os.sep, 2)
        if (crate, module) not in named and any(rows(crate, module)):
            common.stop(common.DIFFERS, "docs/%s: no table has the rows of %s/%s" % (name, crate, module))
    return text


def main():
    return common.generate(__doc__, lambda: {os.path.join(common.TOP, "docs", name): written(name) for name in DOCUMENTS})
