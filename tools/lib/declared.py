"""What the Rattle sources declare: the functions of a crate with their clauses and parameters, and the definitions of each file of specs."""
import collections
import functools
import os
import re

import common
import documents

# Comments, texts and characters, in which no name is declared.
NO_CODE = re.compile(r"""//[^\n]*|b?"(?:[^"\\]|\\.)*"|b?'(?:[^'\\\n]|\\.)'""", re.S)
# Where an item of a file begins: `rt fmt` indents what is inside of one.
TOP_LEVEL = re.compile(r"\n(?=[a-z])(?!where\b)")
# What is after the parameters of a function.
AFTER = re.compile(r"\bwhere\b|\n\s+(?:requires|ensures)\b|\{|;\n")
CLAUSE = re.compile(r"^\s*(?:requires|ensures)\*?(?:\s+(\w+))?\s*\{", re.M)
# What declares a name in a file of code: an item, a ghost member, or a field or case at the beginning of a line.
ITEM = re.compile(r"\b(?:fn|struct|enum|trait|const|static|type|mod)\s+(\w+)")
GHOST = re.compile(r"\bghost\s+(?!use\b)(\w+)\s*[:=]")
MEMBER = re.compile(r"^\s*(?:pub(?:\([\w ]*\))?\s+)?(\w+)\s*(?:[:,({=]|$)", re.M)
TYPE = re.compile(r"(?:pub(?:\([\w ]*\))? )?(?:struct|enum)\s+(\w+)[^;{(]*\{(.*)", re.S)
PARAMETER = re.compile(r"[(,]\s*(?:mut\s+)?(\w+)\s*:(?!:)")
# What declares a name in a file of specs or proofs: marks, names and perhaps arguments before a colon or `where`.
DEFINITION = re.compile(
    r"^[ \t]*(?:(?:pattern|unfoldable|abbrev|axiom|pub|data|record)[ \t]+)*"
    r"([A-Za-z_][\w-]*)(?:[ \t]+[A-Za-z_][\w-]*|[ \t]*[({][^:]*:[^)}]*[)}])*[ \t\n]*(?::|where)",
    re.M,
)

# A function: the type and the trait that it belongs to, its name, and the names of its parameters and of its clauses.
Function = collections.namedtuple("Function", "owners name parameters clauses")


def functions_of(text, owners):
    """The functions of an item of a file."""
    for part in re.split(r"\bfn\s+(?=\w)", text)[1:]:
        head = AFTER.split(part)[0]
        yield Function(owners, re.match(r"\w+", part)[0], PARAMETER.findall(head[head.find("(") :]), CLAUSE.findall(part))


def definitions_of(path):
    """The names that a file of specs or proofs declares: definitions, records and their fields, cases and their arguments."""
    code = re.sub(r"(^|\s)--[^\n]*", r"\1", common.read(path))
    return set(DEFINITION.findall(code)) | set(re.findall(r"\bpub (?:data |record )?([A-Za-z_][\w-]*)", code))


def passed_on(path):
    """The names of other files that a file of proofs passes on, by the names that it gives them."""
    listed = ",".join(re.findall(r"^pub use\b[^{\n]*\{([^}]*)\}", common.read(path), re.M))
    return {word.split(" as ")[-1].strip() for word in listed.split(",") if word}


class Crate:
    """What a crate declares: functions, items, clauses, ghost members with their types, members of types, words, and definitions."""

    def __init__(self, name):
        self.functions, self.items, self.members, self.clauses, self.ghosts = [], set(), set(), set(), {}
        self.texts, self.specs, self.proofs, self.for_callers = set(), {}, set(), set()
        top = os.path.join(common.TOP, "crates", name)
        for path in common.files_of(name):
            folder, module = os.path.relpath(path, top).split(os.sep)[0], os.path.basename(path).partition(".")[0]
            if folder == "src" and path.endswith(".rt"):
                self.texts |= set(re.findall(r'"(\w+)"', common.read(path)))
                self.add_code(NO_CODE.sub("", common.read(path)))
            elif folder == "specs":
                self.specs[module] = definitions_of(path)
            elif folder == "proofs":
                self.proofs |= definitions_of(path) | {module}
                self.for_callers |= passed_on(path) if module == "ForCallers" else set()

    def add_code(self, text):
        self.items |= {*ITEM.findall(text), *MEMBER.findall(text)}
        for item in TOP_LEVEL.split(text):
            owners = documents.owners_of(" ".join(item.partition("{")[0].split())) if documents.BLOCK.match(item) else []
            functions, ghosts = list(functions_of(item, owners)), GHOST.findall(item)
            self.functions += functions
            self.clauses |= {name for function in functions for name in function.clauses if name}
            for ghost in ghosts:
                self.ghosts.setdefault(ghost, set()).update(owners)
            self.members |= {(owner, name) for owner in owners for name in [*ghosts, *(function.name for function in functions)]}
            of_type = TYPE.match(item)
            self.members |= {(of_type[1], member) for member in MEMBER.findall(of_type[2])} if of_type else set()

    def names(self):
        """All that its code and its specs name, and its files of specs."""
        return self.items.union(self.clauses, self.ghosts, self.specs, *self.specs.values())


@functools.lru_cache(maxsize=None)
def crate(name):
    return Crate(name)
