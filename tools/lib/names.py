"""Which names of documents, in code type, the sources don't have, or don't have where the document says.

A name is a word with an underscore or with capital letters inside. Every document may name what the crates, the bindings, the page, the
tools and the tests declare. DEFINITIONS.md names the file of each definition, and PROVED.md the clauses of functions.
"""
import functools
import glob
import os
import re

import common
import declared

WORD = re.compile(r"(?<![\w/.\-#$])[A-Za-z_]\w*(?:(?:::|\.)[A-Za-z_]\w*)*(?![\w/\-])")
IS_NAME = re.compile(r"[a-z0-9]\w*_\w+|[A-Z][A-Z0-9]*_[A-Z0-9_]+|[A-Z][a-z0-9]+[A-Z]\w*")
CALL = re.compile(r"(?:[\w.]+\.|\w+::)?(\w+)\(((?:&?(?:mut )?\w+(?:, )?)*)\)")
QUOTED = re.compile(r"`([^`]+)`")
# Quoted names, each perhaps with what a clause cites in parentheses.
SEVERAL = r"(?:`[^`]+`(?: \([^)]*\))?(?:,? and |, )?)+"
ON = re.compile(r"(%s)(?<! ) (?:on|of) (?:the trait )?((?:`[^`]+`(?:, | and )?)+)" % SEVERAL)
AT_FILE = re.compile(r"((?:`\w+`(?:, | and )?)+) in `([\w/.]+\.(?:antt|rt|rs|py))`")
OF_CRATE = re.compile(r"((?:`[\w:]+`(?:, | and )?)+) of `((?:wasm|test)_\w+)`")

# Names that no source of this repository declares, by where they come from.
ELSEWHERE = {
    "Rattle's std": "OnErr decimal",
    "Rust's std": "bool Display Write",
    "C functions of the toolchain": "rattle_alloc rattle_realloc rattle_dealloc rattle_open_dir_at rattle_arg rattle_env rattle_env_at"
    " rattle_errno rattle_set_errno",
    "the system": "x86_64 PKG_CONFIG_PATH LD_LIBRARY_PATH",
    "custom sections that only other programs read": "target_features",
    "a constant that the prover refuses": "TAKES_MEMORY",
}
KNOWN_ELSEWHERE = set(" ".join(ELSEWHERE.values()).split())
# Folders of sources in other languages, with all words in them.
OTHERS = ("bindings", "page", "tools", "tests", "benches", "crates/wasm_c/include", "crates/wasm_c/examples")
# Names what types of wasmparser have and these don't.
OF_ORIGINAL = ("DIFFERENCES.md",)
DOCUMENTS = ("README.md", "CONTRIBUTING.md", "docs/*.md", "tools/README.md", "bindings/*/README.md")


@functools.lru_cache(maxsize=None)
def other_words():
    """The words of the sources in other languages. In C all names begin with that of the library, which documents may leave out."""
    found = set()
    for top in OTHERS:
        for folder, folders, names in os.walk(os.path.join(common.TOP, top)):
            folders[:] = [name for name in folders if name not in ("__pycache__", "node_modules", "out", "target", "dist")]
            for name in names:
                if not name.endswith((".md", ".jsonl", ".png", ".html")):
                    found.update(re.findall(r"\w+", common.read(os.path.join(folder, name))))
    return found | {re.sub("^pulleynavy_", "", word, flags=re.I) for word in found}


@functools.lru_cache(maxsize=None)
def all_names():
    crates = [declared.crate(name) for name in common.crates()]
    parameters = {parameter for one in crates for function in one.functions for parameter in function.parameters}
    return other_words().union(parameters, KNOWN_ELSEWHERE, common.crates(), *(one.names() | one.proofs | one.for_callers for one in crates))


def prose(path):
    """The lines of a document that are no code, with their numbers."""
    is_code = False
    for number, line in enumerate(common.read(path).split("\n"), 1):
        if line.lstrip().startswith("```"):
            is_code = not is_code
        elif not is_code and not line.startswith("    "):
            yield number, line


def rows_of(path, count):
    """The rows of a document's tables with `count` cells: the number of the line, the crates of the heading, and the cells."""
    crates, is_row = [], False
    for number, line in prose(path):
        if line.startswith("#"):
            crates = [name for name in re.findall(r"`((?:wasm|test)_\w+)`", line) if name in common.crates()]
        cells = [cell.strip() for cell in line.strip("|").split(" | ")]
        if is_row and line.startswith("|") and len(cells) == count:
            yield number, crates, cells
        # What is before the line of dashes is the head of a table.
        is_row = line.startswith("|---") or is_row and line.startswith("|")


def has_member(crates, owner, member):
    """Whether a type, a trait or a module of these crates has this member. Of a module any function counts."""
    if owner[0].isupper():
        return any((owner, member) in declared.crate(crate).members for crate in crates)
    return any(function.name == member for crate in crates for function in declared.crate(crate).functions)


def is_declared(name, crates):
    """Whether these crates declare a name, perhaps with its type or module before it."""
    owner, _, member = name.rpartition("::")
    if owner:
        return has_member(crates, owner.split("::")[-1], member)
    return any(name in declared.crate(crate).names() for crate in crates)


def wrong_members(quoted):
    """Members that no type of the crates with that name has."""
    for word in WORD.findall(quoted):
        owner, _, member = word.rpartition("::")
        owner = owner.split("::")[-1]
        if owner[:1].isupper() and any(owner in declared.crate(crate).items for crate in common.crates()):
            if not has_member(common.crates(), owner, member):
                yield "no %s of %s" % (member, owner)


def wrong_calls(quoted):
    """A call with names as arguments that are not those of a function's parameters."""
    call = CALL.fullmatch(quoted)
    if not call or not call[2]:
        return
    given = [re.sub(r"^&?(?:mut )?", "", argument) for argument in call[2].split(", ")]
    functions = [one for crate in common.crates() for one in declared.crate(crate).functions if one.name == call[1]]
    if functions and given not in [one.parameters for one in functions]:
        yield "`%s`, and its parameters are %s" % (quoted, " or ".join(sorted({", ".join(one.parameters) for one in functions})))


def wrong_places(line):
    """Names that are not in the file or the crate that a line says."""
    for names, path in AT_FILE.findall(line):
        found = [file for file in glob.glob(os.path.join(common.TOP, "**", path), recursive=True) if os.path.isfile(file)]
        for name in QUOTED.findall(names):
            if not any(re.search(r"\b%s\b" % name, common.read(one)) for one in found):
                yield "no %s in %s" % (name, path)
    for names, crate in OF_CRATE.findall(line):
        for name in QUOTED.findall(names):
            if crate in common.crates() and not (is_declared(name, [crate]) or name in declared.crate(crate).texts | declared.crate(crate).proofs):
                yield "no %s in %s" % (name, crate)


def wrong_lines(path):
    """What a document says in code type that the sources don't have."""
    is_ours = os.path.dirname(path) == os.path.join(common.TOP, "docs") and os.path.basename(path) not in OF_ORIGINAL
    for number, line in prose(path):
        for quoted in QUOTED.findall(line):
            parts = (part for word in WORD.findall(quoted) for part in re.split(r"::|\.", word))
            yield from ((number, "no %s in the sources" % part) for part in parts if IS_NAME.fullmatch(part) and part not in all_names())
            yield from ((number, text) for text in (*wrong_members(quoted), *wrong_calls(quoted)) if is_ours)
        yield from ((number, text) for text in wrong_places(line))


def wrong_definitions(path):
    """Definitions that are not in the file of specs that the table says. A name without a file is in the one before it, or is a file."""
    for number, heading, cells in rows_of(path, 3):
        module = None
        for part in cells[1].split(";") if heading else ():
            own = re.match(r"\s*`((?:wasm|test)_\w+)`:", part)
            crates = [own[1]] if own else heading
            for file, _, name in (quoted.rpartition(".") for quoted in QUOTED.findall(part[own.end() :] if own else part)):
                module = file or module
                files = [declared.crate(crate).specs[module] for crate in crates if module in declared.crate(crate).specs]
                if not file and any(name in declared.crate(crate).specs for crate in crates):
                    continue
                if not files:
                    yield number, "no file of specs %s in %s" % (module, ", ".join(crates))
                elif not any(name in names for names in files):
                    yield number, "no %s in %s of %s" % (name, module, ", ".join(crates))


def has_clause(crates, target, clause):
    """Whether a function, a type or a definition has a clause, a ghost member or a field of this name."""
    owner, _, name = target.partition("(")[0].rpartition("::")
    owner = owner if owner[:1].isupper() else ""
    all_crates = [declared.crate(crate) for crate in crates]
    functions = [one for crate in all_crates for one in crate.functions if one.name == name and (not owner or owner in one.owners)]
    owners = {one for function in functions for one in function.owners}
    of_owners = [one for crate in all_crates for one in crate.functions if name in one.owners or one.name == name and owners & set(one.owners)]
    ghosts = set().union(*(crate.ghosts.get(clause, ()) for crate in all_crates))
    return (
        any(clause in one.clauses for one in functions + of_owners)
        or any(clause == one.name for one in of_owners)
        or name in ghosts
        or (clause == name + "_gives" and bool(ghosts))
        or any({name, clause} <= names for crate in all_crates for names in crate.specs.values())
    )


def pairs_in(cells, crates):
    """Each function or type with a clause that a row says it has."""
    said = ON.findall(cells[1])
    if not said and not re.search(r"\b(?:on|of|the)\b", cells[1]):
        subject = re.match(r"(?:`[^`]+`(?:, | and |,)?)+", cells[0])
        said = [(cells[1], subject[0])] if subject else []
    known = set().union(*({*declared.crate(crate).clauses, *declared.crate(crate).ghosts} for crate in crates))
    for clauses, targets in said:
        # Parentheses have what a clause cites.
        names = [name for name in QUOTED.findall(re.sub(r"\([^)]*\)", "", clauses)) if name in known]
        yield from ((target, name) for target in QUOTED.findall(targets) for name in names)


def wrong_clauses(path):
    """Clauses and definitions that the crates of the heading don't have, and functions without the clause that a row says."""
    for number, heading, cells in rows_of(path, 2):
        crates = {one for crate in heading + ["wasm_c_items"] * ("wasm_c" in heading) for one in common.crates_of(crate)}
        if not heading:
            continue
        for name in [quoted for quoted in QUOTED.findall(cells[1]) if re.fullmatch(r"\w+(?:::\w+)*", quoted)]:
            is_known = name in KNOWN_ELSEWHERE or name in common.crates()
            if not (is_known or is_declared(name, crates) or is_declared("pulleynavy_" + name, crates)):
                yield number, "no %s in %s" % (name, ", ".join(heading))
        for target, clause in pairs_in(cells, crates):
            if not has_clause(crates, target, clause):
                yield number, "no clause %s on %s" % (clause, target)


def wrong_statements(path):
    """Statements for callers that the modules ForCallers don't pass on, and those that no row has."""
    rows = [(number, cells[0]) for number, crates, cells in rows_of(path, 2) if crates and cells[0].startswith("`")]
    listed = {name: number for number, cell in rows for name in QUOTED.findall(cell)}
    passed_on = set().union(*(declared.crate(crate).for_callers for crate in ("wasm_parser", "wasm_streams", "wasm_feed")))
    for name in sorted(set(listed) - passed_on):
        yield listed[name], "no %s in ForCallers" % name
    told = set(QUOTED.findall(common.read(path)))
    for name in sorted(passed_on - told):
        yield 1, "nothing of %s, which ForCallers passes on" % name


def wrong_names():
    """What documents name that is not there, as texts with the file and the line."""
    paths = [path for pattern in DOCUMENTS for path in sorted(glob.glob(os.path.join(common.TOP, pattern)))]
    tables = {"DEFINITIONS.md": wrong_definitions, "PROVED.md": wrong_clauses, "PROOFS.md": wrong_statements}
    for path in paths:
        of_tables = tables.get(os.path.basename(path), lambda path: ())
        for number, text in sorted({*wrong_lines(path), *of_tables(path)}):
            yield "%s:%d: %s" % (os.path.relpath(path, common.TOP), number, text)
