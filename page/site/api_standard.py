"""Writes the page of an HTML reference for readers of the standard: its productions in its order, each beside our definitions.

`TABLE` follows the core specification, version 3.0: chapters (`#`), sections (`##`), and productions as the standard has them, each with
the definitions that say the same (`:`), or with the reason why nothing reads it (`!`). Behind `<` are the sections whose rows test this one.
"""
import functools
import re

import api_names
import api_pages
import api_source
import api_text
import common
from api_text import anchor, code, details, escaped, link

TABLE = common.read("page", "site", "productions.txt")
# Files of definitions that cite the chapter and define no production.
OTHERS = {
    ("wasm_items", "TypeHeads"): "the heads of groups of types and of subtypes, for callers that read their lists one by one",
    ("wasm_items", "TypeLaws"): "that these are the heads of RecGroups",
    ("wasm_frames", "SkipNext"): "skipping a part by its first fields",
    ("wasm_edits", "Fates"): "what stripping does to a part",
    ("wasm_edits", "Edits"): "what edits of custom sections say of sections",
    ("wasm_edits", "Edited"): "an edited stream",
    ("wasm_edits", "EditedReading"): "the reading of an edited stream",
    ("wasm_edits", "Encoded"): "the bytes of a new custom section",
    ("wasm_edits", "Stripped"): "what remains of a stripped stream",
}
# What names more than one section of a chapter.
WIDE = ("Binary format, Modules.", "Modules, Sections", "each section", "from Type Section to Tag Section", "Appendix, Custom Sections")
SPEC = "https://webassembly.github.io/spec/core/"
ABOUT = (
    "For readers of the WebAssembly core specification: the productions of its chapter on the binary format, in its order and in a short form of its notation, "
    "and those of its appendix on the <code>name</code> section. Beside each are the definitions that say the same for this parser, the items whose proved "
    "contracts cite them, and the rows of tests with their results. An offset is part of each definition, and so is the fault where bytes fit no production. "
    "Of instructions only those of constant expressions are read, and function bodies are windows of bytes."
)
# The tables of tests with their results, and the comment over the rows of some sections of the standard.
ROWS = ("crates", "test_rows", "stdout")
FUNCTION = re.compile(r"(    )?(?:pub(?:\(\w+\))? )?(?:final |const |unsafe )*fn (\w+)")
TITLE = re.compile(r"# [^()]+ \((core specification|tool conventions|a proposal)[,;] (.+)\)\.?$")


class Section:
    """A section of the standard, and where its rows are: by its own title unless the table names others."""

    def __init__(self, chapter, title, tested_by):
        self.title, self.productions = title, []
        self.tested_by = tested_by.split("; ") if tested_by else [title]
        self.place = anchor(chapter.lower(), title.lower().replace(" ", "-"))


class Production:
    """A production, with its definitions as pairs of a crate and a name, or why nothing reads it."""

    def __init__(self, section, text):
        self.name, self.text = (part.strip() for part in text.split("::=", 1))
        self.cites, self.reason, self.place = [], "", anchor(section.place, re.sub(r"\W+", "-", self.name).strip("-"))


def chapters():
    """The chapters of the table: of each its title, its page of the standard, and its sections."""
    found = []
    for line in filter(None, TABLE.split("\n")):
        mark, _, rest = line.partition(" ")
        if mark == "#":
            title, _, page = rest.partition(" | ")
            found.append((title, page, []))
        elif mark == "##":
            title, _, tested_by = rest.partition(" < ")
            found[-1][2].append(Section(found[-1][0], title, tested_by))
        elif mark == ":":
            crate, *names = rest.split(" ")
            found[-1][2][-1].productions[-1].cites += [(crate, name) for name in names]
        elif mark == "!":
            found[-1][2][-1].productions[-1].reason = rest
        else:
            section = found[-1][2][-1]
            section.productions.append(Production(section, line))
    return found


CHAPTERS = chapters()
ALL_SECTIONS = [section for _, _, sections in CHAPTERS for section in sections]


def definition(crate, name):
    return api_names.definition(crate, *name.split("."))


@functools.lru_cache(maxsize=None)
def users():
    """The definitions that use a definition, each by the other."""
    found = {}
    for crate in api_source.LIBRARIES:
        for specs in api_names.all_specs(crate).values():
            for one in specs.definitions:
                scope = api_names.Scope(specs.names, specs.aliases, {}, api_names.bound_in(one.text))
                for target in api_text.cited(one.text, scope):
                    used = api_names.definition(target.crate, *target.path)
                    if used and used != one:
                        found.setdefault(used, {})[one] = None
    return found


@functools.lru_cache(maxsize=None)
def private_functions(site):
    """The functions that have no entry in the reference, by the definitions that their contracts cite."""
    found = {}
    for crate in api_source.LIBRARIES:
        for name in api_source.source_names(crate):
            module = api_source.Module(crate, name, api_source.source_of(crate, name), [])
            writer = api_pages.Writer(site, module)
            for at, line in enumerate(module.source.lines):
                head = FUNCTION.match(line)
                if not head or "pub fn" in line and (crate, head[2]) in site.places:
                    continue
                shown = "<code>%s</code> (%s/src/%s.rt:%d)" % (head[2], crate, name, at + 1)
                for _, text in module.source.clauses(at):
                    scope = writer.scope(at, writer.outer_of(at) if head[1] else None, text)
                    for target in api_text.cited(api_text.unlabeled(text), scope):
                        found.setdefault(api_names.definition(target.crate, *target.path), {})[shown] = None
    return found


def readers(site, one):
    """What has a contract that cites a definition; if nothing does, what cites the nearest definitions that use it, with these. Laws
    count only if no code does."""
    level, seen, laws = [one], {one}, []
    while level:
        citing = [(other, api_pages.citing(site, other)) for other in level]
        laws = laws or [(other, links) for other, links in citing if links]
        code = [(other, [href for href in links if "#law." not in href] or list(private_functions(site).get(other, ()))) for other, links in citing]
        if any(found for _, found in code):
            return [(other, found) for other, found in code if found]
        level = list(dict.fromkeys(user for other in level for user in users().get(other, ()) if user not in seen))
        seen.update(level)
    return laws


def definition_html(site, crate, name):
    one, out = definition(crate, name), []
    if not one:
        return "<p>%s</p>" % escaped("%s %s" % (crate, name))
    for other, found in readers(site, one):
        through = "" if other == one else " through %s" % link(api_pages.definition_link(other), code(escaped(other.name)))
        out.append("<p>Cited%s by %s.</p>" % (through, ", ".join(found)))
    where = "%s/specs/%s.antt" % (one.crate, one.module)
    return api_pages.framed_definition(site, one, where, details("Code that reads it", "".join(out), "cited"))


@functools.lru_cache(maxsize=None)
def blocks():
    """The blocks of rows, each with the line that it begins at, the sections of the standard that its comment names, and its lines."""
    found, last = [], ""
    for number, line in enumerate(common.read(*ROWS).split("\n"), 1):
        title = TITLE.match(line) if not last else None
        if title:
            of_standard = title[1] == "core specification"
            found.append((number, title[2].split(";")[0].split(", ")[-1].split(" and ") if of_standard else [], []))
        if found:
            found[-1][2].append(line)
        last = line
    return found


def blocks_of(title):
    return [block for block in blocks() if title in block[1]]


def rows_html(section):
    """The rows of a section, or links to the sections whose rows test it."""
    if section.tested_by != [section.title]:
        links = [link("#" + other.place, escaped(other.title)) for other in ALL_SECTIONS if other.title in section.tested_by]
        return "<p>Rows: see %s.</p>" % ", ".join(links)
    out = []
    for number, _, lines in blocks_of(section.title):
        count = sum(bool(re.match(r"[a-z]", line)) for line in lines)
        head = "%d rows, %s:%d" % (count, "/".join(ROWS), number)
        out.append(details(head, "<pre>%s</pre>" % code(escaped("\n".join(lines).strip()))))
    return "".join(out)


def section_html(site, section):
    out = [api_pages.part(3, section.place, escaped(section.title))]
    for one in section.productions:
        site.index.append((one.name, "production", "%s#%s" % (api_pages.STANDARD, one.place), section.title))
        said = "<p>Not read: %s.</p>" % escaped(one.reason) if one.reason else ""
        text = re.sub(r" (\|) | (::=) ", lambda found: "\n  | " if found[1] else " ::=\n    ", "%s ::= %s" % (one.name, one.text))
        right = said + "".join(definition_html(site, *cite) for cite in one.cites)
        out.append('<div class="pair" id="%s"><pre>%s</pre><div>%s</div></div>' % (one.place, code(escaped(text)), right))
    return "".join(out) + rows_html(section)


def page(site):
    """The page of the standard. The pages of crates are written before it, since they note what cites each definition."""
    out, side = ["<h1>The standard</h1><p>%s</p>" % ABOUT], []
    for title, address, sections in CHAPTERS:
        side.append(api_pages.side_list(title, [link("#" + one.place, escaped(one.title)) for one in sections]))
        head = api_pages.part(2, anchor("chapter", title.lower().replace(" ", "-")), title)
        out.append("%s<p>%s</p>" % (head, link(SPEC + address, "The chapter in the standard")))
        out += [section_html(site, section) for section in sections]
    return api_pages.page("The standard - Pulleynavy", "\n".join(out), "\n".join(side), api_pages.STANDARD)


@functools.lru_cache(maxsize=None)
def sources():
    """The sources of definitions in the tables of DEFINITIONS, by the file and the name of each."""
    found = {}
    for names, source in re.findall(r"^\| .* \| (`.*`) \| (.*) \|$", common.read("docs", "DEFINITIONS.md"), re.M):
        module = ""
        for name in re.findall(r"`([\w.]+)`", names):
            module, name = name.split(".", 1) if "." in name else (module, name)
            found[module, name] = "%s; %s" % (found.get((module, name), ""), source)
    return found


def wrong_citation(site, section, crate, name):
    """What is wrong with a definition of a production, if something is."""
    one = definition(crate, name)
    if not one:
        return "is no definition"
    # DEFINITIONS, or a comment on a definition or its file, says that it is from this section, or from all of a chapter.
    about = " ".join((*api_names.all_specs(one.crate)[one.module].comment, *one.comment, sources().get((one.module, one.name), "")))
    if not any(words in about for words in (section.title, *section.tested_by, *WIDE)):
        return "is of another section"
    return "" if readers(site, one) else "is cited by no contract"


def without_production():
    """The files of definitions that name a section of the binary chapter, and that no production has a definition of."""
    shown = {(crate, name.split(".")[0]) for section in ALL_SECTIONS for one in section.productions for crate, name in one.cites}
    for crate, module in sorted(OTHERS):
        if (crate, module) in shown or module not in api_names.all_specs(crate):
            yield "page/site/api_standard.py: %s, %s is no longer one of OTHERS" % (crate, module)
    for crate in api_source.LIBRARIES:
        for module, specs in api_names.all_specs(crate).items():
            names_chapter = re.search(r"Core specification, (Binary format|Appendix), ", " ".join(specs.comment), re.I)
            if names_chapter and (crate, module) not in {*shown, *OTHERS}:
                yield "%s, %s: no production of page/site/api_standard.py has a definition of it" % (crate, module)


def faults(site, ids):
    """What is wrong with the table: productions without definitions or readers, sections without rows, and rows without a section."""
    titles = {section.title for section in ALL_SECTIONS}
    for section in ALL_SECTIONS:
        place = "%s, %s" % (api_pages.STANDARD, section.title)
        if not section.productions:
            yield "%s: no production" % place
        yield from ("%s: no rows of %s" % (place, title) for title in section.tested_by if title not in titles or not blocks_of(title))
        for one in section.productions:
            if one.place not in ids:
                yield "%s: no entry of %s" % (place, one.name)
            if not one.cites and not one.reason:
                yield "%s: %s needs a definition, or a reason why it is not read" % (place, one.name)
            for crate, name in one.cites:
                wrong = wrong_citation(site, section, crate, name)
                if wrong:
                    yield "%s: %s: %s of %s %s" % (place, one.name, name, crate, wrong)
    for number, of_standard, _ in blocks():
        if of_standard and not titles.intersection(of_standard):
            yield "%s:%d: no section of %s shows these rows" % ("/".join(ROWS), number, api_pages.STANDARD)
    yield from without_production()
