"""Checks the pages of an HTML reference: links, ids, elements, and that each item has its entry."""
import collections
import html
import os
import re
import subprocess
import urllib.parse

import api_names
import api_pages
import api_source
import api_standard
import common

# What tidy says of attributes that it doesn't know yet.
NEW = re.compile(r"proprietary attribute \"(?:enterkeyhint|autocapitalize|aria-current)\"")
# What begins a part of an item, by the kind of the item.
PARTS = {"enum": re.compile(r"    ([A-Z]\w*)"), "struct": re.compile(r"    pub (\w+):")}
# What is after the clauses of a function.
END = re.compile(r"\s*(?:$|\{$|\}|///|(?:pub |final )?fn )")


def invalid(folder, ids):
    """Invalid HTML, as tidy finds it, and ids that are there twice."""
    for name, all_ids in ids.items():
        yield from ("%s: the id %s is there twice" % (name, one) for one, count in collections.Counter(all_ids).items() if count > 1)
    for name in ids if common.found("tidy") else ():
        words = ["tidy", "-quiet", "-errors", "--drop-empty-elements", "no", os.path.join(folder, name)]
        done = subprocess.run(words, stdout=subprocess.DEVNULL, stderr=subprocess.PIPE)
        yield from ("%s: %s" % (name, line) for line in done.stderr.decode(errors="replace").splitlines() if not NEW.search(line))


def wrong_links(folder, texts, ids):
    for name, text in texts.items():
        for tag, href in sorted(set(re.findall(r'<(\w+)[^>]*? (?:href|src)="([^"]*)"', text))):
            file, _, anchor = html.unescape(href).partition("#")
            file = urllib.parse.unquote(file) or name
            if re.match(r"\w+:", href):
                if tag not in ("a", "img") and not href.startswith("data:"):
                    yield "%s: it requests %s" % (name, href)
            elif not os.path.exists(os.path.join(folder, file)):
                yield "%s: no file %s" % (name, href)
            elif anchor and file in ids and not {anchor, urllib.parse.unquote(anchor)}.intersection(ids[file]):
                yield "%s: no place %s" % (name, href)


def listed_items():
    """The public items, read without what the pages are written from: of each its crate, its names from the outermost, its source, and the
    line that declares it, or None of a part."""
    for crate, module in ((crate, module) for crate in api_source.LIBRARIES for module in api_source.modules(crate)):
        source = module.source
        for item in module.items:
            yield crate, (item.name,), source, item.at
            inside = source.lines[item.at + 1 : source.end_of(item.at)] if source.lines[item.at].endswith("{") else []
            parts = filter(None, map(PARTS[item.kind].match, inside)) if item.kind in PARTS else ()
            yield from ((crate, (item.name, part[1]), source, None) for part in parts)
            for member in source.members.get(item.name, []):
                yield crate, (item.name, member.name), source, member.at


def cited(source, at):
    """The definitions that the lines between a declaration and its body name, as far as the source imports them."""
    first, text = source.signature(at)[1], "\n".join(source.lines)
    imported = {name for indent in (0, 4) for name in api_names.uses_of(text, indent)[0]}
    last = next(place for place in range(first, len(source.lines) + 1) if END.match("".join(source.lines[place : place + 1])))
    lines = [line for line in source.lines[first:last] if not api_source.COMMENT.match(line)]
    return [word for word in re.findall(r"[\w◌+≡<≤^]+", "\n".join(lines)) if word in imported and word[0].isalpha()]


def missing_items(site, ids):
    """The public items without an entry on the page of their crate, and the definitions that an item's clauses name and no clause of its entry."""
    entries = {name: {one.partition(".")[2] for one in of_page} for name, of_page in ids.items()}
    for crate, names, source, at in listed_items():
        page, words = crate + ".html", site.words.get((crate, *names), ())
        if ".".join(names) not in entries[page]:
            yield "%s: no entry of %s" % (page, ".".join(names))
        known = {part for word in words for part in (word, word.split(".")[0])}
        for missing in cited(source, at) if at is not None and "fn " in source.lines[at] else ():
            if missing not in known:
                yield "%s: no clause of %s with %s" % (page, "::".join(names), missing)


def wrong_uses():
    """The names that definitions, sources and the page on a first proof bring in of a file of definitions that has none of this name."""
    page = "docs/FIRST_PROOF.md"
    places = [(page, api_names.uses_of(common.read(page), 0)[0])]
    for crate in api_source.LIBRARIES:
        places += [("%s, %s" % (crate, name), specs.names) for name, specs in api_names.all_specs(crate).items()]
        texts = {name: "\n".join(api_source.source_of(crate, name).lines) for name in api_source.source_names(crate)}
        places += [("%s, %s" % (crate, name), api_names.uses_of(text, indent)[0]) for name, text in texts.items() for indent in (0, 4)]
    for place, target in ((place, target) for place, names in places for target in names.values()):
        if target.kind == "definition" and not api_names.definition(target.crate, *target.path):
            yield "%s: no definition %s of %s" % (place, ".".join(target.path), target.crate)


def faults(folder, site):
    names = [name for name in sorted(os.listdir(folder)) if name.endswith(".html") and name != "inspector.html"]
    texts = {name: common.read(os.path.join(folder, name)) for name in names}
    ids = {name: re.findall(r'<\w[^>]*? id="([^"]*)"', text) for name, text in texts.items()}
    yield from invalid(folder, ids)
    yield from wrong_links(folder, texts, ids)
    yield from missing_items(site, ids)
    yield from sorted({*site.missing, *wrong_uses()})
    yield from api_standard.faults(site, ids[api_pages.STANDARD])
    yield from sorted("%s: nothing is known of %s in a clause" % pair for pair in site.unknown)


def counts(files, site, found):
    """What the check counted, in a line."""
    items = len(list(listed_items()))
    pages = sum(name.endswith(".html") for name in files)
    said = {0: "no faults", 1: "one fault"}.get(len(found), "%d faults" % len(found))
    rest = "%d items, %d cited definitions, %d items without a doc comment" % (items, len(site.cited_by), len(site.without_doc))
    return "%s: %d pages, %s" % (said, pages, rest)
