"""Writes the pages of an HTML reference of the libraries: one for each crate, one of all definitions, and an index."""
import functools
import json
import re

import api_names
import api_source
import api_text
import common
from api_source import first_paragraph, summary
import markdown
from api_text import anchor, code, details, escaped, formula, link, rust, span
from markdown import inline

# The groups of the items of a crate, with the names of one and of several.
GROUPS = {
    "struct": ("struct", "structs"),
    "enum": ("enum", "enums"),
    "trait": ("trait", "traits"),
    "fn": ("function", "functions"),
    "type": ("type alias", "type aliases"),
    "const": ("constant", "constants"),
    "law": ("law", "laws"),
}
CRATES, DEFINITIONS, STANDARD = "crates.html", "definitions.html", "standard.html"
ABOUT_LAWS = (
    "Laws state what follows from the contracts: properties of whole iterations, of several calls, of comparisons and copies. "
    "A law does nothing at run time; a program that calls one has its contract, and a proof may cite it."
)
ABOUT_DEFINITIONS = "The definitions of the crates: those that contracts cite, and those that these use in turn."
# Words of clauses that are of the language.
KNOWN = ("self", "result", "Self", "Type", "Unit", "_", "sem", "𝓛", "refl", "tt")
# Traits of the standard library whose implementations say nothing that a reader looks for.
PLAIN = ("Debug", "fmt::Debug", "Drop")
PAGE = common.read("page", "site", "page.html")


def breakable(name):
    """A name that may be broken where its words begin."""
    return re.sub(r"(_+|::|(?<=[a-z0-9])(?=[A-Z]))(?=.)", r"\1<wbr>", escaped(name))


def kind_of(module, item):
    """The group of an item."""
    return "law" if "law" in module.path.split("/")[-1] else item.kind.split()[-1]


# ---- where everything is


class Site:
    """All that the pages show, and where each name is on them."""

    def __init__(self):
        self.modules = {crate: list(api_source.modules(crate)) for crate in api_source.LIBRARIES}
        self.places, self.index, self.missing, self.without_doc, self.cited_by = {}, [], [], [], {}
        self.of_types, self.of_traits, self.parts, self.ghosts, self.unknown, self.words = {}, {}, {}, {}, set(), {}
        for crate, modules in self.modules.items():
            self.add_to_index(crate, "crate", crate + ".html", api_source.about(crate))
            for module in modules:
                for item in module.items:
                    self.place_item(crate, module, item)
        for crate in api_source.LIBRARIES:
            self.place_implementations(crate)

    def add_to_index(self, name, kind, place, doc):
        """Notes what a search says of a name."""
        self.index.append((name, kind, place, summary(doc).replace("`", "")))

    def place_item(self, crate, module, item):
        self.add((crate, item.name), kind_of(module, item), module.source.doc(item.at))
        for part in module.source.parts(item):
            self.add((crate, item.name, part.name), "variant" if item.kind == "enum" else "field", module.source.doc(part.at))
        for name, _, at in module.source.ghosts(item.at) if item.kind == "trait" else ():
            self.ghosts.setdefault((crate, item.name), []).append(name)
            self.add((crate, item.name, name), "ghost", module.source.doc(at))
        for other, member in api_source.members(module, item.name):
            self.add((crate, item.name, member.name), member.kind, other.source.doc(member.at))

    def add(self, key, kind, doc):
        """Notes where an item is. A search finds all but fields and ghost members."""
        self.places[key] = "%s.html#%s" % (key[0], anchor(kind, *key[1:]))
        name = "::".join(key[1:])
        if kind in ("variant", "method", "const") and len(key) == 3:
            self.parts.setdefault((key[0], key[-1]), []).append(self.places[key])
        if kind not in ("field", "ghost"):
            self.add_to_index(name, kind, self.places[key], doc)
        if not doc:
            self.without_doc.append("%s::%s" % (key[0], name))

    def place_implementations(self, crate):
        """Notes the implementations of traits, under the type and under the trait, as far as these are items of the same crate."""
        for name in api_source.source_names(crate):
            source = api_source.source_of(crate, name)
            names = api_names.code_names(crate, source)
            for one in [one for one in source.impls if one.trait]:
                module = api_source.Module(crate, name, source, [])
                targets = [names.get(re.split("<|::", word or "")[0]) for word in (one.type, one.trait)]
                of_type, of_trait = ((target.crate, *target.path) if target else None for target in targets)
                is_here = of_type in self.places and of_type[0] == crate
                if is_here:
                    self.of_types.setdefault(of_type, []).append((module, one))
                if of_trait in self.places:
                    self.of_traits.setdefault(of_trait, []).append((module, one, is_here))

    def link_of(self, target, rest=()):
        """Where what a name stands for is, or None."""
        if target.kind == "definition":
            found = api_names.definition(target.crate, *target.path)
            return definition_link(found) if found and found.crate in self.modules else None
        key = (target.crate, *target.path)
        return (self.places.get((*key, *rest)) or self.places.get(key)) if target.kind == "item" else None

    def only_one(self, crate, name):
        """Where the variant, the method or the constant with this name is, if there is one in the crate. Otherwise, if the name is no plain
        word, the only one of the other libraries, of which an item counts too."""
        found = self.parts.get((crate, name), []) if name not in ("None", "Some", "Ok", "Err") else []
        if len(found) != 1 and re.search(r"_|[a-z][A-Z]|[A-Z]{2}", name):
            others = [one for one in api_source.LIBRARIES if one != crate]
            found = [place for one in others for place in [*self.parts.get((one, name), []), self.places.get((one, name))] if place]
        return found[0] if len(found) == 1 else None


# ---- definitions


def definition_link(one):
    return "%s#%s" % (DEFINITIONS, anchor(one.crate, one.module, one.name))


@functools.lru_cache(maxsize=None)
def definition_html(site, one):
    """The text of a definition, with links to those that it uses."""
    specs = api_names.all_specs(one.crate)[one.module]
    itself = {api_names.Target("definition", one.crate, (one.module, name)) for name in (one.name, *one.parts)}
    names = {name: target for name, target in specs.names.items() if target not in itself}
    scope = api_names.Scope(names, specs.aliases, {}, api_names.bound_in(one.text))
    return "<pre>%s</pre>" % code(formula(one.text, scope, site.link_of))


def comment_html(lines):
    return "<p>%s</p>" % inline(" ".join(lines)) if lines else ""


def framed_definition(site, one, where, more=""):
    """A definition on another page than its own, with its comment."""
    head = "%s %s" % (link(definition_link(one), code(escaped(one.name))), span("where", where))
    return '<div class="def"><p class="head">%s</p>%s%s%s</div>' % (head, comment_html(one.comment), definition_html(site, one), more)


def folded_definitions(site, found, others):
    """The definitions that a clause cites, folded. Of those of the standard library it says only where they are."""
    # Without the prelude and operators.
    library = [path for path in (target.path for target in others) if not path.startswith("Prelude.") and re.match(r"\w", path.split(".")[-1])]
    names = [one.name for one in found] + [path.split(".")[-1] for path in library]
    out = [framed_definition(site, one, "%s, %s" % (one.crate, one.module)) for one in found]
    if library:
        out.append("<p>In Rattle's standard library: %s.</p>" % ", ".join(code(escaped(path)) for path in library))
    return details("Definitions: " + ", ".join(code(escaped(name)) for name in names), "".join(out), "cited") if out else ""


# ---- items of a crate


class Writer:
    """Writes the items of a module of a crate."""

    def __init__(self, site, module):
        self.site, self.module, self.source = site, module, module.source
        self.code = api_names.code_names(module.crate, module.source)
        self.names, self.aliases = api_names.uses_of("\n".join(module.source.lines), 0)

    def rust(self, text):
        return code(rust(text, self.code.get, self.site.link_of))

    def signature(self, text):
        return '<pre class="sig">%s</pre>' % self.rust(text)

    def code_link(self, owner):
        """Returns what finds the item that code in a doc comment of this item names."""

        def find(text):
            first, *rest = text.replace("()", "").split("::")
            places, crate = self.site.places, self.module.crate
            if not re.fullmatch(r"\w+", first) or text == owner:
                return None
            if first in api_source.LIBRARIES:
                return places.get((first, *rest)) if rest else None if first == crate else first + ".html"
            target = self.code.get(first) or api_names.Target("item", crate, (first,))
            known = places.get((crate, owner, first, *rest)) or self.site.link_of(target, rest)
            # The fault with this name, or the other error of a program that lists or dumps.
            known = known or places.get(("wasm_base", "Fault", first)) or places.get(("wasm_io", "ListError", first))
            is_parameter = re.search(r"\b%s: " % first, "\n".join(self.source.lines))
            return known or (None if is_parameter else self.site.only_one(crate, first))

        return find

    def doc(self, at, level, owner):
        doc = self.source.doc(at)
        return '<div class="doc">%s</div>' % markdown.comment(doc, level, self.code_link(owner)) if doc else ""

    def ghost_names(self, at, outer):
        """The ghost members that clauses may name here: those of the trait around, and of the traits that bound a type."""
        found = {}
        for line in (at, outer):
            text = self.source.signature(line)[0] if line is not None else ""
            for name, bounds in re.findall(r"\b([A-Z]\w*): ([^,>{(]+)", text):
                for trait in re.findall(r"[A-Z]\w*", bounds):
                    found.update(("%s.%s" % (name, ghost.path[-1]), ghost) for ghost in self.ghosts_of(trait))
            head = re.match(r"(?:pub trait|impl(?:<.*?>)?) (\w+)", text)
            found.update((ghost.path[-1], ghost) for ghost in (self.ghosts_of(head[1]) if head else ()))
        return found

    def ghosts_of(self, name):
        trait = self.code.get(name)
        names = self.site.ghosts.get((trait.crate, *trait.path), ()) if trait else ()
        return [trait._replace(path=(*trait.path, ghost)) for ghost in names]

    def scope(self, at, outer, text):
        """What names stand for in a clause of what is declared at a line, in an implementation or a trait that begins at `outer`."""
        inner = self.source.lines[outer : self.source.end_of(outer)] if outer is not None else []
        names, aliases = api_names.uses_of("\n".join(inner), 4)
        types = {name: target for name, target in self.code.items() if name.lstrip("_")[:1].isupper()}
        return api_names.Scope({**self.ghost_names(at, outer), **self.names, **names}, {**self.aliases, **aliases}, types, api_names.bound_in(text))

    def unknown_words(self, at, outer, text, scope):
        """The words of a clause that stand for nothing that is known: no definition, item, parameter or binder."""
        around = " ".join(self.source.signature(place)[0] for place in (at, outer) if place is not None)
        known = {*re.findall(r"(\w+):", around), *re.findall(r"[A-Z]\w*", around), *scope.names, *scope.bound, *KNOWN, *api_text.KEYWORDS}
        for word in api_names.WORD.findall(re.sub(r"⟦.*?⟧|«\w+»", "", text, flags=re.S)):
            first = word.split(".")[0]
            if re.match(r"[^\W\d]", word) and first not in known and not scope.target(word):
                yield first

    def clause(self, text, at, outer, owner, place):
        """The clause at a place of what is declared at a line, above it what it proves, and under it the definitions that it cites."""
        scope, said, key = self.scope(at, outer, text), api_text.unlabeled(text), (self.module.crate, *owner.split("::"))
        where = "%s, %s" % (self.module.crate, owner)
        self.site.words.setdefault(key, set()).update(api_names.WORD.findall(text))
        self.site.unknown.update((where, word) for word in self.unknown_words(at, outer, said, scope))
        known = {}
        for target in api_text.cited(said, scope):
            found = api_names.definition(target.crate, *target.path)
            if found:
                known[found] = None
            else:
                self.site.missing.append("%s: no definition %s" % (where, ".".join(target.path)))
            self.site.cited_by.setdefault(target, {})[key] = None
        proved = "".join("<p>%s</p>" % inline(words) for words in self.source.proved(place))
        shown = "<pre>%s</pre>" % code(api_text.clause(text, scope, self.site.link_of))
        return '<div class="clause">%s%s%s</div>' % (proved, shown, folded_definitions(self.site, known, api_text.cited(said, scope, "std")))

    def clauses(self, at, outer, owner):
        found = "".join(self.clause(text, at, outer, owner, place) for place, text in self.source.clauses(at))
        return '<div class="clauses">%s</div>' % found if found else ""

    def heading(self, level, kind, names, at):
        """The heading of an item, which links to itself."""
        name = anchor(kind, *names)
        where = span("where", "%s.rt:%d" % (self.module.path, at + 1))
        return '<h%d id="%s"><a href="#%s">%s</a>%s</h%d>' % (level, name, name, breakable("::".join(names)), where, level)

    def declared(self, at):
        """A declaration without what does not concern callers: `final` of a method, and `mut` of a parameter."""
        text = re.sub(r"^final ", "", self.source.declared(at))
        return self.signature(re.sub(r"(?<!&)\bmut (?=self\b|\w+: )", "", text))

    def function(self, at, kind, names, level, outer=None):
        said = self.doc(at, level + 1, names[0]) + self.clauses(at, outer, "::".join(names))
        return "<section>%s%s%s</section>" % (self.heading(level, kind, names, at), self.declared(at), said)

    def member(self, member):
        """A method, or a constant or a type of a type or of a trait."""
        names = member.owner, member.name
        if member.kind == "method":
            return self.function(member.at, "method", names, 4, self.outer_of(member.at))
        before = "pub " if self.source.lines[member.at].startswith("    pub ") else ""
        parts = self.heading(4, member.kind, names, member.at), self.signature(before + member.signature + ";"), self.doc(member.at, 5, member.owner)
        return "<section>%s%s%s</section>" % parts

    def members(self, item):
        out, links = [], []
        for module, member in api_source.members(self.module, item.name):
            links.append(link("#" + anchor(member.kind, item.name, member.name), breakable(member.name)))
            out.append(Writer(self.site, module).member(member))
        jump = '<p class="jump small">%s</p>' % "".join(links) if len(links) > 3 else ""
        return jump + "".join(out)

    def outer_of(self, at):
        """The line at which the implementation or the trait around a line begins."""
        return next(place for place in range(at, -1, -1) if re.match(r"(pub )?(impl|trait)\b", self.source.lines[place]))

    def ghost_members(self, item):
        out = []
        for name, text, at in self.source.ghosts(item.at) if item.kind == "trait" else ():
            parts = self.heading(4, "ghost", (item.name, name), at), self.doc(at, 5, item.name), self.clause(text, at, item.at, item.name, at)
            out.append("<section>%s%s%s</section>" % parts)
        return "".join(out)

    def parts(self, item):
        """The variants of an enum, or the public fields of a struct."""
        kind, out = "variant" if item.kind == "enum" else "field", []
        for part in self.source.parts(item):
            name = anchor(kind, item.name, part.name)
            inner = "".join("<dt>%s</dt><dd>%s</dd>" % (self.rust(one.text), self.doc(one.at, 5, item.name)) for one in part.parts)
            out.append('<dt id="%s"><a href="#%s" aria-label="Link">§</a>%s</dt>' % (name, name, self.rust(part.text)))
            out.append("<dd>%s%s</dd>" % (self.doc(part.at, 5, item.name), "<dl>%s</dl>" % inner if inner else ""))
        return '<h4 class="plain">%ss</h4><dl class="parts">%s</dl>' % (kind.capitalize(), "".join(out)) if out else ""

    def declaration(self, item):
        """The declaration of an item that is no function, without what is private in it."""
        if item.kind in ("const", "type"):
            return (self.source.declared(item.at) if item.kind == "type" else item.signature) + ";"
        opens = self.source.lines[item.at].endswith("{")
        return item.signature.replace("(..)", "(/* private */)") + (" { .. }" if opens else ";")

    def item(self, item):
        """An item with everything under it."""
        kind = kind_of(self.module, item)
        if item.kind.endswith("fn"):
            return self.function(item.at, kind, (item.name,), 3)
        out = [self.heading(3, kind, (item.name,), item.at), self.signature(self.declaration(item)), self.doc(item.at, 4, item.name)]
        out += [part(item) for part in (self.parts, self.ghost_members, self.members, self.implementations)]
        return '<section class="item">%s</section>' % "".join(out)

    def implementation(self, one):
        """An implementation of a trait: what it says of the trait's ghost members, and its functions that say something."""
        out = [self.doc(one.at, 5, one.type)]
        types = [line.strip() for line in self.source.lines[one.at : self.source.end_of(one.at)] if re.match(r"    (type|const) \w", line)]
        if types:
            out.append(self.signature("\n".join(types)))
        for name, text, at in self.source.ghosts(one.at):
            said = markdown.comment(self.source.comment(at), 5, self.code_link(one.type))
            out.append(said + self.clause(text, at, one.at, "%s::%s" % (one.type, name), at))
        for at in [at for at in range(one.at, self.source.end_of(one.at)) if api_source.METHOD.match(self.source.lines[at])]:
            said = self.doc(at, 5, one.type) + self.clauses(at, one.at, one.type)
            out.append(self.declared(at) + said if said else "")
        head, inner = self.rust(one.header), "".join(out)
        return details(head, inner, "impl") if inner else '<p class="impl">%s</p>' % head

    def implementations(self, item):
        """What a type implements, or what implements a trait."""
        out, key = [], (self.module.crate, item.name)
        for other, one, is_here in self.site.of_traits.get(key, []) if item.kind == "trait" else ():
            writer = Writer(self.site, other)
            is_short = is_here or other.crate != self.module.crate
            out.append('<p class="impl">%s</p>' % writer.rust(one.header) if is_short else writer.implementation(one))
        if item.kind != "trait":
            of_type = self.site.of_types.get(key, [])
            shown = [Writer(self.site, other).implementation(one) for other, one in of_type if one.trait not in PLAIN]
            plain = sorted({one.trait.split("::")[-1] for _, one in of_type if one.trait in PLAIN})
            out = [derived("Derives", self.source.derives(item.at)), *shown, derived("Implements", plain)]
        found = "".join(out)
        return '<h4 class="plain">Implementations</h4>%s' % found if found else ""


def derived(word, names):
    return '<p class="derives">%s %s.</p>' % (word, ", ".join(map(code, names))) if names else ""


# ---- pages


def page(title, main, side="", here=""):
    places = [("index.html", "Start"), ("docs.html", "Documents"), (CRATES, "Crates"), (DEFINITIONS, "Definitions"), (STANDARD, "Standard"), ("inspector.html", "Inspector")]
    links = "".join('<a href="%s"%s>%s</a>' % (href, ' aria-current="page"' if href == here else "", text) for href, text in places)
    frame = '<nav class="side" aria-label="On this page">%s</nav>' % side if side else ""
    return PAGE % {"title": escaped(title), "version": escaped(common.version()), "links": links, "side": frame, "main": main}


def part(level, place, text, after=""):
    """A heading that links to itself."""
    return '<h%d id="%s"><a href="#%s">%s</a>%s</h%d>' % (level, place, place, text, after, level)


def side_list(head, links, is_open=True):
    """A list at the side of a page."""
    return "<details%s><summary>%s</summary><ul>%s</ul></details>" % (" open" if is_open else "", head, "".join("<li>%s</li>" % one for one in links))


def jump_to(rows):
    """Links to parts of a page, each with how much it has."""
    return '<p class="jump">%s</p>' % "".join('<a href="#%s">%s <span>%d</span></a>' % row for row in rows)


def counted(number, word):
    return "%d %s%s" % (number, word, "" if number == 1 else "s")


def grouped(modules):
    """The items of a crate by their groups, each group in the order of names. Laws keep that of the sources."""
    pairs = [(module, item) for module in modules for item in module.items]
    found = {kind: [pair for pair in pairs if kind_of(*pair) == kind] for kind in GROUPS}
    return {kind: of if kind == "law" else sorted(of, key=lambda pair: pair[1].name) for kind, of in found.items() if of}


def contents(kind, pairs):
    """The items of a group with their summaries."""
    rows = ((link("#" + anchor(kind, item.name), breakable(item.name)), inline(summary(module.source.doc(item.at)))) for module, item in pairs)
    return '<ul class="contents">%s</ul>' % "".join("<li>%s<span>%s</span></li>" % row for row in rows)


def again_html(site, crate):
    """The names of other libraries that a crate re-exports."""
    origins, out = api_names.origins(crate), []
    for other in dict.fromkeys(target.crate for target in origins.values()):
        links = {name: site.link_of(target) for name, target in sorted(origins.items()) if target.crate == other}
        shown = (link(href, code(name)) for name, href in links.items())
        out.append(details("Re-exports %s of %s" % (counted(len(links), "name"), code(other)), "<p>%s</p>" % ", ".join(shown)))
    return "".join(out)


def crate_page(site, crate):
    groups = grouped(site.modules[crate])
    titles = {kind: GROUPS[kind][1].capitalize() for kind in groups}
    side = ["<p>%s</p>" % escaped(crate)]
    root = Writer(site, api_source.Module(crate, "lib", api_source.source_of(crate, "lib"), []))
    out = ["<h1>Crate <span>%s</span></h1>" % escaped(crate), markdown.comment(api_source.about(crate), 2, root.code_link(crate))]
    out += [jump_to((kind, titles[kind], len(pairs)) for kind, pairs in groups.items()), again_html(site, crate)]
    for kind, pairs in groups.items():
        side.append(side_list(titles[kind], [link("#" + anchor(kind, item.name), breakable(item.name)) for _, item in pairs], kind != "const"))
        out += [part(2, kind, titles[kind]), "<p>%s</p>" % ABOUT_LAWS if kind == "law" else "", contents(kind, pairs)]
        out += [Writer(site, module).item(item) for module, item in pairs]
    return page("%s - Pulleynavy" % crate, "\n".join(out), "\n".join(side))


def citing(site, one):
    """The items whose clauses name a definition, as links."""
    keys = {}
    for name in (one.name, *one.parts):
        keys.update(site.cited_by.get(api_names.Target("definition", one.crate, (one.module, name)), {}))
    return [link(site.places.get(key) or site.places[key[:2]], code(escaped("::".join(key[1:])))) for key in keys if key[:2] in site.places]


def definition_entry(site, one):
    """A definition on its own page."""
    site.add_to_index(one.name, "definition", definition_link(one), one.comment)
    place, found = anchor(one.crate, one.module, one.name), citing(site, one)
    head = '<p class="head" id="%s"><a href="#%s">%s</a></p>' % (place, place, code(escaped(one.name)))
    cited = details("Cited by " + counted(len(found), "item"), "<p>%s</p>" % ", ".join(found), "cited") if found else ""
    return '<div class="def">%s%s%s%s</div>' % (head, comment_html(one.comment), definition_html(site, one), cited)


def definitions_page(site):
    out, side, jump = [], [], []
    for crate in api_source.LIBRARIES:
        files = {name: specs for name, specs in api_names.all_specs(crate).items() if specs.definitions}
        side.append(side_list(crate, [link("#" + anchor(crate, name), escaped(name)) for name in files]))
        jump.append((crate, crate, sum(len(specs.definitions) for specs in files.values())))
        out.append(part(2, crate, crate))
        for name, specs in files.items():
            out.append('<section class="file">' + part(3, anchor(crate, name), name, span("where", "%s/specs/%s.antt" % (crate, name))))
            out += [comment_html(specs.comment), *(definition_entry(site, one) for one in specs.definitions), "</section>"]
    head = "<h1>Definitions</h1><p>%s</p>%s" % (ABOUT_DEFINITIONS, jump_to(jump))
    return page("Definitions - Pulleynavy", head + "\n".join(out), "\n".join(side), DEFINITIONS)


def index_page(site):
    """The crates, and what a reader has to know of the examples and of the contracts."""
    rows, (guide, _) = [], markdown.document("page/site/reference.md", lambda path: path.rpartition("/")[2])
    for crate in api_source.LIBRARIES:
        counts = {kind: len(pairs) for kind, pairs in grouped(site.modules[crate]).items()}
        said = ", ".join("%d %s" % (count, GROUPS[kind][count > 1]) for kind, count in counts.items())
        about = inline(first_paragraph(api_source.about(crate)))
        rows.append("<li>%s<span>%s</span><small>%s</small></li>" % (link(crate + ".html", escaped(crate)), about, said))
    return page("Pulleynavy API", guide.replace("<p>@CRATES@</p>", '<ul class="contents crates">%s</ul>' % "".join(rows)), here=CRATES)


def files(more):
    """All files of the reference by their names, and the site that they show. `more` has what writes further pages, by their names."""
    site = Site()
    found = {crate + ".html": crate_page(site, crate) for crate in api_source.LIBRARIES}
    found[DEFINITIONS] = definitions_page(site)
    found.update((name, write(site)) for name, write in more.items())
    found[CRATES] = index_page(site)
    found["api.css"] = common.read("page", "site", "api.css")
    index = json.dumps(site.index, ensure_ascii=False, separators=(",", ":"))
    found["api.js"] = "const INDEX = %s;\n%s" % (index, common.read("page", "site", "api.js"))
    return found, site
