"""Writes the parts of an HTML reference: doc comments, signatures, clauses and definitions, with links for their names."""
import html
import re
import urllib.parse

import api_names

RUST_WORD = re.compile(r"'\w+|(?:\w+::)+\w+|[^\W\d]\w*|//.*|\s+|[^\w\s]+|\w+")
RUST_KEYWORDS = frozenset("pub fn struct enum trait impl for where const type mut dyn unsafe self Self ghost".split())
KEYWORDS = frozenset("abbrev unfoldable pub record data where do if then else λ requires ensures ensures*".split())


def escaped(text):
    return html.escape(text, quote=True)


def link(href, text):
    """A link if there is an address; the text is HTML already."""
    return '<a href="%s">%s</a>' % (escaped(href), text) if href else text


def span(kind, text):
    return '<span class="%s">%s</span>' % (kind, escaped(text))


def code(text):
    """Code; the text is HTML already."""
    return "<code>%s</code>" % text


def details(head, text, kind=""):
    """A text that is folded below a head."""
    return "<details%s><summary>%s</summary>%s</details>" % (' class="%s"' % kind if kind else "", head, text)


def anchor(*words):
    """An id that a link can end with."""
    return urllib.parse.quote(".".join(words), safe=".-_")


def rust(text, target, link_of):
    """Code in Rattle, in which the names of items are links. `target` says what a name stands for, `link_of` where that is."""
    out = []
    for word in RUST_WORD.findall(text):
        if word in RUST_KEYWORDS:
            out.append(span("k", word))
        elif word.startswith("//") or word.startswith("'"):
            out.append(span("c" if word[0] == "/" else "l", word))
        else:
            first = word.split("::")[0]
            found = target(first) if first[:1].isupper() else None
            href = link_of(found, word.split("::")[1:]) if found else None
            out.append(link(href, escaped(word)))
    return "".join(out)


def formula(text, scope, link_of):
    """A definition, or what a clause says, in which the names of definitions and items are links."""
    out, last, trait = [], "", None
    for word in api_names.WORD.findall(text):
        if word in KEYWORDS:
            out.append(span("k", word))
        elif word.startswith(("--", "//")) or word[0] == '"':
            out.append(span("s" if word[0] == '"' else "c", word))
        elif word[0] == "." and last == "⟧" and trait:
            href = link_of(trait._replace(path=(*trait.path, word[1:])), [])
            out.append("." + link(href, escaped(word[1:])))
        elif word[0] in "(){}[],;." or word.isspace():
            out.append(escaped(word))
        else:
            trait = scope.target(word) if last == "as" else trait
            trait = trait if trait and trait.kind == "item" else None
            target = scope.target(word)
            href = link_of(target, []) if target else None
            # Of `x.field` only `x` is a link, but of `module.name` the whole.
            first, dot, rest = word.partition(".")
            is_whole = first in scope.aliases or word in scope.names or not dot
            out.append(link(href, escaped(word)) if is_whole else link(href, escaped(first)) + escaped(dot + rest))
        last = last if word.isspace() else word
    return "".join(out)


# What a clause or a ghost member begins with, its label among it.
LABELED = re.compile(r"(\w+\*?)( \w+)?")


def clause(text, scope, link_of):
    """A clause, or what a ghost member is. Its label is no name of a definition."""
    word, label = LABELED.match(text).groups("")
    return span("k", word) + escaped(label) + formula(unlabeled(text), scope, link_of)


def unlabeled(text):
    return text[LABELED.match(text).end() :]


def cited(text, scope, kind="definition"):
    """The definitions that a clause names, in their order, or what else it names of another kind."""
    targets = (scope.target(word) for word in api_names.WORD.findall(text) if word[:1] not in '".')
    return list(dict.fromkeys(target for target in targets if target and target.kind == kind))
