"""Markdown as HTML, by markdown-it: doc comments and documents. In both, code may be a link, and a document's links lead to the site."""
import html
import importlib.util
import os
import re
import subprocess
import sys

import common


def has_library():
    """Whether this Python has markdown-it. If only Debian's own Python has it, that runs the tool instead."""
    if importlib.util.find_spec("markdown_it"):
        return True
    debian = "/usr/bin/python3"
    has = os.path.realpath(sys.executable) != os.path.realpath(debian) and os.path.exists(debian)
    if has and not subprocess.run([debian, "-c", "import markdown_it"], stderr=subprocess.DEVNULL).returncode:
        os.execv(debian, [debian, *sys.argv])
    common.skip("missing: python3-markdown-it")
    return False


if not has_library():
    sys.exit(0)
from markdown_it import MarkdownIt


def code(self, tokens, at, options, env):
    """Code, which is a link if `find` of the environment knows where to."""
    text = tokens[at].content
    is_linked = sum(token.nesting for token in tokens[:at] if token.type.startswith("link_"))
    href, shown = None if is_linked else env["find"](text), "<code>%s</code>" % html.escape(text)
    return '<a href="%s">%s</a>' % (html.escape(href), shown) if href else shown


PLAIN, DOCUMENT = MarkdownIt("commonmark", {"html": False}), MarkdownIt("commonmark", {"html": True}).enable("table")
for one in (PLAIN, DOCUMENT):
    one.add_render_rule("code_inline", code)


def inline(text, find=lambda name: None):
    """A text with its code, its links and its emphasis."""
    return PLAIN.renderInline(text, {"find": find})


def comment(lines, level, find):
    """A doc comment as HTML; its headings have this level."""
    env = {"find": find}
    tokens = PLAIN.parse("\n".join(lines), env)
    for token in tokens:
        if token.type.startswith("heading_"):
            token.tag = "h%d" % level
    return PLAIN.renderer.render(tokens, PLAIN.options, env)


def document(path, place_of):
    """A document as HTML, with its headings: of each the level, the anchor and the text. `place_of` says where a link leads to in the site, or None."""
    env, headings, known = {"find": lambda name: None}, [], {}
    tokens = DOCUMENT.parse(common.read(path), env)
    for at, token in enumerate(tokens):
        if token.type == "heading_open":
            text = tokens[at + 1].content
            name = common.slug(text)
            known[name] = known.get(name, 0) + 1
            token.attrSet("id", name if known[name] == 1 else "%s-%d" % (name, known[name] - 1))
            headings.append((int(token.tag[1:]), token.attrGet("id"), re.sub(r"[`*]|\[([^\]]*)\]\([^)]*\)", r"\1", text)))
        for inner in token.children or ():
            for name in ("href", "src"):
                target = inner.attrGet(name)
                if target and not re.match(r"\w+:|#", target):
                    file, mark, anchor = target.partition("#")
                    place = place_of(os.path.normpath(os.path.join(os.path.dirname(path), file)))
                    inner.attrSet(name, place + mark + anchor if place else "#")
    return DOCUMENT.renderer.render(tokens, DOCUMENT.options, env), headings
