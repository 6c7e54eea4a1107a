"""Vocabulary that documents, comments and messages avoid, with the field's words in its place."""
import os
import re

import common
from names import prose

# Each pattern, and what to write. Identifiers that the API fixes (`piece`, `ParseAnswer`) are code, which is not looked at.
AVOIDED = [
    (r"\bhand(?:s|ed)? (?:in|on|over|out)\b|\bhanded\b", "pass, forward"),
    (r"\blent\b|\blends\b", "borrowed"),
    (r"\b(?:is|are|was|were|be) told\b|\btells (?:a|the|of)\b", "report"),
    (r"\banswers (?:a|an|the|how|whether|what|\d)\b|\banswered\b", "return"),
    (r"\bwhat is left\b", "remaining"),
    (r"\brid of\b", "without"),
    (r"\bgo(?:es)? over\b", "iterate over, walk"),
    (r"\bpass(?:es|ed)? over\b", "skip"),
    (r"\bso many\b", "n, this many"),
    (r"\ball there\b", "complete"),
    (r"\bwants? of memory\b|\bmemory is wanting\b", "out of memory"),
    (r"\bgives? (?:\w+ )?again\b", "re-export, return again"),
    (r"\btakes? (?:no )?memory\b", "allocate"),
    (r"(?:^|[.:] )The same\.?$", "say what is the same"),
    (r"\bto come\b", "remaining, later"),
    (r"\bstands? (?:there|alone|beside|under)\b", "is"),
    (r"\bin pieces\b|\bthe pieces?\b|\ba piece\b", "chunk"),
    (r"\b(?:is|that are) no text\b", "not valid UTF-8"),
    (r"\bby (?:itself|themselves)\b", "on its own"),
]
AVOIDED = [(re.compile(pattern), instead) for pattern, instead in AVOIDED]
COMMENT = re.compile(r"^\s*(?:///?!?|-- |# |/?\*) ?(.*)|\s(?://|-- |# )(.*)")
CODE = re.compile(r"`[^`]*`")
# Old pages stay as they were written, and generated files follow their sources.
LEFT_OUT = ("docs/history/", "prebuilt/", "tools/lib/words.py", "bindings/js/declared")


def texts(path):
    """The numbers and texts of lines that are prose: all of a document, and the comments of code."""
    if path.endswith(".md"):
        yield from prose(path)
        return
    for number, line in enumerate(common.read_bytes(path).decode(errors="replace").split("\n"), 1):
        found = COMMENT.search(line)
        if found:
            yield number, found[1] or found[2] or ""
        elif '"""' in line:
            yield number, line


def faults(paths):
    for path in paths:
        name = os.path.relpath(path, common.TOP)
        if name.startswith(LEFT_OUT):
            continue
        for number, text in texts(path):
            for pattern, instead in AVOIDED:
                found = pattern.search(CODE.sub("", text))
                if found:
                    yield "%s:%d: %r; write: %s" % (name, number, found[0], instead)
