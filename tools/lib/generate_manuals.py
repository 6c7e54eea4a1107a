"""Writes manual pages of the calls that most programs in C need, from the comments of the sources that the header has too.

    tools/generate manuals OUT            writes them into the folder OUT, as pulleynavy_parse.3 and so on
    tools/generate manuals --check        says whether the sources have each call, and writes nothing

The pages have the date of the release. The header documents all calls.
"""
import datetime
import os
import re

import common
import generate_header as header

# Events from memory and from chunks, the items of a section, and what is done with a fault or a whole module.
CALLS = ["parser_init", "parse", "feed_init", "feed_push", "feed_step", "feed_finish", "items_init", "next_exports", "format_fault", "strip"]
CALLS = ["pulleynavy_" + name for name in CALLS]


def escaped(text):
    """A line of text in roff, where a word in backquotes is bold."""
    text = text.replace("\\", "\\e").replace("-", "\\-")
    text = re.sub(r"`([^`]*)`", r"\\fB\1\\fP", text)
    return "\\&" + text if text[:1] in (".", "'") else text


def described(comment):
    """The lines of a comment: paragraphs, lists, examples, and sections for errors and for the standard."""
    is_list, before = False, ".Sh DESCRIPTION"
    yield before
    for is_code, part in header.paragraphs(comment):
        text = " ".join(part)
        is_item = not is_code and text.startswith("* ")
        lines = [".Bl -bullet" if is_item else ".El"] * (is_item != is_list)
        standard = re.fullmatch(r"\(((?:Core specification|Tool conventions).*)\)", text)
        if is_code:
            lines += [".Sh EXAMPLES"] * (before != "code") + [".Bd -literal -offset indent", *(escaped(line.replace("`", "\\(ga")) for line in part), ".Ed"]
        elif is_item:
            lines += [".It", escaped(text[2:])]
        elif text.startswith("Errors: ") or standard:
            lines += [".Sh STANDARDS" if standard else ".Sh ERRORS", escaped(standard[1] if standard else text[len("Errors: ") :])]
        else:
            lines += [".Pp"] * (before != ".Sh DESCRIPTION") + [escaped(text)]
        yield from lines
        is_list, before = is_item, "code" if is_code or before == "code" else text
    if is_list:
        yield ".El"


def written(name, comment, arguments, result):
    """The page of a call."""
    summary = re.split(r"\.(?: |$)", " ".join(header.paragraphs(comment)[0][1]))[0]
    day = datetime.datetime.fromtimestamp(common.date_of_release(), datetime.timezone.utc)
    lines = ['.Dd %s %d, %d' % (day.strftime("%B"), day.day, day.year), ".Dt %s 3" % name.upper(), ".Os Pulleynavy %s" % common.version()]
    lines += [".Sh NAME", ".Nm " + name, ".Nd " + escaped(summary[:1].lower() + summary[1:]), ".Sh LIBRARY", "libpulleynavy (\\-lpulleynavy)"]
    lines += [".Sh SYNOPSIS", ".In pulleynavy.h", ".Ft " + (header.type_of(result) if result else "void"), ".Fo " + name]
    lines += [*('.Fa "%s"' % part for one in arguments for part in header.argument(*one).split(", ")), ".Fc", *described(comment), ".Sh SEE ALSO"]
    others = sorted(other for other in CALLS if other != name)
    return "\n".join(lines + [".Xr %s 3%s" % (other, " ," if other != others[-1] else "") for other in others]) + "\n"


def pages():
    """The pages by their names. The sources have each call, and each has a comment."""
    known = {name: rest for name, *rest in header.all_calls()}
    lacking = [name for name in CALLS if name not in known]
    if lacking:
        common.stop(common.DIFFERS, "the sources do not document %s" % ", ".join(lacking))
    return {name + ".3": written(name, *known[name]) for name in CALLS}


def main():
    given, made = common.out_or_check(__doc__), pages()
    try:
        for name, text in made.items() if given.out else ():
            common.write(os.path.join(given.out, name), text)
    except OSError as error:
        common.stop(common.WRONG_USE, error)
    return 0
