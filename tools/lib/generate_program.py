"""Writes the help texts, the manual page and the completions of the program pulleynavy from tools/lib/program.py.

    tools/generate program            writes them
    tools/generate program --check    the status is 1 if one is not as it would be written
"""
import os
import re
import textwrap

import common
import program

WIDTH = 79
MAN = "docs/man/pulleynavy.1"
HELP = "crates/wasm_commands/src/help.rt"
COMPLETIONS = "docs/completions/"
COMMANDS = " ".join(program.COMMANDS)
SECTIONS = " ".join([*program.SECTIONS, *program.CUSTOM])


def wrapped(text, first="", rest=None):
    """The text in lines of at most 79 characters."""
    return textwrap.wrap(text, WIDTH, initial_indent=first, subsequent_indent=first if rest is None else rest, break_on_hyphens=False)


# ---- help texts


def options_text(options):
    spelled = [names + ("" if not value else value if value.startswith("[") else " " + value) for names, value, _, _ in options]
    indent = 4 + max(len(word) for word in spelled if len(word) < 16)
    for word, (_, _, _, text) in zip(spelled, options):
        if len(word) < 16:
            yield from wrapped(text, ("  " + word).ljust(indent), " " * indent)
        else:
            yield "  " + word
            yield from wrapped(text, " " * indent)


def help_of_command(name):
    """What `pulleynavy NAME --help` prints."""
    about, first = program.COMMANDS[name], "usage: pulleynavy %s " % name
    # An option in the call is not divided.
    call = re.sub(r"\[[^\[\]]*(\[[^\[\]]*\])?[^\[\]]*\]", lambda found: found[0].replace(" ", "\0"), about["call"])
    lines = [line.replace("\0", " ") for line in wrapped(first + call, "", " " * len(first))]
    for paragraph in about["about"]:
        lines += ["", *wrapped(paragraph)]
    lines += ["", "Options:", *options_text((*about["options"], *program.COMMON)), "", "Exit status:"]
    for status, text in enumerate((about["good"], about["bad"], program.WRONG, program.FAILED)):
        lines += wrapped(text, "  %d  " % status, "     ")
    if "FILE..." in about["call"]:
        lines += ["", *wrapped(program.GREATEST)]
    return "\n".join(lines) + "\n"


def help_of_program():
    lines = ["usage: pulleynavy COMMAND [OPTION]... [FILE]...", "       pulleynavy help [COMMAND]", "       pulleynavy --version", "", *wrapped(program.ABOUT[0]), "", "Commands:"]
    width = max(map(len, program.COMMANDS)) + 2
    lines += ["  %s%s" % (name.ljust(width), about["summary"]) for name, about in program.COMMANDS.items()]
    return "\n".join([*lines, "", *wrapped(program.ABOUT[1])]) + "\n"


def helps():
    """The help texts, by the names of their constants."""
    return {"PROGRAM": help_of_program(), **{name.upper(): help_of_command(name) for name in program.COMMANDS}}


def with_helps(source):
    """The source with the help texts as its constants."""
    for name, text in helps().items():
        code = "const %s: &[u8] = b\"%s\";" % (name, text.replace("\\", "\\\\").replace('"', '\\"'))
        if len(code.splitlines()[0]) > 100:
            code = code.replace("= b", "=\n    b", 1)
        source, count = re.subn(r'const %s: &\[u8\] =\s+b"(?:[^"\\]|\\.)*";' % name, lambda _: code, source)
        if count != 1:
            common.stop(common.DIFFERS, "%s has %d constants %s" % (HELP, count, name))
    return source


# ---- the manual page


def escaped(text):
    """A text for mdoc."""
    return re.sub(r"(?m)^([.'])", r"\\&\1", text.replace("\\", "\\e"))


def sentences(text):
    """Each sentence on a line of its own, as mdoc wants it."""
    return escaped(re.sub(r"(?<=[a-z0-9)'}]\.) (?=[A-Z'])", "\n", text))


def argument(value):
    """The value of an option, or one of two."""
    return " Ar " + value.lower().replace("|", " Ns | Ns Ar ") if value else ""


def man_options(options):
    yield ".Bl -tag -width Ds"
    for names, value, _, text in options:
        flags = " , ".join("Fl " + name[1:] for name in names.split(", "))
        is_optional = value and value.startswith("[")
        yield ".It " + flags + (" Ns Oo Ns = Ns Ar %s Oc" % value[2:-1].lower() if is_optional else argument(value))
        yield sentences(text)
    yield ".El"


def man_call(call):
    """The synopsis of a command."""
    for part in re.findall(r"\[(?:[^\[\]]|\[[^\[\]]*\])*\](?:\.\.\.)?|[^\[\] ]+", call):
        more, inner = " ..." if part.endswith("...") else "", part.rstrip(".")[1:-1]
        option, _, value = inner.partition(" ")
        if not part.startswith("["):
            yield ".Ar " + part.removesuffix("...").lower().replace("=", " Ns = Ns Ar ") + more
        elif inner.startswith("FILE"):
            yield ".Op Ar file" + (" ..." if inner.endswith("...") else "")
        elif "[" in option:
            yield ".Op Fl %s Ns Oo Ns = Ns Ar when Oc" % option[1:].split("[")[0]
        else:
            yield ".Op Fl %s" % option[1:] + argument(value) + more


def manual():
    lines = [".\\\" Made by tools/generate program.", ".Dd November 28, 2026", ".Dt PULLEYNAVY 1", ".Os Pulleynavy", ".Sh NAME", ".Nm pulleynavy", ".Nd " + program.PURPOSE, ".Sh SYNOPSIS"]
    for name, about in program.COMMANDS.items():
        lines += [".Nm", ".Cm " + name, *man_call(about["call"])]
    lines += [".Nm", ".Cm help", ".Op Ar command", ".Nm", ".Fl -help | Fl -version", ".Sh DESCRIPTION"]
    lines += [sentences(program.ABOUT[0]), ".Pp", sentences(program.ABOUT[1])]
    for name, about in program.COMMANDS.items():
        lines += [".Ss " + name, "\n.Pp\n".join(map(sentences, about["about"]))]
        lines += man_options(about["options"])
        lines += [".Pp", "Exit status 0: " + sentences(about["good"]), ".Pp", "Exit status 1: " + sentences(about["bad"])]
    lines += [".Ss Options of each command", *man_options(program.COMMON)]
    lines += [".Sh EXIT STATUS", "The statuses 0 and 1 are said with each command.", ".Bl -tag -width Ds"]
    lines += [".It 2", sentences(program.WRONG), ".It 3", sentences(program.FAILED), ".El", ".Pp", sentences(program.GREATEST), ".Sh NOTES"]
    lines += [*map(sentences, program.NOTES), ".Sh EXAMPLES"]
    examples = (example for about in program.COMMANDS.values() for example in about["examples"])
    lines.append("\n.Pp\n".join("%s\n.Pp\n.Dl %s" % (said, escaped(line)) for said, line in examples))
    return "\n".join(lines) + "\n.Sh SEE ALSO\n.Xr wasm_list 1\n"


# ---- completions


def offered(name):
    """The options of a command that are completed: of each its names, its value and its summary."""
    return [(names.split(", "), value or "", said) for names, value, said, _ in (*program.COMMANDS[name]["options"], *program.COMMON) if said]


def bash():
    words = {name: " ".join(word for names, _, _ in offered(name) for word in names) for name in program.COMMANDS}
    cases = "\n".join('        %s) words="%s" ;;' % pair for pair in words.items())
    return common.read("tools", "lib", "templates", "completion.bash") % (cases, COMMANDS, SECTIONS)


def zsh_option(names, value, said):
    is_optional = value.startswith("[")
    spelling = "'{%s}'" % ",".join(names) if len(names) > 1 else names[0] + ("=-" if is_optional else "")
    values = {"": "", "OUT": ":out:_files", "ID|NAME": ":section:(%s)" % SECTIONS}
    what = "::when:(always auto never)" if is_optional else values.get(value, ":%s:" % value.lower())
    repeated = "*" if value not in ("", "OUT") and not is_optional else ""
    return "            '%s%s[%s]%s'" % (repeated, spelling, said, what)


def zsh():
    cases = []
    for name in program.COMMANDS:
        options = " \\\n".join(zsh_option(*option) for option in offered(name))
        cases.append("    %s)\n        _arguments \\\n%s \\\n            '*:file:_files'\n        ;;" % (name, options))
    commands = " ".join("'%s:%s'" % (name, about["summary"]) for name, about in program.COMMANDS.items())
    return common.read("tools", "lib", "templates", "completion.zsh") % (commands, "\n".join(cases))


def fish():
    lines, first = ["# Completions of pulleynavy for fish. Made by tools/generate program."], "complete -c pulleynavy -f -n __fish_use_subcommand"
    for name, about in [*program.COMMANDS.items(), ("help", {"summary": "print a summary"})]:
        lines.append("%s -a %s -d '%s'" % (first, name, about["summary"]))
    lines += ["%s -l help -d 'print a summary'" % first, "%s -l version -d 'print the version'" % first]
    values = {"": "", "OUT": " -r", "ID|NAME": " -x -a '%s'" % SECTIONS, "[=WHEN]": " -a 'always auto never'"}
    for name in program.COMMANDS:
        for names, value, said in offered(name):
            spelled = " ".join("-l " + word[2:] if word.startswith("--") else "-s " + word[1:] for word in names)
            where = "complete -c pulleynavy -n '__fish_seen_subcommand_from %s'" % name
            lines.append("%s %s%s -d '%s'" % (where, spelled, values.get(value, " -x"), said))
    return "\n".join(lines) + "\n"


def made():
    texts = {HELP: with_helps(common.read(HELP)), MAN: manual(), COMPLETIONS + "pulleynavy.bash": bash()}
    texts |= {COMPLETIONS + "_pulleynavy.zsh": zsh(), COMPLETIONS + "pulleynavy.fish": fish()}
    return {os.path.join(common.TOP, name): text for name, text in texts.items()}


def main():
    return common.generate(__doc__, made)
