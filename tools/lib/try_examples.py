"""Compiles and runs the examples of the doc comments, without proofs.

    tools/try examples                       those of all libraries
    tools/try examples wasm_base wasm_feed   those of these crates

An example is a block that begins with ```rattle in a doc comment of crates/*/src. It is the body of a test: `rt` is the runtime, `alloc` its
allocator, and `?` takes any error. The public names of its crate, of the libraries of that, and of the crates that export its names again are
imported; another crate's are if it says so by `use`. Status 3: `rt` is not on the path.
"""
import os
import re
import shutil
import tempfile

import common
import trial

# The crate that the tests are, and what each test begins and ends with.
CRATE = "doc_examples"
ROOT = "#![tactic(auto)]\n\n%s"
TEST = """use std::test::Fail;
%s
#[test]
fn %s(rt: HostRuntime) -> std::result::Result<(), Fail> {
    let alloc = rt.alloc();
%s
    Ok(())
}
"""
# Names that every test has from the language.
OF_THE_LANGUAGE = {"Result"}
# An example in a doc comment, and a line of it.
EXAMPLE = re.compile(r"^[ \t]*//[/!] ?```rattle[ \t]*\n((?:[ \t]*//[/!].*\n)*?)[ \t]*//[/!] ?```", re.M)
DOC = re.compile(r"[ \t]*//[/!] ?(.*)")


def examples(crate):
    """The examples of a crate: the path, the number of the first line, and the lines."""
    for path in common.files_of(crate):
        text = common.read(path) if path.endswith(".rt") else ""
        for found in EXAMPLE.finditer(text):
            yield path, text.count("\n", 0, found.start(1)) + 1, [DOC.match(line)[1].rstrip() for line in found[1].splitlines()]


def root_of(crate):
    """The root file of a crate, without comments; empty for a program."""
    path = os.path.join(common.TOP, "crates", crate, "src", "lib.rt")
    return re.sub(r"//.*", "", common.read(path)) if os.path.exists(path) else ""


def exporting(crate):
    """The crates that export names of a crate again, through which most users see them."""
    return [name for name in common.crates() if re.search("^pub use %s::" % crate, root_of(name), re.M)]


def exported(crate):
    """The public names of a crate, each with the crate that it is imported from, and those that are traits."""
    names, traits = {}, set()
    text = root_of(crate)
    for several, one in re.findall(r"^pub use [\w:]+::(?:\{([^}]*)\}|(\w+));", text, re.M):
        names.update({name: crate for name in re.findall(r"\w+", several or one)})
    names.update({name: crate for name in re.findall(r"^pub (?:fn|struct|enum|trait|const|type|mod) (\w+)", text, re.M)})
    for path in common.files_of(crate):
        if path.endswith(".rt"):
            traits.update(re.findall(r"^pub trait (\w+)", common.read(path), re.M))
    return names, traits


def visible(crate):
    """The names that an example of a crate sees: its own, those of the libraries, lowest first, and those of crates that export its names again."""
    names, traits = {}, set()
    for of in [crate, *common.crates_of(crate)[:-1], *exporting(crate)]:
        more, are_traits = exported(of)
        names = {**more, **names}
        traits |= are_traits
    return names, traits & set(names)


def imports(names, traits, code):
    """The imports of an example: the names that it has, and all traits."""
    plain = re.sub(r'"(?:\\.|[^"\\])*"|//.*', "", code)
    own = set(re.findall(r"\w+", " ".join(re.findall(r"\b(?:use|struct|enum|fn|trait|const|type) [^;({]*(?:\{[^}]*\})?", plain))))
    wanted = (set(re.findall(r"\w+", plain)) - own | traits - own) & set(names) - OF_THE_LANGUAGE
    return "".join("use %s::%s;\n" % (names[name], name) for name in sorted(wanted))


def written(folder, crates):
    """Writes the crate of tests. The path and the line of each example, by the name of its test."""
    named = {name for crate in crates for _, _, lines in examples(crate) for name in re.findall(r"\buse ((?:wasm|test)_\w+)", "\n".join(lines))}
    again = {name for crate in crates for name in exporting(crate)}
    wanted, places = trial.copied(folder, {*crates, *named, *again}), {}
    source = os.path.join(folder, "crates", CRATE, "src")
    os.makedirs(source)
    for crate in crates:
        names, traits = visible(crate)
        for path, number, lines in examples(crate):
            inner = os.path.splitext(os.path.relpath(path, os.path.join(common.TOP, "crates", crate, "src")))[0]
            test = "%s_%s_%d" % (crate, re.sub(r"\W", "_", inner), number)
            code = "\n".join("    " + line if line else "" for line in lines)
            before = TEST[: TEST.index("%s\n    Ok")] % (imports(names, traits, "\n".join(lines)), test)
            places[test] = os.path.relpath(path, common.TOP), number, before.count("\n")
            common.write(os.path.join(source, test + ".rt"), before + code + TEST[TEST.index("\n    Ok") :])
    common.write(os.path.join(source, "lib.rt"), ROOT % "".join("#[cfg(test)]\nmod %s;\n" % test for test in places))
    trial.listed(folder, CRATE, wanted)
    return places


def in_sources(output, places):
    """What the compiler and the tests print, with the lines of the doc comments."""
    def place(match):
        test, line = match[1], match[2]
        if test not in places:
            return match[0]
        path, number, before = places[test]
        return "%s:%d" % (path, number + (int(line) - before - 1 if line else 0))

    return re.sub(r"(?:[\w./-]*/)?(wasm_\w+_\d+)\.rt(?::(\d+))?", place, output)


def main():
    line = common.parser(__doc__)
    line.add_argument("crates", nargs="*", metavar="CRATE", type=common.one_of("crate", common.crates()), help="crates, instead of all that have examples")
    given = line.parse_args()
    if not shutil.which("rt"):
        common.stop(common.NO_PROGRAM, "rt is not on the path")
    crates = [name for name in common.crates() if name in (given.crates or common.crates()) and list(examples(name))]
    if not crates:
        print("no examples")
        return 0
    with tempfile.TemporaryDirectory() as top:
        folder = os.path.join(top, "copy")
        os.mkdir(folder)
        places = written(folder, crates)
        status, output = trial.tried(os.path.join(folder, "crates", CRATE))
    if status:
        print(in_sources(output, places).rstrip())
    print("%d examples of %d crates: %s" % (len(places), len(crates), "status %d" % status if status else "passed"))
    return common.DIFFERS if status else 0
