"""Compares the public items of the crate for Rust with those of wasmparser 0.263.0, which surface.txt lists.

    tools/compare surface    names each item of the list that the crate does not have

The items are read from the pages that `cargo doc` writes, so the library need not be built. A line of the list that begins with a minus
sign has items that the crate must not have, and that its README must name.
"""
import os
import re
import subprocess
import tempfile

import cargo
import common

PAGE = re.compile(r"(?:struct|enum|trait|type|fn|constant)\.(\w+)\.html\Z")
MEMBER = re.compile(r'id="(?:method|tymethod|structfield|variant|associatedconstant)\.([\w.]+)"')
# What precedes the members of traits on a page. They are no members of the list.
OF_TRAITS = re.compile(r'id="(?:trait|synthetic|blanket)-implementations"')
# An implementation for the type itself: a trait, which may have parameters, and then the type, which may have some too.
IMPLEMENTED = r'id="impl-(\w+)(?:%%3C[^"]*%%3E)?-for-%s(?:%%3C[^"]*)?"'


def pages(folder):
    """The members and the traits of each public item, by its name."""
    if not cargo.version():
        common.stop(common.NO_PROGRAM, "there is no cargo")
    cargo.offline(folder)
    settings = {**os.environ, "CARGO_TARGET_DIR": folder, "RUSTDOCFLAGS": "-D warnings"}
    words = ["cargo", "doc", "--offline", "--no-deps", "--quiet", "--jobs", "2", "--manifest-path", os.path.join(cargo.CRATE, "Cargo.toml")]
    done = subprocess.run(words, cwd=folder, env=settings, stdout=subprocess.PIPE, stderr=subprocess.STDOUT)
    if done.returncode:
        common.stop(common.NO_PROGRAM, "cargo doc failed\n" + done.stdout.decode(errors="replace")[-3000:])
    found = {}
    place = os.path.join(folder, "doc", "pulleynavy")
    for name in os.listdir(place):
        item = PAGE.match(name)
        if item:
            text = common.read(os.path.join(place, name))
            own = OF_TRAITS.split(text)[0]
            members = {member.replace(".field.", ".") for member in MEMBER.findall(own) if not member.endswith(".fields")}
            traits = set(re.findall(IMPLEMENTED % item[1], text)) | set(re.findall(r'id="impl-(\w+)(?:%3C[^"]*%3E)?-for-%26', text))
            found[item[1]] = members, traits
    return found


def listed():
    """Of each line of the list whether its items are absent, their name, and their members and traits."""
    for line in common.read(cargo.CRATE, "tests", "surface", "surface.txt").splitlines():
        if line.strip() and not line.startswith("#"):
            name, _, rest = line.lstrip("- ").partition(":")
            members, _, traits = rest.partition("|")
            yield line.startswith("-"), name, members.split(), traits.split()


def compared(found, readme):
    """What the crate lacks, and what is listed as absent and isn't, or isn't in the README. Returns the faults, and what is listed."""
    faults, wanted = [], {}
    for is_absent, name, members, traits in listed():
        have, implemented = found.get(name, (set(), set()))
        if is_absent:
            for member in members or [name]:
                if member in (have if members else found):
                    faults.append("%s: the crate has %s, which is listed as absent" % (name, member))
                if "`%s" % member not in readme and "::%s`" % member not in readme:
                    faults.append("%s: the README does not name %s" % (name, member))
            continue
        wanted.setdefault(name, (set(), set()))
        wanted[name][0].update(members)
        wanted[name][1].update(traits)
        if name not in found:
            faults.append("%s: absent" % name)
            continue
        faults.extend("%s: no %s" % (name, member) for member in members if member not in have)
        faults.extend("%s: is not %s" % (name, trait) for trait in traits if trait not in implemented)
    return faults, wanted


def main():
    common.parser(__doc__).parse_args()
    with tempfile.TemporaryDirectory() as folder:
        found = pages(folder)
    faults, wanted = compared(found, common.read(cargo.CRATE, "README.md"))
    count = len(wanted) + sum(len(members) + len(traits) for members, traits in wanted.values())
    return common.tell(faults, "%d items of wasmparser, %d differ" % (count, len(faults)), None)
