"""How the tools call the compiler of the toolchain, over libraries that a checkout proved."""
import functools
import os
import shutil
import subprocess

import common

LINUX = "x86_64-unknown-linux-gnu"
# Stands in for clang: keeps its input, which is the only word that names a file, and its words, and hands them on.
KEEPER = """#!/bin/sh
for word; do if [ -f "$word" ]; then cp "$word" "%(kept)s/module"; fi; done
printf '%%s\\n' "$@" > "%(kept)s/words"
exec "%(clang)s" "$@"
"""


@functools.lru_cache(maxsize=None)
def folder():
    """The folder of the toolchain, which has the page that `rt doc` names."""
    if not shutil.which("rt"):
        common.stop(common.NO_PROGRAM, "rt is not on the path")
    return os.path.dirname(subprocess.run(["rt", "doc"], stdout=subprocess.PIPE, check=True).stdout.decode().strip())


@functools.lru_cache(maxsize=None)
def version():
    return subprocess.run(["rt", "version"], stdout=subprocess.PIPE, check=True).stdout.decode().strip()


def rlib(crate):
    """Where a library is once it is proved."""
    return os.path.join(common.TOP, "crates", crate, "out", "rlib", crate + ".rlib")


def command(crate, root, names):
    """The command that proves and builds a crate over these libraries, those of the checkout and of the toolchain, for its folder. What it is
    built for and where to is still missing."""
    of_kit = os.path.join(folder(), "rlibs")
    words = [folder() + "/bin/rattle", "build", "--crate-name", crate, root, "--extern", "std=%s/std.rlib" % of_kit, "-L", "dependency=" + of_kit]
    for name in names:
        path = os.path.join(of_kit, name + ".rlib")
        path = path if os.path.isdir(path) else rlib(name)
        if not os.path.isdir(path):
            common.stop(common.NO_PROGRAM, "%s is not proved in %s" % (name, common.TOP))
        words += ["--extern", "%s=%s" % (name, path), "-L", "dependency=" + os.path.dirname(path)]
    words += ["--links", crate + "=", "--antt-project", folder() + "/rattle/logic/antt-project.json"]
    return [*words, "--logic-built", folder() + "/logic_built"]


def build_command(crate):
    """The command for a crate of crates.txt."""
    root = "src/main.rt" if common.is_program(crate) else "src/lib.rt"
    return command(crate, root, common.crates()[crate])


def link_program(path, made):
    """The command that links the object file of a program, with what it needs of the toolchain."""
    return link_command(LINUX, path, made, *(os.path.join(folder(), "c", name) for name in ("libos_c.a", "liblibc_c.a")))


def link_command(triple, path, *objects, stack=None):
    """The command that links what was built into the file at this path."""
    words = [folder() + "/bin/rattle-link", "--target", triple, "--toolchain", folder() + "/toolchain"]
    return words + (["--stack", str(stack)] if stack else []) + ["-o", path, *objects]


def llvm():
    """The folder of LLVM in the toolchain."""
    return os.path.join(folder(), "toolchain")


def clang():
    return os.path.join(llvm(), "bin", "clang")


def keeping(kept):
    """The folder of an LLVM whose clang keeps in `kept` the last module that it is given, from which it makes the object, and its words."""
    stand_in = os.path.join(kept, "toolchain")
    os.makedirs(os.path.join(stand_in, "bin"))
    others = [name for name in os.listdir(llvm()) if name != "bin"]
    others += [os.path.join("bin", name) for name in os.listdir(os.path.join(llvm(), "bin")) if name != "clang"]
    for name in others:
        os.symlink(os.path.join(llvm(), name), os.path.join(stand_in, name))
    os.chmod(common.write(os.path.join(stand_in, "bin", "clang"), KEEPER % {"kept": kept, "clang": clang()}), 0o755)
    return stand_in


def text_command(kept, text):
    """The command that writes the kept module as text, with the order of uses, by which registers are chosen."""
    return [clang(), "-S", "-emit-llvm", "-Xclang", "-emit-llvm-uselists", "-Xclang", "-disable-llvm-passes", "-O3", "-x", "ir", os.path.join(kept, "module"), "-o", text]


def compile_command(kept, module, made):
    """The command that compiles a module as the kept one was compiled."""
    words = common.read(os.path.join(kept, "words")).replace(os.path.join(kept, "toolchain"), llvm()).splitlines()
    words[words.index("ir") + 1], words[words.index("-o") + 1] = module, made
    return [clang(), *words]
