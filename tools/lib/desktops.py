"""The C library for other systems: the module that LLVM is given for Linux on x86-64 or aarch64, with the data layout and triple of the other system.

The exports take integers and pointers, and return an integer or write to a pointer of the caller, so the module fits the calling conventions
of all these systems. Each folder of a target has archives, and for Windows and macOS a shared library, whose only imports are memcpy and memmove.
"""
import functools
import itertools
import os
import re
import shutil

import common
import toolchain

HEADER = os.path.join(common.TOP, "crates", "wasm_c", "include", "pulleynavy.h")
# Each target, the target for Linux that it has its module from, and its triple.
TARGETS = {
    "x86_64-windows": ("x86_64", "x86_64-w64-windows-gnu"),
    "aarch64-windows": ("aarch64", "aarch64-w64-windows-gnu"),
    "x86_64-macos": ("x86_64", "x86_64-apple-macosx11.0.0"),
    "aarch64-macos": ("aarch64", "arm64-apple-macosx11.0.0"),
    "x86_64-freebsd": ("x86_64", "x86_64-unknown-freebsd13.0"),
    "riscv64-linux": ("x86_64", "riscv64-unknown-linux-gnu"),
}
# The archives and import libraries for Windows.
LIBRARIES = ("libpulleynavy.a", "libpulleynavy.dll.a", "pulleynavy.dll.lib", "pulleynavy.lib")
# What linkers for Windows call the processors.
MACHINES = {"x86_64": ("x64", "i386:x86-64"), "aarch64": ("arm64", "arm64")}
# How a module begins that isn't text.
BITCODE = b"BC\xc0\xde"
LINES = re.compile(r'^target (datalayout|triple) = ".*"$', re.M)
# The two functions that the library calls, which all systems have. On riscv64 it calls memset too, which LLVM writes as stores elsewhere.
CALLED = ("memcpy", "memmove")
# The system library of macOS, as a linker wants to know it.
STUB = common.read("tools", "lib", "templates", "libSystem.tbd")


def exports():
    """The names that the header declares."""
    return sorted(re.findall(r"^\w[^\n(]*?\b(pulleynavy_\w+)\(", common.read_bytes(HEADER).decode(), re.M))


def retargeted(text, triple):
    """The text of a module with the data layout and triple of another system, as clang writes them for it. Nothing else may change, and the triple has to."""
    words = ["--target=" + triple, "--no-default-config", "-S", "-emit-llvm", "-x", "c", os.devnull, "-o", "-"]
    lines = {found[1]: found[0] for found in LINES.finditer(common.must([toolchain.clang(), *words]))}
    made = LINES.sub(lambda found: lines[found[1]], text)
    differing = [pair for pair in itertools.zip_longest(text.split("\n"), made.split("\n")) if pair[0] != pair[1]]
    kinds = [LINES.fullmatch(line or "") and LINES.fullmatch(line)[1] for line, _ in differing]
    if sorted(map(str, kinds)) not in (["datalayout", "triple"], ["triple"]) or [there for _, there in differing] != [lines[kind] for kind in kinds]:
        raise common.Failed("the module for %s differs from that of Linux in other lines: %s" % (triple, differing[:5]))
    return made


@functools.lru_cache(maxsize=None)
def text_of(kept, archive):
    """The kept module as text. Compiled as it is, that must give the object in the archive for Linux."""
    path, made = os.path.join(kept, "module.ll"), os.path.join(kept, "again.o")
    if common.read_bytes(os.path.join(kept, "module")).startswith(BITCODE):
        common.must(toolchain.text_command(kept, path))
    else:
        shutil.copyfile(os.path.join(kept, "module"), path)
    common.must(toolchain.compile_command(kept, path, made), kept)
    common.require(common.read_bytes(made) in common.read_bytes(archive), "%s is not in %s" % (made, archive))
    return common.read_bytes(path).decode()


def compiled(kept, text, triple, made):
    """Compiles a text for this triple with the words of the kept module; for another processor without the word that names it."""
    module = made + ".ll"
    common.write(module, retargeted(text, triple))
    words = toolchain.compile_command(kept, module, made)
    if triple.startswith("riscv64"):
        words = [word for word in words if not word.startswith("-march=")]
    common.must([re.sub(r"^--target=.*", "--target=" + triple, word) for word in words], kept)


def archive(kind, path, made):
    """An archive of one object in this format, in which names and dates don't depend on the machine."""
    common.must([os.path.join(toolchain.llvm(), "bin", "llvm-ar"), "--format=" + kind, "rcsD", path, made])


def dll(folder, machine, place):
    """The DLL, and its import library under the names that MSVC and MinGW look for. Both functions are those of msvcrt.dll, which every Windows has."""
    linker, flavor = MACHINES[machine]
    names = common.write(os.path.join(place, "msvcrt.dll.def"), "LIBRARY msvcrt.dll\nEXPORTS\n%s\n" % "\n".join(CALLED))
    system = os.path.join(place, "msvcrt.dll.lib")
    common.must(["llvm-dlltool", "-m", flavor, "-d", names, "-l", system])
    words = ["/dll", "/noentry", "/nodefaultlib", "/Brepro", "/opt:noref", "/machine:" + linker, *("/export:" + name for name in exports())]
    made = os.path.join(folder, "pulleynavy.dll")
    common.must(["lld", "-flavor", "link", *words, "/out:" + made, "/implib:" + made + ".lib", os.path.join(folder, "libpulleynavy.a"), system])
    shutil.copyfile(made + ".lib", os.path.join(folder, "libpulleynavy.dll.a"))


def dylib(folder, machine, place):
    """The dynamic library. For arm64 the linker adds the signature without a certificate that macOS wants."""
    names = common.write(os.path.join(place, "exports"), "".join("_%s\n" % name for name in exports()))
    system = common.write(os.path.join(place, "libSystem.tbd"), STUB)
    words = ["-dylib", "-arch", "arm64" if machine == "aarch64" else machine, "-platform_version", "macos", "11.0.0", "11.0.0"]
    words += ["-install_name", "@rpath/libpulleynavy.dylib", "-exported_symbols_list", names, "-all_load"]
    common.must(["lld", "-flavor", "darwin", *words, "-o", os.path.join(folder, "libpulleynavy.dylib"), os.path.join(folder, "libpulleynavy.a"), system])


def build(target, kept, archive_of_linux, folder):
    """Writes the library for a target into a folder. Returns the paths of what was made; what a machine can't link is skipped."""
    machine, triple = TARGETS[target]
    shutil.rmtree(folder, ignore_errors=True)
    place = os.path.join(folder, "work")
    os.makedirs(place)
    made = os.path.join(place, "pulleynavy.o")
    compiled(kept, text_of(kept, archive_of_linux), triple, made)
    archive("darwin" if target.endswith("-macos") else "gnu", os.path.join(folder, "libpulleynavy.a"), made)
    if target.endswith("-windows"):
        archive("coff", os.path.join(folder, "pulleynavy.lib"), made)
        if common.all_found(["lld", "llvm-dlltool"]):
            dll(folder, machine, place)
    elif target.endswith("-macos") and common.found("lld"):
        dylib(folder, machine, place)
    return sorted(os.path.join(folder, name) for name in os.listdir(folder) if name != "work")
