"""Tries the C library for Windows, macOS, FreeBSD and riscv64, against golden streams and a model, and its packages for Windows and macOS.

    tools/try desktops                  golden streams and 300 random ones from seed 1, half of them modules with items
    tools/try desktops 7 200            200 random streams, from seed 7
    tools/try desktops --built TARGETS  the folder TARGETS, which tools/build_targets wrote, instead of one that is built here

The examples run for Windows on x86-64 under wine, linked by MinGW with each archive and with the DLL. Each stream goes to one of the three, in turn, and every fifth
to the library of the wheel. The programs of docs/CALLING.md that read standard input and the tests of the crate for Rust run there too. A run that wine lost is repeated and listed. For riscv64 they run under qemu.
What no system here can run is loaded by hand: the machine code of the shared library, or the archive of FreeBSD, is linked into the examples for Linux on the same processor, for
arm64 under qemu, and every fifth stream goes through it. So the code runs, but not the system's own loader. Each file defines the functions of the
header, and needs what the archive for Linux needs. By the relocations, each function calls the functions that it calls there, as often.
The packages are made and checked: tags of wheels, what the crate links, and programs that CMake builds. What a machine lacks is reported in one line.
"""
import collections
import glob
import os
import re
import shutil
import tempfile

import common
import desktops
import images
import modelled
import programs
import test_desktops
import test_c
import try_documents
import wine

# How a program for Windows is linked: the file of the library, and the options.
WINDOWS = {"archive": ("libpulleynavy.a", ["-O2", "-static"]), "lib": ("pulleynavy.lib", ["-O1", "-static"]), "dll": ("libpulleynavy.dll.a", ["-O0", "-static"])}
# A module that a text stream of Windows ends or changes: custom sections with 1A and with ends of lines, before and after an export.
BINARY = b"\0asm\1\0\0\0\0\6\1x\x1a\r\n\xff\7\5\1\1a\3\0\0\x0a\4name\x1a\3\r\n\n"
# A program whose output is binary too.
IS_BINARY = "_setmode(1, _O_BINARY)"
# The compilers and the emulator for Linux on each processor.
LINUX = {"x86_64": (("gcc", "g++"), None)}
LINUX.update((name, (("%s-linux-gnu-gcc" % name, "%s-linux-gnu-g++" % name), "qemu-" + name)) for name in ("aarch64", "riscv64"))
# How a disassembly names a function and what a relocation refers to. ELF has sections of one function each, and macOS an underscore before names.
LABEL = re.compile(r"<_?(.*)>:$")
ADDED = "ltmp0"
RELOCATION = re.compile(r"\t\t[0-9a-f]+:\s+\S+\s+(?:\.text\.|_)?(.*?)(?:[-+]0x[0-9a-f]+)?$")
# One stream in this many goes through the code of a library that no system here can load.
SAMPLE = 5


def emulated(built, runner):
    """Programs that run these under an emulator, or themselves if there is none."""
    found = {}
    for example, path in built.items():
        found[example] = [common.write(path + ".sh", '#!/bin/sh\nexec %s %s "$@"\n' % (runner, path)) if runner else path]
        os.chmod(found[example][0], 0o755)
    return found


def cross():
    """Runs the examples of the C library for aarch64 under qemu, against golden streams and a model.

    tools/try cross                  golden streams and 100 random ones from seed 1, half of them modules with items
    tools/try cross 7 200            200 random streams, from seed 7
    tools/try cross --archive FILE   the archive FILE, instead of the one that tools/build_targets builds

    The examples are built twice, with -O2 and with -O0, since compilers differ most in how they pass and return structs. Each stream goes to
    one of the two, in turn.
    """
    given = common.arguments(cross.__doc__, [("seed", 1), ("count", 100)], archive="an archive for aarch64, instead of one that is built here")
    (compilers, runner), differ = LINUX["aarch64"], []
    if not common.all_found([*compilers, runner]):
        return 0
    streams = common.golden() + modelled.drawn(given.seed, given.count)
    with tempfile.TemporaryDirectory() as folder:
        archive = given.archive or os.path.join(programs.build_targets(folder, "aarch64"), "libwasm_c-aarch64.a")
        for number, level in enumerate(("-O2", "-O0")):
            built = test_c.examples(folder, compilers, [level, "-static"], archive, level.strip("-"))
            differ += test_c.all_differences(emulated(built, runner), streams[number::2])
    return common.tell(differ, "aarch64: %d streams, %d differ (seed %d)" % (len(streams), len(differ), given.seed))


# ---- Windows, under wine


def windows_programs(library, folder, system):
    """Scripts that run each example under wine, linked with each file of the library."""
    shutil.copy(os.path.join(library, "pulleynavy.dll"), folder)
    built = collections.defaultdict(list)
    for name, (file, options) in WINDOWS.items():
        for example, path in test_c.examples(folder, wine.COMPILERS, [*options, wine.WITNESS], os.path.join(library, file), name, ".exe").items():
            built[example].append(system.running(path))
    return built


def from_wheel(made, folder, system):
    """Scripts that run each example under wine, over the library of a wheel, which is loaded as Python does."""
    source, os.environ["PULLEYNAVY_LIB"] = test_desktops.loader(folder, made)
    built = test_c.examples(folder, wine.COMPILERS, ["-O1", "-static", wine.WITNESS], source, "wheel", ".exe")
    return {example: [system.running(path)] for example, path in built.items()}


def documented(library, archive, folder, system):
    """How the programs of docs/CALLING.md that read standard input differ on Windows from those on Linux."""
    page = try_documents
    modules, malformed = page.chosen()
    for number, blocks in page.sources():
        if page.TASKS[number][1].get("c") != "stdin":
            continue
        [linux] = page.with_c(folder, number, blocks["c"], archive)
        there = os.path.join(folder, "calling")
        os.makedirs(there, exist_ok=True)
        [windows] = page.with_c(there, number, blocks["c"], os.path.join(library, "libpulleynavy.a"), wine.COMPILERS[0], ["-static", wine.WITNESS])
        for stream in [BINARY, *modules, *malformed]:
            path = common.write(os.path.join(there, "module"), stream)
            wanted = page.run([linux], "stdin", path)
            output, is_good = page.run([system.running(windows + ".exe")], "stdin", path)
            if (output if IS_BINARY in blocks["c"] else output.replace(b"\r\n", b"\n"), is_good) != wanted:
                yield "%s of %s\n  Windows %r\n  Linux   %r" % (page.TASKS[number][0], stream.hex()[:200], (output, is_good), wanted)


def on_windows(library, archive, made, streams):
    """How the examples differ that wine runs: with each file of the library, as CMake builds one over the zip, and over the wheel's library."""
    if not common.all_found([*wine.PROGRAMS, "lld"]):
        return []
    with tempfile.TemporaryDirectory() as folder, wine.windows(folder) as system:
        differ = test_c.all_differences(windows_programs(library, folder, system), streams)
        if common.found("cmake"):
            differ += test_c.names({"names": test_desktops.under_wine(made, system)}, streams[::SAMPLE])
        if common.found("cc"):
            differ += documented(library, archive, folder, system)
        for wheel in glob.glob(made + "/*-win_amd64.whl"):
            differ += test_c.all_differences(from_wheel(wheel, folder, system), streams[::SAMPLE])
        differ += wine.wrong_crate(system)
        if len(system.repeated()) > wine.MOST_REPEATED:
            differ.append("wine lost %d runs" % len(system.repeated()))
    print("x86_64-windows, run by wine: %d streams, %d differ" % (len(streams), len(differ)), flush=True)
    return differ


# ---- the files, and the code of those that no system here can load


def shared_library(target, library):
    """The shared library of a target, as its system loads it."""
    is_dll = target.endswith("-windows")
    return images.pe(os.path.join(library, "pulleynavy.dll")) if is_dll else images.macho(os.path.join(library, "libpulleynavy.dylib"))


def symbols(path):
    """The external symbols that an archive defines, and those that it needs, without the underscore of macOS."""
    listed = images.said("llvm-nm", "--extern-only", "--format=posix", path)
    found = re.findall(r"^_?([A-Za-z]\w*) ([TU])\b", listed, re.M)
    return [{name for name, kind in found if kind == wanted} for wanted in "TU"]


def wrong_symbols(target, library, archive):
    """The files of a target that define other symbols than the header declares, or need others than the archive for Linux."""
    wanted = [set(desktops.exports()), symbols(archive)[1] | ({"memset"} if target == "riscv64-linux" else set())]
    names = [name for name in ("libpulleynavy.a", "pulleynavy.lib") if os.path.exists(os.path.join(library, name))]
    files = {name: symbols(os.path.join(library, name)) for name in names}
    if target.endswith(("-windows", "-macos")) and common.found("lld"):
        image = shared_library(target, library)
        files["shared library"] = [set(image.exports), {name for name in image.pointers.values() if isinstance(name, str)}]
    for name, found in files.items():
        if found != wanted:
            yield "%s, %s: its symbols differ by %s" % (target, name, [sorted(one ^ other) for one, other in zip(found, wanted)])


def callees(path):
    """How often each function of an archive refers to each other function, by the relocations in its disassembly."""
    # The assembler for macOS on arm64 adds a symbol of its own at the address of the first function.
    rows = [line.split() for line in images.said("llvm-nm", "--format=posix", path).splitlines()]
    first = next((row[0].lstrip("_") for row in rows if row[1:3] == ["t", "0"] and row[0] != ADDED), ADDED)
    found, name = {}, None
    for line in images.said("llvm-objdump", "-d", "-r", "--no-show-raw-insn", "--no-leading-addr", path).split("\n"):
        label, relocation = LABEL.match(line), RELOCATION.match(line)
        if label:
            name = first if label[1] == ADDED else label[1]
            found[name] = []
        elif relocation:
            found[name].append(relocation[1])
    known = {*found, *desktops.CALLED}
    return {name: collections.Counter(one for one in others if one in known) for name, others in found.items()}


def wrong_calls(target, library, archive):
    """The functions of a target that refer to other functions than on Linux, or more often, or less."""
    there, here = callees(archive), callees(os.path.join(library, "libpulleynavy.a"))
    for name in sorted(name for name in {*there, *here} if here.get(name) != there.get(name)):
        yield "%s, %s\n  here  %s\n  Linux %s" % (target, name, here.get(name), there.get(name))


def on_linux(target, library, streams):
    """How the examples for Linux differ that are linked with the code of a target: its archive if that is for ELF, otherwise the image of its shared library."""
    machine, _, system = target.partition("-")
    compilers, emulator = LINUX[machine]
    is_elf = system not in ("windows", "macos")
    if not common.all_found([*compilers, *([] if is_elf else ["lld"]), *([emulator] if emulator else [])]):
        return []
    with tempfile.TemporaryDirectory() as folder:
        code = os.path.join(library, "libpulleynavy.a") if is_elf else shared_library(target, library).assembly(folder, "image")
        differ = test_c.all_differences(emulated(test_c.examples(folder, compilers, ["-O2", "-static"], code, target), emulator), streams)
    print("%s, its code on Linux: %d streams, %d differ" % (target, len(streams), len(differ)), flush=True)
    return differ


def main():
    given = common.arguments(__doc__, [("seed", 1), ("count", 300)], built="a folder that tools/build_targets wrote, instead of one that is built here")
    if not common.all_found(["llvm-nm", "llvm-objdump", "llvm-readobj"]):
        return 0
    streams = [(BINARY, modelled.listed(BINARY)), *common.golden(), *modelled.drawn(given.seed, given.count)]
    with tempfile.TemporaryDirectory() as folder, tempfile.TemporaryDirectory() as made:
        built = given.built or programs.build_targets(folder, *desktops.TARGETS)
        differ = test_desktops.differences(built, made)
        for target, (machine, _) in desktops.TARGETS.items():
            library, archive = os.path.join(built, target), os.path.join(built, "libwasm_c-%s.a" % machine)
            differ += wrong_symbols(target, library, archive)
            # LLVM calls memcpy and memset from other places on another processor.
            differ += wrong_calls(target, library, archive) if target.startswith(machine) else []
            if target == "x86_64-windows":
                differ += on_windows(library, archive, made, streams)
            else:
                differ += on_linux(target, library, streams if target == "riscv64-linux" else streams[::SAMPLE])
    return common.tell(differ, "%d targets, %d differ (seed %d)" % (len(desktops.TARGETS), len(differ), given.seed))
