"""Checks of the packages for Windows and macOS: the wheels, and that CMake finds and links what the zips and tarballs have."""
import glob
import os
import re
import shutil
import struct
import subprocess
import sys
import tempfile
import zipfile

import common
import desktops
import packages
import wine
from test_packages import source, with_cmake

sys.path.insert(0, os.path.join(common.TOP, "bindings", "python"))
from pulleynavy import _library, declared

# For each target: the tag of its wheel (PEP 425), systems that pip installs it on, one that it doesn't, what Python calls the system, and the number
# of the processor in the headers of PE and Mach-O.
WHEELS = {
    "x86_64-windows": ("win_amd64", ["win_amd64"], "win_arm64", "win32", 0x8664),
    "aarch64-windows": ("win_arm64", ["win_arm64"], "win_amd64", "win32", 0xAA64),
    "x86_64-macos": ("macosx_11_0_x86_64", ["macosx_11_0_x86_64", "macosx_13_0_x86_64"], "macosx_10_15_x86_64", "darwin", 0x1000007),
    "aarch64-macos": ("macosx_11_0_arm64", ["macosx_11_0_arm64", "macosx_15_0_arm64"], "macosx_11_0_x86_64", "darwin", 0x100000C),
}
# Loads the library of a wheel as `ctypes` does, with the calls that the package names, for a program that is linked with these calls.
LOADER = source("wheel_loader.c")
JUMP = '__asm__(".globl {0}\\n{0}: jmp *calls+{1}(%rip)");\n'
# A program that needs nothing of a system but the library, and has the two functions that the library calls.
ALONE = source("alone.c")
# How a program is linked with the shared library, as llvm-readobj prints it.
NEEDED = {"windows": "pulleynavy.dll", "macos": "@rpath/libpulleynavy.dylib"}
# CMake asks this program for the version of macOS.
SW_VERS = "#!/bin/sh\necho 11.0\n"


def must(words, folder=None, **more):
    """What a command prints. No library is named to it."""
    return common.must(words, folder, env={"PULLEYNAVY_LIB": None, **more})


def make(targets, folder):
    """Makes the packages for C, and the wheels if this machine has what makes them. Returns whether there are wheels."""
    os.environ.setdefault("SOURCE_DATE_EPOCH", "1")
    packages.targets = targets
    try:
        packages.zips(folder, os.path.join(folder, "zips"))
        packages.desktop_tarballs(folder, os.path.join(folder, "tarballs"))
        packages.desktop_wheels(folder, os.path.join(folder, "wheels"))
    except packages.Missing as program:
        common.skip("missing: %s, so there are no wheels for Windows and macOS" % program)
        return False
    return True


def machine_of(data):
    """The number of the processor in the header of a library for Windows or macOS."""
    if data[:2] == b"MZ":
        return struct.unpack_from("<H", data, struct.unpack_from("<I", data, 60)[0] + 4)[0]
    return struct.unpack_from("<II", data)[1] if data[:4] == b"\xcf\xfa\xed\xfe" else None


def chosen(folder, platform):
    """The wheel of a folder that pip installs on a system, if there is one."""
    with tempfile.TemporaryDirectory() as out:
        words = ["pip3", "--disable-pip-version-check", "download", "--quiet", "--no-index", "--no-deps", "--find-links", folder, "--dest", out]
        subprocess.run([*words, "--only-binary=:all:", "--platform", platform, "pulleynavy"], stdout=subprocess.DEVNULL, stderr=subprocess.DEVNULL)
        return next(iter(os.listdir(out)), None)


def wrong_wheels(folder, targets):
    """What is wrong in the wheels of these targets: their tags, the library and its processor, and what pip and twine say of them."""
    names = {target: "pulleynavy-%s-py3-none-%s.whl" % (common.version(), WHEELS[target][0]) for target in targets}
    made = sorted(os.path.basename(path) for path in glob.glob(folder + "/*.whl"))
    if made != sorted(names.values()):
        yield "there are the wheels %s" % made
        return
    for target, name in names.items():
        tag, systems, other, system, machine = WHEELS[target]
        with zipfile.ZipFile(os.path.join(folder, name)) as wheel:
            files = {file: wheel.read(file) for file in wheel.namelist()}
        [described] = [text.decode().splitlines() for file, text in files.items() if file.endswith(".dist-info/WHEEL")]
        if [line for line in described if line.startswith(("Tag: ", "Root-Is-Purelib: "))] != ["Root-Is-Purelib: false", "Tag: py3-none-" + tag]:
            yield "%s: its file WHEEL says %s" % (name, described)
        libraries = [file for file in files if not file.endswith((".py", "/py.typed")) and file.startswith("pulleynavy/")]
        if libraries != ["pulleynavy/" + _library.name_on(system)]:
            yield "%s has %s" % (name, libraries)
        elif machine_of(files[libraries[0]]) != machine:
            yield "%s: the library is for the processor %s" % (name, machine_of(files[libraries[0]]))
        if common.found("pip3"):
            yield from ("pip chooses %s on %s" % (chosen(folder, one), one) for one in systems if chosen(folder, one) != name)
            if chosen(folder, other) == name:
                yield "pip chooses %s on %s" % (name, other)
    if common.found("twine"):
        must(["twine", "--no-color", "check", "--strict", *glob.glob(folder + "/*.whl")])


def loader(folder, wheel):
    """The source that loads the library of the wheel for Windows, and the path of that library as Windows has it."""
    shutil.unpack_archive(wheel, os.path.join(folder, "wheel"), "zip")
    calls = list(declared.CALLS)
    text = LOADER % (len(calls), ", ".join('"%s"' % name for name in calls)) + "".join(JUMP.format(name, 8 * place) for place, name in enumerate(calls))
    library = os.path.join(folder, "wheel", "pulleynavy", _library.name_on("win32"))
    return common.write(os.path.join(folder, "loader.c"), text), "Z:" + library.replace("/", "\\")


def unpacked(folder, target):
    top = "pulleynavy-%s-%s" % (common.version(), target)
    place = os.path.join(folder, "unpacked here")
    shutil.unpack_archive(os.path.join(folder, top + (".zip" if target.endswith("-windows") else ".tar.gz")), place)
    return os.path.join(place, top)


def under_wine(folder, system):
    """Scripts that run an example under wine, as CMake builds it with MinGW over the zip for Windows on x86-64."""
    package = unpacked(folder, "x86_64-windows")
    sources = [os.path.join(common.TOP, "crates", "wasm_c", "examples", "names.c"), wine.WITNESS]
    words = ["-DCMAKE_SYSTEM_NAME=Windows", "-DCMAKE_C_COMPILER=" + wine.COMPILERS[0]]
    out = with_cmake(os.path.join(folder, "cmake"), package, sources, common.version(), *words)
    return [system.running(os.path.join(out, name)) for name in ("names_pulleynavy.exe", "names_static.exe")]


def wrongly_linked(folder, target):
    """What is wrong in the two programs that CMake links with clang and lld for a system that can't run here, without its headers and libraries."""
    if not common.all_found(["cmake", "clang", "lld", "llvm-ar", "llvm-readobj"]):
        return
    is_windows, place = target.endswith("-windows"), os.path.join(folder, "cmake-" + target)
    os.chmod(common.write(os.path.join(place, "bin", "sw_vers"), SW_VERS), 0o755)
    program, stub = common.write(os.path.join(place, "alone.c"), ALONE), common.write(os.path.join(place, "libSystem.tbd"), desktops.STUB)
    words = {"C_COMPILER": "clang", "C_COMPILER_TARGET": desktops.TARGETS[target][1], "C_FLAGS": "-ffreestanding", "C_STANDARD_LIBRARIES": ""}
    words |= {"TRY_COMPILE_TARGET_TYPE": "STATIC_LIBRARY", "OSX_SYSROOT": "", "SYSTEM_NAME": "Windows" if is_windows else "Darwin"}
    words |= {"EXE_LINKER_FLAGS": "-fuse-ld=lld -nostdlib " + ("-Wl,--entry=main" if is_windows else stub)}
    words |= {"AR": shutil.which("llvm-ar"), "RANLIB": shutil.which("llvm-ranlib"), "INSTALL_NAME_TOOL": shutil.which("llvm-install-name-tool")}
    path = os.path.join(place, "bin") + os.pathsep + os.environ["PATH"]
    settings = ["-DCMAKE_%s=%s" % pair for pair in words.items()]
    out = with_cmake(place, unpacked(folder, target), [program], common.version(), *settings, PATH=path)
    for name in ("pulleynavy", "static"):
        [program] = [path for path in glob.glob("%s/names_%s*" % (out, name)) if path.endswith((name, ".exe"))]
        needed = NEEDED[target.partition("-")[2]] in must(["llvm-readobj", "--needed-libs", program]).split()
        machine = machine_of(common.read_bytes(program))
        if needed != (name == "pulleynavy") or machine != WHEELS[target][4]:
            yield "CMake for %s: names_%s needs the shared library: %s, its processor: %s" % (target, name, needed, machine)


def differences(targets, folder):
    """What is wrong in the packages of a folder of targets, without what wine runs. Makes the packages in another folder."""
    differ = list(wrong_wheels(folder, WHEELS)) if make(targets, folder) else []
    for target in WHEELS:
        if target != "x86_64-windows":
            differ += wrongly_linked(folder, target)
    return differ
