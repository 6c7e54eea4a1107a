"""How each package is made. A package has the same bytes whenever it is made: its dates are that of the release."""
import base64
import glob
import gzip
import hashlib
import json
import os
import re
import shutil
import subprocess
import sys
import tarfile
import time
import zipfile

import cargo
import common
import desktops

MACHINES = {"x86_64": {"compiler": "gcc", "debian": "amd64"}, "aarch64": {"compiler": "aarch64-linux-gnu-gcc", "debian": "arm64"}}
LICENSES = ("LICENSE-APACHE", "LICENSE-MIT", "NOTICE")
DOCUMENTS = (*LICENSES, "README.md", "CHANGELOG.md")
# The library calls memcpy and memmove of libc, and nothing else: glibc has had both since 2.17, and musl takes its own for what is asked of glibc.
WHEEL_TAGS = "manylinux_2_17_{0}.manylinux2014_{0}.musllinux_1_1_{0}"
# The tag of the wheel for each other target, and the library in it.
DESKTOP_WHEELS = {
    "x86_64-windows": ("win_amd64", "pulleynavy.dll"),
    "aarch64-windows": ("win_arm64", "pulleynavy.dll"),
    "x86_64-macos": ("macosx_11_0_x86_64", "libpulleynavy.dylib"),
    "aarch64-macos": ("macosx_11_0_arm64", "libpulleynavy.dylib"),
}

# The folder that has the libraries for Windows and macOS, if one is given.
targets = None
# The kinds that are made of the sources. The others are made of prebuilt/.
OF_SOURCES = ("crate", "dsc", "static")
# A wheel for any Python 3, with a library for one machine.
SETUP = """from setuptools import Distribution, setup
from wheel.bdist_wheel import bdist_wheel


class Binary(Distribution):
    def has_ext_modules(self):
        return True


class Tagged(bdist_wheel):
    def get_tag(self):
        return "py3", "none", "%s"


setup(distclass=Binary, cmdclass={"bdist_wheel": Tagged})
"""


class Missing(Exception):
    """What a package needs is not there."""


def prebuilt(name):
    return os.path.join(common.PREBUILT, name)


def archive(machine):
    return prebuilt("libpulleynavy-%s.a" % machine)


def source(*parts):
    return os.path.join(common.TOP, *parts)


LINKER = source("tools", "shared_library")


def soname():
    """The name by which programs load the shared library."""
    return common.must([LINKER, "--soname"]).strip()


def needed(program):
    if not shutil.which(program):
        raise Missing(program)
    return program


def epoch():
    """The date of the release, in seconds: that of its section in the changelog."""
    return int(os.environ["SOURCE_DATE_EPOCH"])


def copy_to(path, *names):
    """Copies a file to a path, and makes its folder."""
    to = os.path.join(*names)
    os.makedirs(os.path.dirname(to), exist_ok=True)
    shutil.copy(path, to)


# What tools make in the folders of a binding.
MADE = ("target", "__pycache__", "node_modules", "out", "dist", "*.lock", "*.tgz", "*.wasm", "*.wasm.js", "*.pyc")


def copy_binding(name, place, *left_out):
    """Copies a binding, without what tools made there, with the licenses."""
    shutil.copytree(source("bindings", name), place, ignore=shutil.ignore_patterns(*MADE, *left_out), dirs_exist_ok=True)
    for path in LICENSES:
        copy_to(source(path), place, path)


def shared_library(machine, path):
    """Makes the shared library of a machine from its archive."""
    common.must([LINKER, archive(machine), path], env={"CC": needed(MACHINES[machine]["compiler"])})
    os.chmod(path, 0o644)


def built(target, *names):
    """The paths of these files of a target, of those that are there."""
    paths = [os.path.join(targets, target, name) for name in names] if targets else []
    return [path for path in paths if os.path.exists(path)]


# ---- Rust


# What declares the proved sources in a checkout, and what does in the package, which has them as files.
IN_CHECKOUT, IN_PACKAGE = 'mod proved {\n    include!(concat!(env!("OUT_DIR"), "/proved/mod.rs"));\n}\n', "mod proved;\n"


def crate(folder, place):
    """The crate, with the proved sources as Rust. It has no build script, and nothing that is built."""
    if cargo.version() is None or cargo.version() < cargo.oldest():
        raise Missing("cargo %d.%d or later" % cargo.oldest())
    copy_binding("rust", place, "tests", "build.rs")
    common.must(["cargo", "run", "--offline", "--quiet", "--package", "erase", "--target-dir", os.path.join(place, "target"), "--", "--crate", ".", os.path.join(place, "src", "proved")], common.TOP)
    for name, changes in (("src/lib.rs", {IN_CHECKOUT: IN_PACKAGE}), ("Cargo.toml", {'build = "build.rs"\n': "", '[build-dependencies]\nerase = { path = "../../tools/erase" }\n\n': ""})):
        text = common.read(place, name)
        for old, new in changes.items():
            assert old in text, "%s has no %r" % (name, old)
            text = text.replace(old, new)
        common.write(os.path.join(place, name), text)
    common.must([needed("rustfmt"), "--edition", "2024", "src/lib.rs"], place)
    cargo.offline(os.path.dirname(place))
    common.must(["cargo", "package", "--offline", "--allow-dirty", "--no-verify", "--target-dir", os.path.join(place, "target")], place)
    for path in glob.glob(os.path.join(place, "target", "package", "*.crate")):
        shutil.copy(path, folder)


# ---- Python


def python_package(place, kind):
    """The path of a Python package that is made from a folder, by the Python that has the tools: the one that runs this, or Debian's."""
    for path in (sys.executable, "/usr/bin/python3"):
        if os.path.exists(path) and not subprocess.run([path, "-c", "import setuptools, wheel, build"], stderr=subprocess.DEVNULL).returncode:
            common.must([path, "-m", "build", "--" + kind, "--no-isolation", "--outdir", place + "/made", place])
            return glob.glob(place + "/made/*")[0]
    raise Missing("python3-build, python3-setuptools or python3-wheel")


def wheel(folder, place, library, name, tag):
    """A wheel that has this library, by this name, for the machines of this tag."""
    copy_binding("python", place, "tests")
    shutil.copyfile(library, os.path.join(place, "pulleynavy", name))
    common.write(os.path.join(place, "setup.py"), SETUP % tag)
    shutil.copy(python_package(place, "wheel"), folder)


def wheels(folder, place):
    """A wheel for each machine with Linux, and for Windows and macOS if their libraries are given."""
    for machine in MACHINES:
        shared = os.path.join(place, machine + ".so")
        shared_library(machine, shared)
        wheel(folder, os.path.join(place, machine), shared, soname(), WHEEL_TAGS.format(machine))
    desktop_wheels(folder, place)


def desktop_wheels(folder, place):
    for target, (tag, name) in DESKTOP_WHEELS.items():
        for library in built(target, name):
            wheel(folder, os.path.join(place, target), library, name, tag)


def sdist(folder, place):
    """The sources of the Python package, which uses a library that the system has. It is packed again for its dates."""
    copy_binding("python", place, "tests")
    shutil.unpack_archive(python_package(place, "sdist"), place + "/unpacked")
    top = "pulleynavy-" + common.version()
    write_tarball(os.path.join(folder, top + ".tar.gz"), place + "/unpacked/" + top)


# ---- JavaScript


def javascript(place, wasm, *left_out):
    """Copies the package for JavaScript, with this module and a script that has it. Returns the folder."""
    copy_binding("js", place, *left_out)
    shutil.copyfile(wasm, os.path.join(place, "pulleynavy.wasm"))
    common.write(os.path.join(place, "pulleynavy.wasm.js"), b'export default "%s";\n' % base64.b64encode(common.read_bytes(wasm)))
    return place


def npm(folder, place):
    javascript(place, prebuilt("pulleynavy.wasm"), "tests")
    common.must([needed("npm"), "pack", "--offline", "--pack-destination", folder], place)


# ---- tarballs


def write_tarball(path, folder):
    """Writes a tarball of a folder, in which nothing depends on the machine, the user or the day."""

    def plain(entry):
        entry.mtime, entry.uid, entry.gid, entry.uname, entry.gname = epoch(), 0, 0, "", ""
        return entry

    with open(path, "wb") as file, gzip.GzipFile("", "wb", fileobj=file, mtime=epoch()) as packed, tarfile.open(fileobj=packed, mode="w") as made:
        made.add(folder, os.path.basename(folder), filter=plain)


def tarball(machine, folder, place):
    """What ./install installs, to be unpacked anywhere."""
    place = os.path.join(place, "pulleynavy-%s-%s-linux" % (common.version(), machine))
    common.must([source("install"), "--prebuilt", "/"], env={"DESTDIR": place, "MACHINE": machine, "CC": needed(MACHINES[machine]["compiler"])})
    shutil.rmtree(os.path.join(place, "share", "pulleynavy"))
    path = os.path.join(place, "lib", "pkgconfig", "pulleynavy.pc")
    common.write(path, re.sub("^prefix=.*", "prefix=${pcfiledir}/../..", common.read(path), flags=re.M))
    for name in DOCUMENTS:
        copy_to(source(name), place, "share", "doc", "pulleynavy", name)
    write_tarball(os.path.join(folder, os.path.basename(place) + ".tar.gz"), place)


def tarballs(folder, place):
    for machine in MACHINES:
        tarball(machine, folder, place)
    desktop_tarballs(folder, place)


# ---- one program for every Linux

STATIC = "x86_64-unknown-linux-gnu"


def static(folder, place):
    """The program as rustc compiles it of the proved sources, with the C library in it: it needs nothing of a system but Linux."""
    needed("cargo")
    clone, top = os.path.join(place, "clone"), os.path.join(place, "pulleynavy-%s-x86_64-linux-static" % common.version())
    cargo.copied(clone)
    # No path of this machine stays in the program.
    flags = "-C target-feature=+crt-static -C strip=symbols --remap-path-prefix=%s=pulleynavy" % clone
    settings = {"RUSTFLAGS": flags, "CARGO_TARGET_DIR": os.path.join(clone, "target")}
    common.must(["cargo", "build", "--release", "--offline", "--quiet", "--bin", "pulleynavy", "--target", STATIC], clone, env=settings)
    copy_to(os.path.join(clone, "target", STATIC, "release", "pulleynavy"), top, "bin", "pulleynavy")
    for name in DOCUMENTS:
        copy_to(source(name), top, "share", "doc", "pulleynavy", name)
    write_tarball(os.path.join(folder, os.path.basename(top) + ".tar.gz"), top)


# ---- Debian


def repository():
    """The files of the repository, as git lists them; where there is no git, all that tools did not make."""
    if os.path.exists(source(".git")) and shutil.which("git"):
        listed = subprocess.run(["git", "ls-files", "-z"], cwd=common.TOP, stdout=subprocess.PIPE, check=True).stdout.decode().split("\0")
        return sorted(name for name in listed if os.path.isfile(source(name)))
    found, is_made = [], shutil.ignore_patterns(*MADE, ".git")
    for place, folders, names in os.walk(common.TOP):
        folders[:] = {*folders} - is_made(place, folders)
        # prebuilt/ has a module that is no product of this place.
        made = is_made(place, names) if place != common.PREBUILT else set()
        found += [os.path.relpath(os.path.join(place, name), common.TOP) for name in {*names} - made]
    return sorted(found)


def source_package(place, name, sources, debian):
    """Writes a source package: these files of the repository, and separately debian/, the texts of its files by their paths. Returns the path of the file that describes it."""
    top = os.path.join(place, "%s-%s" % (name, common.version()))
    for path in sources:
        copy_to(source(path), top, path)
    write_tarball(os.path.join(place, "%s_%s.orig.tar.gz" % (name, common.version())), top)
    for path, text in debian.items():
        common.write(os.path.join(top, "debian", path), text)
    os.chmod(os.path.join(top, "debian", "rules"), 0o755)
    common.must(["dpkg-source", "--build", top], place)
    return glob.glob(os.path.join(place, "*.dsc"))[0]


def below(folder, paths):
    """The texts of those of these files that are below a folder, by their paths there."""
    return {os.path.relpath(path, folder): common.read(path) for path in paths if path.startswith(folder + "/")}


def without(paths, *folders):
    """These files, but for those below these folders."""
    return [path for path in paths if not path.startswith(tuple(folder + "/" for folder in folders))]


def debs(folder, place):
    """The source package for Debian, and the packages that dpkg-buildpackage makes of it. Those of another processor need no build dependencies of it."""
    for program in ("dpkg-buildpackage", "dh", "doxygen", *(MACHINES[machine]["compiler"] for machine in MACHINES)):
        needed(program)
    files = repository()
    described = source_package(place, "pulleynavy", without(files, "debian"), below("debian", files))
    for machine, names in MACHINES.items():
        os.mkdir(os.path.join(place, machine))
        at = os.path.join(place, machine, "pulleynavy")
        common.must(["dpkg-source", "--no-check", "--extract", described, at], place)
        common.must(["dpkg-buildpackage", "--build=binary", "--no-sign", "--no-check-builddeps", "--host-arch=" + names["debian"]], at)
    for path in (path for pattern in ("*.dsc", "*.tar.*", "*/*.deb") for path in glob.glob(os.path.join(place, pattern))):
        shutil.copy(path, folder)


# What of debian/ the source package for distributions has too. The rest of its debian/ is in a folder of its own.
SHARED = ("changelog", "copyright", "pulleynavy.docs", "pulleynavy.install", "source/format")
FOR_DISTRIBUTIONS = "bindings/packaging/debian"


def dsc(folder, place):
    """The source package from which a distribution builds the crate and the programs by its own Rust: the sources, and nothing that is built."""
    needed("dpkg-source")
    files = repository()
    debian = {**{name: common.read("debian", name) for name in SHARED}, **below(FOR_DISTRIBUTIONS, files)}
    debian["changelog"] = re.sub("^pulleynavy ", "rust-pulleynavy ", debian["changelog"], flags=re.M)
    source_package(place, "rust-pulleynavy", without(files, "debian", "prebuilt", FOR_DISTRIBUTIONS), debian)
    for path in (path for pattern in ("*.dsc", "*.tar.*") for path in glob.glob(os.path.join(place, pattern))):
        shutil.copy(path, folder)


# ---- Windows and macOS


def write_zip(path, folder):
    date = tuple(time.gmtime(max(epoch(), 315532800)))[:6]
    with zipfile.ZipFile(path, "w", zipfile.ZIP_DEFLATED) as made:
        for file in sorted(glob.glob(os.path.join(folder, "**"), recursive=True)):
            entry = zipfile.ZipInfo(os.path.relpath(file, os.path.dirname(folder)), date)
            entry.compress_type, entry.external_attr, entry.create_system = zipfile.ZIP_DEFLATED, 0o644 << 16, 3
            if os.path.isfile(file):
                made.writestr(entry, common.read_bytes(file))


def desktop_archives(folder, place, library, write, ending):
    """A package for C for each target that there is this library for: the libraries, the header, and what CMake needs to find them."""
    for target in [target for target in desktops.TARGETS if built(target, library)]:
        top = os.path.join(place, "pulleynavy-%s-%s" % (common.version(), target))
        files = {"bin/pulleynavy.dll": "pulleynavy.dll", **{"lib/" + name: name for name in (*desktops.LIBRARIES, "libpulleynavy.dylib")}}
        for name, file in files.items():
            for path in built(target, file):
                copy_to(path, top, name)
        copy_to(desktops.HEADER, top, "include", "pulleynavy.h")
        cmake = os.path.join(top, "lib", "cmake", "pulleynavy", "pulleynavy-config")
        copy_to(source("crates", "wasm_c", "pulleynavy-config.cmake"), cmake + ".cmake")
        version = common.read("crates", "wasm_c", "pulleynavyConfigVersion.cmake")
        common.write(cmake + "-version.cmake", version.replace("@VERSION@", common.version()))
        for name in DOCUMENTS:
            copy_to(source(name), top, "doc", name)
        write(os.path.join(folder, os.path.basename(top) + ending), top)


def zips(folder, place):
    if not any(built(target, "pulleynavy.dll") for target in desktops.TARGETS):
        raise Missing("--targets with a folder that has a DLL")
    desktop_archives(folder, place, "pulleynavy.dll", write_zip, ".zip")


def desktop_tarballs(folder, place):
    desktop_archives(folder, place, "libpulleynavy.dylib", write_tarball, ".tar.gz")


# ---- what comes with them


def bill_of_materials():
    """A bill of materials in the form of SPDX 2.3: the files of prebuilt/ and what they are made from.

    `reuse spdx` of Debian is not used: it lists the sources, not the release and its toolchain, and has the time and a random name in it.
    """
    made, files = common.made_from(), []
    for number, name in enumerate(sorted(os.listdir(common.PREBUILT))):
        data = common.read_bytes(prebuilt(name))
        sums = [{"algorithm": kind.upper(), "checksumValue": hashlib.new(kind, data).hexdigest()} for kind in ("sha256", "sha1")]
        files.append({"SPDXID": "SPDXRef-File-%d" % number, "fileName": "./prebuilt/" + name, "checksums": sums})
    package = {"SPDXID": "SPDXRef-Package", "name": "pulleynavy", "versionInfo": common.version(), "downloadLocation": "NOASSERTION"}
    package |= {"licenseDeclared": "Apache-2.0 OR MIT", "licenseConcluded": "Apache-2.0 OR MIT", "filesAnalyzed": False}
    package |= {"copyrightText": "NOASSERTION", "comment": "made from sources with the checksum %s by %s" % (made["sources"], made["toolchain"])}
    created = time.strftime("%Y-%m-%dT%H:%M:%SZ", time.gmtime(epoch()))
    document = {"spdxVersion": "SPDX-2.3", "dataLicense": "CC0-1.0", "SPDXID": "SPDXRef-DOCUMENT", "name": "pulleynavy-" + common.version()}
    document |= {"documentNamespace": "https://spdx.org/spdxdocs/pulleynavy-%s-%s" % (common.version(), made["sources"][:32])}
    document |= {"creationInfo": {"created": created, "creators": ["Organization: Pulleynavy"]}, "packages": [package], "files": files}
    related = [("SPDXRef-DOCUMENT", "DESCRIBES", "SPDXRef-Package"), *(("SPDXRef-Package", "CONTAINS", one["SPDXID"]) for one in files)]
    document["relationships"] = [{"spdxElementId": one, "relationshipType": how, "relatedSpdxElement": other} for one, how, other in related]
    return json.dumps(document, indent=1, sort_keys=True).encode() + b"\n"
