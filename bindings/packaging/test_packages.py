"""Tries each package as its user would: offline, in a place that has nothing of this repository.

    tools/try packages                    makes the packages and tries them, but dsc and oldest only in .ci/run --all
    tools/try packages npm wheels         some of them
    tools/try packages --targets TARGETS  also makes those for Windows and macOS, which tools/try desktops tries

A kind is one of crate, wheels, scan, npm, tarballs, static, deb, dsc, chroot and oldest. `chroot` makes a system with debootstrap that has Python, gcc, Node and
cargo, and no toolchain: a clone of the last commit whose programs run at once, `./install`, a C program through pkg-config, and each package. `oldest`
makes one with the oldest Rust that the crate needs and nothing else: the crate, and the program and the tests of a clone. `dsc` makes one in which the
source package is built with its tests, checked and installed. Each program lists the counted sections of a golden stream. Programs that are missing are
reported in one line, and what needs them is skipped. So are packages that are made of prebuilt/, where the sources have moved on.
"""
import csv
import glob
import os
import re
import shutil
import subprocess
import tempfile
import time

import cargo
import common
import desktops
import generate_manuals
import modelled
import packages
import suites
from common import Failed, require, write

MANIFEST = '[package]\nname = "t"\nversion = "0.0.0"\nedition = "2021"\n\n[dependencies]\npulleynavy = "%s"\n' % common.version()
VERSIONS = """cmake_minimum_required(VERSION 3.19)
project(versions NONE)
find_package(pulleynavy %s QUIET CONFIG)
message(STATUS "found: ${pulleynavy_FOUND}")
"""
# How many files the example scans.
FILES = 10_000
# What the systems of Debian have, in which packages are tried. The second has the oldest Rust that the crate needs.
SYSTEM = ["python3", "python3-venv", "gcc", "libc6-dev", "pkgconf", "man-db", "groff-base", "git", "nodejs", "cargo"]
OLDEST_RUST = ("trixie", ["cargo", "libc6-dev"])
# Where a distribution would build the source package, and install what it made: what the fields Build-Depends and Depends name is there.
BUILDER = ("bookworm", ["build-essential", "debhelper", "cargo-web", "python3", "rustc-web", "rustfmt-web", "librust-serde-dev"])
SERIES = packages.soname().partition(".so.")[2]


def source(name):
    """A source of a user's project."""
    return common.read("bindings", "packaging", "tests", name)


def one(pattern):
    """The one file of this pattern."""
    found = sorted(glob.glob(pattern))
    require(len(found) == 1, "there are %d files %s" % (len(found), pattern))
    return found[0]


def with_cmake(place, prefix, sources, version, *words, **settings):
    """Has CMake build a program twice over the package below a prefix: with the shared library and with the static one. Returns their folder."""
    write(place + "/CMakeLists.txt", source("CMakeLists.txt") % (version, " ".join('"%s"' % path for path in sources)))
    settings = {"PULLEYNAVY_LIB": None, **settings}
    common.must(["cmake", "-S", place, "-B", place + "/out", "-DCMAKE_PREFIX_PATH=" + prefix, *words], env=settings)
    common.must(["cmake", "--build", place + "/out"], env=settings)
    return place + "/out"


def requests(version):
    """Versions that a project asks for, and whether this version is one of them: each minor version of 0 may change anything."""
    major, minor, patch = map(int, version.split("."))
    series, other, patch_after = "%d.%d" % (major, minor), "%d.%d" % (major, minor + 1), "%d.%d.%d" % (major, minor, patch + 1)
    yield from ((text, True) for text in ("", series, version, version + " EXACT", "%s...<%s" % (series, other), "%s...%s" % (series, version)))
    before = "%d.%d" % (major, minor - 1) if minor else "9.9"
    yield from ((text, False) for text in (before, before + ".0 EXACT", other, patch_after, patch_after + " EXACT", "%d.%d" % (major + 1, minor)))


def is_found(place, prefix, request):
    """Whether CMake finds a package of the version that a project asks for, below a prefix."""
    folder = tempfile.mkdtemp(dir=place)
    write(folder + "/CMakeLists.txt", VERSIONS % request)
    return "found: 1" in common.must(["cmake", "-S", folder, "-B", folder + "/out", "-DCMAKE_PREFIX_PATH=" + prefix], env={"PULLEYNAVY_LIB": None})


def other_pythons():
    """The Pythons from 3.8 on that this machine has besides Debian's: those on the path, and those of pyenv."""
    pyenv = os.environ.get("PYENV_ROOT", os.path.expanduser("~/.pyenv"))
    names = [shutil.which("python3.%d" % minor) for minor in range(8, 30)]
    known = {}
    for path in [*filter(None, names), *sorted(glob.glob(os.path.join(pyenv, "versions", "3.*", "bin", "python3")))]:
        done = subprocess.run([path, "-c", "import ctypes, sys; print(sys.version_info[1])"], stdout=subprocess.PIPE, stderr=subprocess.DEVNULL, text=True)
        if done.returncode == 0 and int(done.stdout) >= 8:
            known.setdefault(int(done.stdout), path)
    return [path for minor, path in sorted(known.items()) if not os.path.exists("/usr/bin/python3.%d" % minor)]


def passed_in_rust(said):
    """How many tests passed, by what cargo printed."""
    return sum(map(int, re.findall(r"^test result: ok\. (\d+) passed", said, re.M)))


class System:
    """A system of a release of Debian that debootstrap makes with these packages, without network and with nothing of this machine but its own processes."""

    CLEAN = ["PATH=/usr/sbin:/usr/bin:/sbin:/bin", "HOME=/root", "LC_ALL=C.UTF-8"]

    def __init__(self, place, release, packages):
        self.root = os.path.join(place, release)
        common.must(["debootstrap", "--variant=minbase", "--include=" + ",".join(packages), release, self.root], place)
        write(os.path.join(self.root, "etc", "hosts"), "127.0.0.1 localhost\n")

    def put(self, path, name):
        """Copies a file or a folder to this name in the home of root."""
        to = os.path.join(self.root, "root", name)
        os.makedirs(os.path.dirname(to), exist_ok=True)
        return shutil.copytree(path, to) if os.path.isdir(path) else shutil.copy(path, to)

    def write(self, name, text):
        write(os.path.join(self.root, "root", name), text)

    def inside(self, command):
        """What a command prints in the system, in the home of root."""
        apart = ["unshare", "--net", "--pid", "--fork", "--mount-proc=%s/proc" % self.root]
        words = [*apart, "sh", "-ec", 'ip link set lo up; exec "$@"', "sh", "chroot", self.root, "/usr/bin/env", "-i", *self.CLEAN]
        return common.must([*words, "/bin/sh", "-ec", "cd; " + command])


def example():
    """A golden stream with imports and exports, and the lines that programs have to print of it."""
    for stream, lines in common.golden():
        wanted = [line for line in lines if line.startswith(("section 2 ", "section 7 "))]
        if len(wanted) == 2 and lines[-1].startswith("end "):
            return stream, wanted, lines[-1]
    raise AssertionError("no golden stream has imports and exports")


class Trial:
    """Packages, a folder for their users, and the stream that each lists."""

    def __init__(self, dist, place):
        self.dist, self.place = dist, place
        self.stream, self.wanted, self.end = example()
        self.file = write(os.path.join(place, "a.wasm"), self.stream)

    def package(self, pattern):
        return one("%s/%s" % (self.dist, pattern))

    def run(self, *words, folder=None, more=None, stream=b""):
        """What a command prints that runs in a folder, that of the user unless another is named. No library is named to it."""
        return common.must(words, folder or self.place, stream, {"PULLEYNAVY_LIB": None, **(more or {})})

    def expect(self, output, what):
        if [line for line in output.split("\n") if line.startswith("section ")] != self.wanted:
            raise Failed("%s prints %r" % (what, output[:300]))

    # ---- Rust

    def registry(self, folder):
        """A local registry in place of crates.io, with this package and what crates.io says of its dependency. Returns its folder."""
        digest = next(line.split()[0] for line in open(self.dist + "/SHA256SUMS") if line.endswith(".crate\n"))
        cargo.write_registry(folder, digest)
        shutil.copy(self.package("*.crate"), folder)
        return folder

    def crate(self):
        project = self.place + "/project"
        self.run("cargo", "new", "--quiet", "--vcs", "none", project)
        cargo.offline(self.place, self.registry(self.place + "/registry"))
        write(project + "/src/main.rs", source("program.rs"))
        self.run("cargo", "add", "--offline", "--quiet", "pulleynavy", folder=project)
        self.expect(self.run("cargo", "run", "--offline", "--quiet", "--", self.file, folder=project), "the crate")
        shutil.unpack_archive(shutil.copy(self.package("*.crate"), self.place + "/crate.tar.gz"), self.place)
        unpacked = one(self.place + "/pulleynavy-[0-9]*")
        made = [name for name in os.listdir(unpacked) if name in ("build.rs", "lib", "target")]
        require(not made and not glob.glob(unpacked + "/**/*.a", recursive=True), "the crate has %s" % ", ".join(made or ["an archive"]))
        self.run("cargo", "package", "--offline", "--quiet", "--allow-dirty", folder=unpacked)
        cargo.try_to_publish(unpacked, self.place + "/index")

    # ---- Python

    def venv(self, name, package, *options):
        """The Python of a new environment with a package."""
        path = os.path.join(self.place, name)
        self.run("/usr/bin/python3", "-m", "venv", *options, path)
        more = ["--no-build-isolation", "--no-deps"] if package.endswith(".tar.gz") else []
        self.run(path + "/bin/python", "-m", "pip", "install", "--quiet", "--no-index", "--disable-pip-version-check", *more, package)
        return path + "/bin/python"

    def wheels(self):
        wheel, sources = self.package("*manylinux*x86_64.whl"), self.package("pulleynavy-[0-9]*[0-9].tar.gz")
        program = write(self.place + "/t.py", source("program.py"))
        if common.found("twine"):
            self.run("twine", "--no-color", "check", "--strict", *glob.glob(self.dist + "/*.whl"), sources)
        python = self.venv("of_wheel", wheel)
        self.expect(self.run(python, program, self.file), "the wheel")
        # The tests run in a folder that has nothing else.
        shutil.copytree(packages.source("bindings", "python", "tests"), self.place + "/suite/tests")
        shutil.unpack_archive(wheel, self.place + "/wheel", "zip")
        for other, settings in [(python, {}), *((path, {"PYTHONPATH": self.place + "/wheel"}) for path in other_pythons())]:
            settings["PULLEYNAVY_STREAMS"] = common.GOLDEN
            said = self.run(other, "-B", "-m", "unittest", "discover", "-s", "tests", "-t", ".", folder=self.place + "/suite", more=settings)
            print("wheels: %d tests with %s" % (suites.passed_in_python(said), self.run(other, "--version").strip()), flush=True)
        said = self.run(os.path.join(os.path.dirname(python), "pulleynavy-py"), "list", self.file)
        require("import (1)" in said, "pulleynavy-py list does not list the sections")
        # The wheel says that it is for musl too, so its library is loaded there.
        if common.found("musl-gcc"):
            self.run("musl-gcc", write(self.place + "/loader.c", source("loader.c")), "-o", "loader")
            self.run(self.place + "/loader", one(self.place + "/wheel/pulleynavy/libpulleynavy.so.*"))
        python = self.venv("of_sdist", sources, "--system-site-packages")
        packages.shared_library("x86_64", os.path.join(self.place, packages.soname()))
        self.expect(self.run(python, program, self.file, more={"LD_LIBRARY_PATH": self.place}), "the sdist")

    def scan(self):
        """The example that scans a registry, with two workers, on 10,000 files: a row for each, and the faults of those that have one."""
        python = self.venv("of_scan", self.package("*manylinux*x86_64.whl"), "--system-site-packages")
        streams = common.golden()
        for number in range(FILES):
            write("%s/registry/%05d.wasm" % (self.place, number), streams[number % len(streams)][0])
        program, out = packages.source("bindings", "python", "examples", "scan.py"), self.place + "/out.csv"
        said = self.run(python, program, out, self.place + "/registry", "--workers", "2")
        require(re.search("^%d files" % FILES, said, re.M), "scan.py says %r" % said)
        with open(out, newline="", encoding="utf-8") as file:
            for number, row in enumerate(csv.DictReader(file)):
                last = streams[number % len(streams)][1][-1]
                wanted = last.startswith("fault ") and not last.startswith("fault %s %s" % (row["offset"], row["fault"]))
                if not row["file"].endswith("%05d.wasm" % number) or wanted or row["fault"] and not row["offset"]:
                    raise Failed("scan.py has the row %r for a file that ends with %r" % (row, last))
        self.parquet(python, program)

    def parquet(self, python, program):
        """The rows that it has pandas write as Parquet are those of a CSV. Debian has no pyarrow, so a module stands in for pandas."""
        listed = write(self.place + "/few", "".join("%s/registry/%05d.wasm\n" % (self.place, number) for number in range(100)))
        made = {ending: [python, program, "%s/few.%s" % (self.place, ending), "--list", listed, "--workers", "2"] for ending in ("parquet", "csv")}
        if subprocess.run([python, "-c", "import pandas, pyarrow"], stderr=subprocess.DEVNULL).returncode:
            tried = subprocess.run(made["parquet"], stderr=subprocess.PIPE, text=True)
            if tried.returncode != 2 or "Parquet needs pandas with pyarrow" not in tried.stderr:
                raise Failed("without pyarrow, scan.py ends with %d and %r" % (tried.returncode, tried.stderr))
        write(self.place + "/stand_in/pyarrow.py", "")
        write(self.place + "/stand_in/pandas.py", source("pandas.py"))
        for words in made.values():
            self.run(*words, more={"PYTHONPATH": self.place + "/stand_in"})
        parquet, table = (common.read("%s/few.%s" % (self.place, ending)) for ending in made)
        require(parquet == table, "scan.py passes other rows to pandas than it writes as CSV")

    # ---- JavaScript

    def npm(self):
        project = self.place + "/empty"
        write(project + "/package.json", '{ "private": true, "type": "module" }\n')
        self.run("npm", "install", "--silent", "--offline", "--no-audit", "--no-fund", self.package("*.tgz"), folder=project)
        write(project + "/t.js", source("program.js"))
        self.expect(self.run("node", "t.js", self.file, folder=project), "the npm package")
        require("import (1)" in self.run("npx", "--offline", "pulleynavy-js", self.file, folder=project), "npx pulleynavy-js does not list the sections")
        write(project + "/exports.js", source("exports.js"))
        self.run("node", "exports.js", folder=project)
        if common.found("tsc"):
            write(project + "/t.ts", source("program.ts"))
            flags = ["--strict", "--noEmit", "--target", "es2022", "--module", "node16", "--moduleResolution", "node16"]
            for library in ("es2022", "es2022,dom"):
                self.run("tsc", *flags, "--lib", library, "t.ts", folder=project)

    # ---- C

    def tarballs(self):
        for machine in packages.MACHINES:
            shutil.unpack_archive(self.package("pulleynavy-*-%s-linux.tar.gz" % machine), self.place)
        moved, prefix = self.place + "/anywhere else", self.place + "/anywhere"
        os.rename(one(self.place + "/pulleynavy-*-x86_64-linux"), moved)
        where = self.run("pkg-config", "--variable=libdir", "pulleynavy", more={"PKG_CONFIG_PATH": "anywhere else/lib/pkgconfig"}).strip()
        require(os.path.samefile(os.path.join(self.place, where.replace("\\", "")), moved + "/lib"), "pkg-config finds %r" % where)
        os.rename(moved, prefix)
        found = {"PKG_CONFIG_PATH": prefix + "/lib/pkgconfig", "LD_LIBRARY_PATH": prefix + "/lib"}
        flags = self.run("pkg-config", "--cflags", "--libs", "pulleynavy", more=found).split()
        self.run("cc", "-Wall", "-Werror", write(self.place + "/t.c", source("program.c")), *flags, "-o", "t")
        self.expect(self.run(self.place + "/t", more=found, stream=self.stream), "the C program of the tarball")
        if common.found("cmake"):
            self.found_by_cmake(prefix)
        require(self.end in self.run(prefix + "/bin/wasm_list", stream=self.stream), "wasm_list of the tarball does not list the stream")

    def static(self):
        """The program runs where there is nothing but it: as root in a folder that has it alone."""
        shutil.unpack_archive(self.package("pulleynavy-*-linux-static.tar.gz"), self.place)
        program = one(self.place + "/pulleynavy-*-linux-static/bin/pulleynavy")
        require("INTERP" not in self.run("readelf", "-lW", program), "the static program needs a loader")
        alone = os.path.join(self.place, "alone")
        os.mkdir(alone)
        shutil.copy(program, alone)
        words = ["chroot", alone, "/pulleynavy"] if os.geteuid() == 0 else [program]
        require(self.end in self.run(*words, "list", stream=self.stream), "the static program does not list the stream")

    def found_by_cmake(self, prefix):
        """Builds the C program as CMake finds the library below a prefix: the shared one and the static one. Other versions are not found."""
        place, program, version = self.place + "/cmake", write(self.place + "/t.c", source("program.c")), ".".join(common.version().split(".")[:2])
        made = with_cmake(place, prefix, [program], version)
        for name in ("pulleynavy", "static"):
            built = "%s/names_%s" % (made, name)
            is_shared = packages.soname() in self.run("readelf", "-dW", built)
            require(is_shared == (name == "pulleynavy"), "CMake links the %s library otherwise" % name)
            self.expect(self.run(built, stream=self.stream), "the C program that CMake built with the %s library" % name)
        for request, is_there in requests(common.version()):
            require(is_found(place, prefix, request) == is_there, "CMake finds version %s: %s" % (request, not is_there))

    # ---- Debian

    def deb(self):
        """What lintian and dpkg-gensymbols say of the packages for Debian, the name and calls of the library, its pages, and CMake."""
        if common.found("lintian"):
            made = [*glob.glob(self.dist + "/*.deb"), self.package("pulleynavy_*.dsc")]
            self.run("lintian", "--allow-root", "--display-info", "--fail-on", "error,warning,info", *made)
        for path in glob.glob(self.dist + "/*_amd64.deb"):
            self.run("dpkg-deb", "--raw-extract", path, self.place + "/" + os.path.basename(path).split("_")[0])
        library, development, calls = self.place + "/libpulleynavy" + SERIES, self.place + "/libpulleynavy-dev", desktops.exports()
        shared, link = one(library + "/usr/lib/*/libpulleynavy.so.*.*.*"), os.readlink(one(library + "/usr/lib/*/" + packages.soname()))
        listed = re.findall(r"^ (\w+)@Base", common.read(library + "/DEBIAN/symbols"), re.M)
        exported = re.findall(r" T (\w+)$", self.run("nm", "-D", "--defined-only", shared), re.M)
        for what, names in (("the list of symbols", listed), ("the shared library", exported)):
            require(sorted(names) == calls, "%s and the header differ in %s" % (what, ", ".join(sorted({*names} ^ {*calls}))))
        named = self.run("readelf", "-dW", shared)
        is_named = "[%s]" % packages.soname() in named and "[libc.so.6]" in named and link == os.path.basename(shared)
        require(is_named, "the shared library is not %s over libc" % packages.soname())
        pages = {os.path.basename(path).split(".")[0] for path in glob.glob(development + "/usr/share/man/man3/*")}
        require(pages == set(generate_manuals.CALLS), "the manual pages are those of %s" % sorted(pages))
        reference = common.read(development + "/usr/share/doc/libpulleynavy-dev/html/pulleynavy_8h.html")
        documented = set(re.findall(r'<td class="memname">.*\b(\w+) </td>\n +<td>\(</td>', reference))
        require(documented.issuperset(calls), "the reference lacks %s" % ", ".join({*calls} - documented))
        shutil.copytree(library + "/usr", development + "/usr", dirs_exist_ok=True, symlinks=True)
        if common.found("cmake"):
            self.found_by_cmake(development + "/usr")

    # ---- a clean system

    def clone_inside(self, system):
        """A clone runs its programs at once, and installs the library."""
        self.run("git", "clone", "--quiet", common.TOP, system.root + "/root/pulleynavy")
        require(not system.inside("command -v rt rattle || true"), "the clean system has a toolchain")
        start = time.time()
        require(self.end in system.inside("cd /; ~/pulleynavy/pulleynavy dump ~/a.wasm"), "./pulleynavy does not dump the stream")
        print("chroot: a clone's ./pulleynavy dump took %.1f s" % (time.time() - start))
        system.inside("cd pulleynavy; ./install /opt/pulleynavy")
        build = "export PKG_CONFIG_PATH=/opt/pulleynavy/lib/pkgconfig; cc -Wall -Werror t.c $(pkg-config --cflags --libs pulleynavy) -o t"
        self.expect(system.inside(build + "; LD_LIBRARY_PATH=/opt/pulleynavy/lib ./t < a.wasm; rm t"), "the C program after ./install")

    def debs_inside(self, system):
        for path in glob.glob(self.dist + "/*_amd64.deb"):
            system.put(path, os.path.basename(path))
        system.inside("dpkg -i *.deb")
        self.expect(system.inside("cc -Wall -Werror t.c $(pkg-config --cflags --libs pulleynavy) -o t; ./t < a.wasm"), "the C program of the packages for Debian")
        said = system.inside("cd /; pulleynavy list ~/a.wasm; wasm_list strip < ~/a.wasm | wasm_dump")
        require(self.end in said, "pulleynavy of the package does not list the stream")
        for page, heading in (("wasm_list", "EXIT STATUS"), ("pulleynavy", "EXIT STATUS"), ("wasm_dump", "EXIT STATUS"), ("pulleynavy_parse", "ERRORS")):
            require(heading in system.inside("man %s | cat" % page), "there is no manual page %s" % page)
        system.inside("dpkg -r pulleynavy libpulleynavy-dev libpulleynavy" + SERIES)

    def wheel_inside(self, system):
        wheel = self.package("*manylinux*x86_64.whl")
        system.put(wheel, "wheels/" + os.path.basename(wheel))
        system.write("t.py", source("program.py"))
        system.inside("python3 -m venv env; env/bin/pip install --quiet --no-index wheels/*")
        self.expect(system.inside("env/bin/python t.py a.wasm"), "the wheel in a clean system")
        require("import (1)" in system.inside("env/bin/pulleynavy-py list a.wasm"), "pulleynavy-py list of the wheel does not list the sections")

    def npm_inside(self, system):
        """The package in Debian's Node, which comes without npm: it is unpacked where npm would. Its tests run there too."""
        system.put(self.package("*.tgz"), "pulleynavy.tgz")
        system.write("project/t.mjs", source("program.js"))
        system.inside("mkdir -p project/node_modules; tar -xzf pulleynavy.tgz; mv package project/node_modules/pulleynavy")
        self.expect(system.inside("node project/t.mjs a.wasm"), "the npm package in a clean system")
        require("import (1)" in system.inside("node project/node_modules/pulleynavy/cli.js a.wasm"), "cli.js does not list the sections")
        system.put(packages.javascript(self.place + "/tests", packages.prebuilt("pulleynavy.wasm")), "js")
        modelled.write(system.root + "/root/streams.jsonl", common.golden() + modelled.drawn(1, 200))
        said = system.inside("cd js; PULLEYNAVY_STREAMS=~/streams.jsonl node --test; node --version")
        print("chroot: %s tests in Node %s" % (re.search(r"^# pass (\d+)$", said, re.M)[1], said.split()[-1]))

    def project_inside(self, system, kind, registry):
        """Writes a project that has the crate from a registry of this kind."""
        for name, text in {"Cargo.toml": MANIFEST, "src/main.rs": source("program.rs"), ".cargo/config.toml": cargo.settings(kind, registry)}.items():
            system.write("crate/" + name, text)

    def crate_inside(self, system):
        """The crate with Debian's Rust, or what that says if it is too old."""
        version = system.inside("cargo --version").split()[1]
        self.project_inside(system, "local-registry", "/root/registry")
        system.put(self.registry(self.place + "/registry"), "registry")
        if tuple(map(int, version.split(".")[:2])) < cargo.oldest():
            said = system.inside("cd crate; cargo run --offline -- ~/a.wasm 2>&1 || true")
            require("edition2024" in said or "rustc" in said, "cargo %s says %r of the crate" % (version, said))
            print("chroot: Debian's cargo %s is older than the crate needs, and refuses it" % version)
        else:
            self.expect(system.inside("cd crate; cargo run --offline --quiet -- ~/a.wasm"), "the crate with cargo %s" % version)
            print("chroot: the crate builds with cargo %s" % version)

    def dsc(self):
        """The source package, built with its tests by Debian's Rust, and installed: the programs, and the crate for other packages."""
        system = System(self.place, *BUILDER)
        system.put(self.file, "a.wasm")
        for path in glob.glob(self.dist + "/rust-pulleynavy_*"):
            system.put(path, "sources/" + os.path.basename(path))
        start = time.time()
        said = system.inside("cd sources; dpkg-source --extract *.dsc built; cd built; dpkg-buildpackage --no-sign")
        print("dsc: built in %.0f s, with %d tests" % (time.time() - start, passed_in_rust(said)), flush=True)
        if common.found("lintian"):
            self.run("lintian", "--allow-root", "--fail-on", "error,warning", one(system.root + "/root/sources/*.changes"))
        system.inside("dpkg -i sources/*.deb")
        listed = system.inside("pulleynavy list a.wasm; wasm_list < a.wasm; wasm_list strip < a.wasm | wasm_dump")
        require(listed.count("\nend ") == 3, "the programs of the source package do not list the stream")
        self.project_inside(system, "directory", cargo.DEBIAN)
        for words in ("", "--features pulleynavy/serde"):
            self.expect(system.inside("cd crate; cargo run --offline --quiet %s -- ~/a.wasm" % words), "the crate of the source package")

    def chroot(self):
        system = System(self.place, self.run("sh", "-c", ". /etc/os-release; echo $VERSION_CODENAME").strip(), SYSTEM)
        system.put(self.file, "a.wasm")
        system.write("t.c", source("program.c"))
        for trial in (self.clone_inside, self.debs_inside, self.wheel_inside, self.npm_inside, self.crate_inside):
            trial(system)

    def oldest(self):
        """The crate with the oldest Rust that it needs, and in a clone the program and the tests with cargo alone."""
        system = System(self.place, *OLDEST_RUST)
        system.put(self.file, "a.wasm")
        self.crate_inside(system)
        cargo.copied(self.place + "/clone")
        system.put(self.place + "/clone", "clone")
        listed = system.inside("cd clone; cargo run --release --offline --quiet -- list ~/a.wasm")
        require(self.end in listed, "the program of a clone does not list the stream")
        print("oldest: the program and %d tests run in a clone" % passed_in_rust(system.inside("cd clone; cargo test --offline 2>&1")))


# The programs that each kind needs, and the kinds of packages that it tries.
IN_CHROOT = ["debootstrap", "unshare", "ip"]
KINDS = {
    "crate": (["cargo", "git"], ["crate"]),
    "wheels": (["pip3"], ["wheels", "sdist"]),
    "npm": (["npm", "node"], ["npm"]),
    "scan": (["dask-scheduler"], ["wheels"]),
    "tarballs": (["cc", "pkg-config", "readelf"], ["tarballs"]),
    "static": (["cargo", "git", "readelf"], ["static"]),
    "deb": (["dpkg-deb", "nm", "readelf"], ["deb"]),
    "dsc": (IN_CHROOT, ["dsc"]),
    "chroot": ([*IN_CHROOT, "git"], ["deb", "wheels", "npm", "crate"]),
    "oldest": (IN_CHROOT, ["crate"]),
}


# Those that build for minutes in a system of their own: tried where they are named, and before a release.
SLOW = {"dsc", "oldest"}


def made(dist, kinds, targets):
    """Makes packages of these kinds, or all, with those of a folder of targets if it is given. Returns the kinds for which tools/package lacks a program."""
    words = [os.path.join(common.TOP, "tools", "package"), *kinds, "--out", dist, "--twice", *(["--targets", targets] if targets else [])]
    done = subprocess.run(words, stdout=subprocess.PIPE, stderr=subprocess.PIPE, text=True)
    print(done.stderr, end="", flush=True)
    require(done.returncode in (0, common.NO_PROGRAM), "tools/package")
    return re.findall(r"^missing: .* of the kind (\w+)$", done.stderr, re.M)


def attempt(kind, dist, absent):
    """Tries a kind. Returns whether it works, or is skipped."""
    programs, kinds = KINDS[kind]
    lacking = [name for name in programs if not shutil.which(name)] + ["a package of the kind %s" % name for name in kinds if name in absent]
    lacking += ["root"] if "debootstrap" in programs and os.geteuid() else []
    if lacking:
        common.skip("missing: %s, so %s is not tried" % (", ".join(lacking), kind))
        return True
    start = time.time()
    with tempfile.TemporaryDirectory() as place:
        try:
            getattr(Trial(dist, place), kind)()
        except Failed as failed:
            print("FAILED %s: %s" % (kind, failed))
            return False
    print("%s: works, %.0f s" % (kind, time.time() - start), flush=True)
    return True


def main():
    line = common.parser(__doc__, usage="%(prog)s [KIND..] [OPTION..]")
    line.add_argument("kinds", nargs="*", metavar="KIND", type=common.one_of("kind", KINDS), help=", ".join(KINDS))
    line.add_argument("--targets", metavar="TARGETS", help="the folder with the libraries for Windows and macOS")
    given = line.parse_args()
    kinds = given.kinds or [kind for kind in KINDS if kind not in SLOW or os.environ.get("PULLEYNAVY_ALL")]
    if not common.is_prebuilt():
        kinds = [kind for kind in kinds if {*KINDS[kind][1]}.issubset(packages.OF_SOURCES)]
        since = common.made_from().get("version", "0")
        common.skip("the sources have moved on since version %s, so the packages that are made of prebuilt/ are not tried" % since)
    os.umask(0o022)
    with tempfile.TemporaryDirectory() as dist:
        wanted = [] if kinds == list(KINDS) else sorted({kind for name in kinds for kind in KINDS[name][1]})
        absent = made(dist, wanted, given.targets) if kinds else []
        works = [attempt(kind, dist, absent) for kind in kinds]
    return 0 if all(works) else common.DIFFERS
