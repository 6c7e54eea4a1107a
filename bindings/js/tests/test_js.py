"""Tests the JavaScript package: its tests in Node, its declarations with tsc, bundles by esbuild, and the packed package in an empty directory.

    tools/try js                 everything, with 1000 random streams from seed 1, half of them modules with items
    tools/try js 7 200           200 random streams, from seed 7
    tools/try js --wasm FILE     the module FILE, instead of one that tools/build_targets builds
    tools/try js --wasm64 FILE   also the module FILE, whose memory has 64-bit addresses

Every stream is parsed whole and in chunks of 1, 7, 100 and 65,536 bytes, with its items, and compared with the lines of a model or of
tools/golden.jsonl. 20,000 streams with changed bytes are parsed too, and must not make memory grow. What a machine lacks (Node, npm, tsc, esbuild, Chromium, Firefox, wasm-opt) is reported in one line, and the rest is done.
"""
import os
import random
import shutil
import subprocess
import tempfile

import common
import modelled
import packages
import programs
import suites
from modules import mutants

TSC = ["--strict", "--noEmit", "--target", "es2022", "--module", "es2022", "--moduleResolution", "node"]
OLDEST_NODE = 18
MUTANTS = 20_000

# The entry of the package, the platform and the format of a bundle, and whether the bundle needs the module beside it. A script for browsers in
# the format iife does not know where it is.
BUNDLES = [(entry, platform, form, entry == "pulleynavy") for entry in ("pulleynavy", "pulleynavy/inline") for platform, form in
           (("browser", "esm"), ("browser", "iife"), ("node", "esm"), ("node", "cjs"))]
BUNDLED = 'import { load } from "%s";\nload(globalThis.source).then(({ parse }) => console.log([...parse(new Uint8Array(0))][0].fault), console.log);\n'
# Node's fetch reads no files, so a bundle for browsers gets the bytes.
WITH_BYTES = 'import { readFileSync } from "node:fs"; globalThis.source = readFileSync("pulleynavy.wasm"); await import("./%s");'


def bundled(node, place, folder):
    """Bundles programs by esbuild for browsers and for Node, and runs them in a folder without the package. Returns how many."""
    for number, (entry, platform, form, needs_module) in enumerate(BUNDLES):
        project, alone = (os.path.join(folder, "%s%d" % (word, number)) for word in ("bundled", "alone"))
        os.makedirs(os.path.join(project, "node_modules"))
        os.makedirs(alone)
        os.symlink(place, os.path.join(project, "node_modules", "pulleynavy"))
        common.write(os.path.join(project, "use.js"), BUNDLED % entry)
        name, what = "use.mjs" if form == "esm" else "use.cjs", "a bundle of %s for %s as %s" % (entry, platform, form)
        path = os.path.join(alone, name)
        common.must(["esbuild", "use.js", "--bundle", "--format=" + form, "--platform=" + platform, "--log-level=error", "--outfile=" + path], folder=project)
        if platform == "browser" and "node:" in common.read(path):
            raise common.Failed(what + " imports modules of Node")
        if needs_module:
            shutil.copy(os.path.join(place, "pulleynavy.wasm"), alone)
        takes_bytes = needs_module and platform == "browser"
        words = ["--input-type=module", "-e", WITH_BYTES % name] if takes_bytes else [name]
        said = common.must([node, *words], folder=alone)
        common.require(said == "UNEXPECTED_EOF\n", "%s says %r" % (what, said))
        if takes_bytes and form == "iife":
            common.require("import pulleynavy/inline" in common.must([node, name], folder=alone), what + " does not say what it lacks")
    return len(BUNDLES)


def packed(npm, node, place, folder):
    """Packs the package, installs it into an empty directory, and uses it there as a program and as a library."""
    common.must([npm, "pack", "--silent", "--pack-destination", folder], folder=place)
    archive = os.path.join(folder, "pulleynavy-%s.tgz" % common.version())
    empty = os.path.join(folder, "empty")
    os.mkdir(empty)
    common.must([npm, "install", "--offline", "--no-audit", "--no-fund", "--loglevel=error", archive], folder=empty)
    common.write(os.path.join(empty, "a.wasm"), b"\0asm\1\0\0\0\3\2\1\0\x0a\4\1\2\0\x0b")
    said = common.must([os.path.join("node_modules", ".bin", "pulleynavy-js"), "a.wasm"], folder=empty).split()
    common.require(said == ["2", "0xa", "function", "(1)", "4", "0xe", "code", "(1)"], "pulleynavy-js a.wasm: %s" % said)
    use = "import { load } from 'pulleynavy'; import { readFileSync } from 'fs';"
    use += " const { parse } = await load(); console.log([...parse(readFileSync('a.wasm'))].map(one => one.kind).join());"
    said = common.must([node, "--input-type=module", "-e", use], folder=empty).strip()
    common.require(said == "version,section,code,body,end", "the installed package: %s" % said)
    return os.path.getsize(archive)


def tried(given, folder, node):
    """Runs everything. Returns what to say of it."""
    wasm, wasm64 = given.wasm, given.wasm64
    if not wasm:
        # That of 64 bits is built on the way to that of 32.
        wasm, wasm64 = (os.path.join(programs.build_targets(folder, "wasm32"), name) for name in ("pulleynavy32.wasm", "pulleynavy64.wasm"))
    if not os.path.exists(wasm):
        common.stop(common.NO_PROGRAM, "there is no module with 32-bit memory")
    place, golden = packages.javascript(os.path.join(folder, "pulleynavy"), wasm), common.golden()
    rows = golden + modelled.drawn(given.seed, given.count)
    changed = [(stream, modelled.listed(stream)) for stream in mutants(random.Random(given.seed), [stream for stream, _ in golden], MUTANTS)]
    streams, mutated = (modelled.write(os.path.join(folder, name), of) for name, of in (("streams.jsonl", rows), ("mutated.jsonl", changed)))
    text = common.must([node, "--test"], folder=place, env={"PULLEYNAVY_STREAMS": streams})
    passed = sum(int(line.split()[-1]) for line in text.splitlines() if line.startswith(("# pass ", "ℹ pass ")))
    said = "%d tests, %d streams (seed %d), %d with changed bytes" % (suites.passed("js", passed), len(rows), given.seed, len(changed))
    common.must([node, "--expose-gc", "tests/streams.test.js"], folder=place, env={"PULLEYNAVY_STREAMS": mutated})
    if wasm64:
        flags = ["--experimental-wasm-memory64"]
        if subprocess.run([node, *flags, "-e", "0"], stdout=subprocess.DEVNULL, stderr=subprocess.DEVNULL).returncode:
            flags = []
        common.must([node, *flags, "tests/streams.test.js"], folder=packages.javascript(os.path.join(folder, "wide"), wasm64), env={"PULLEYNAVY_STREAMS": streams})
        said += ", also with 64-bit memory"
    for name, program in (("Chromium", "chromium"), ("Firefox", "firefox-esr")):
        browser = common.found(program)
        if browser:
            said += ", in %s %s" % (name, common.must([node, "tests/browser.js", browser, streams], folder=place).splitlines()[0])
    if common.found("tsc"):
        # The declarations with the library dom, and with that of the language alone.
        common.must(["tsc", *TSC, "tests/types.ts"], folder=place)
        common.must(["tsc", *TSC, "--lib", "es2022", "tests/plain.ts"], folder=place)
        said += ", tsc --strict"
    if common.found("esbuild"):
        said += ", %d bundles" % bundled(node, place, folder)
    npm = common.found("npm")
    return said + (", a package of %d bytes" % packed(npm, node, place, folder) if npm else "")


def main():
    modules = {"wasm": "the module with 32-bit memory", "wasm64": "the module with 64-bit memory"}
    given = common.arguments(__doc__, [("seed", 1), ("count", 1000)], **modules)
    node = common.found("node")
    version = common.must([node, "--version"]).strip() if node else ""
    if node and int(version[1:].split(".")[0]) < OLDEST_NODE:
        common.skip("missing: node %d or later, not %s" % (OLDEST_NODE, version))
    elif node:
        with tempfile.TemporaryDirectory() as folder:
            print(tried(given, folder, node))
    return 0
