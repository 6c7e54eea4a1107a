"""The subcommands of the tools that have some: of each the module and its function, `main` if no other is named, and what it does."""
import importlib
import sys

import common

COMMANDS = {
    "compare": {
        "builds": ("compare_builds", "the program that cargo builds with that of Rattle's compiler, on random streams"),
        "readings": ("compare_builds:readings", "what both compilers' programs read of random streams, in chunks too, and of items"),
        "listings": ("compare_streams:listings", "listings of random streams"),
        "check": ("compare_dumps:check", "the faults and warnings of `check`, of random streams and of modules"),
        "checks": ("compare_checks", "what `check` of the command line, the wheel and the npm package say of changed files"),
        "dump": ("compare_dumps:dump", "dumps of random streams and of modules"),
        "edits": ("compare_streams:edits", "streams with custom sections that were added, replaced and extracted"),
        "forms": ("compare_forms", "dumps as JSON, with names, bytes, colors and hexadecimal offsets, with those in lines"),
        "golden": ("compare_dumps:golden", "listings and dumps with what wasmparser 0.263.0 says of the streams of tools/golden.jsonl"),
        "items": ("compare_dumps:items", "items of random bytes and of modules"),
        "objects": ("compare_objects", "dumps of object files with llvm-readobj and wasm-objdump"),
        "pieces": ("compare_streams:chunks", "chunked streams, and each step of a feeder"),
        "pipe": ("compare_streams:pipe", "a stream that comes byte by byte through a pipe, line by line"),
        "strip": ("compare_streams:strip", "stripped streams, also with wasm-strip of wabt"),
        "writing": ("compare_writing", "modules that are written again, and random ones, with the models and Node"),
        "surface": ("compare_surface", "the public items of the crate for Rust with those of wasmparser 0.263.0"),
    },
    "try": {
        "judges": ("try_judges", "what judges the sources, on sources that are wrong"),
        "tests": ("try_tests", "the tests of tests/ and the benchmark, without proofs"),
        "examples": ("try_examples", "the examples of the doc comments, without proofs"),
        "cargo": ("try_cargo", "the tests and the program that cargo builds of the proved sources, with nothing else"),
        "rust": ("try_rust", "the crate for Rust programs"),
        "object": ("try_object", "the crate `object` over the crate for Rust"),
        "c": ("test_c", "the C library, its examples, and the binding for Python"),
        "cross": ("try_desktops:cross", "the C library for aarch64, under qemu"),
        "desktops": ("try_desktops", "the C library for Windows, macOS, FreeBSD and riscv64, and its packages"),
        "js": ("test_js", "the JavaScript package in Node and browsers, and bundles of it"),
        "documents": ("try_documents", "the programs of docs/CALLING.md, in each language"),
        "page": ("test_page", "the page, in Chromium and Firefox"),
        "packages": ("test_packages", "each package as its user would, and a clone in a system without the toolchain"),
        "first_proof": ("try_first_proof", "the commands and files of docs/FIRST_PROOF.md"),
        "scale": ("try_scale", "the first command of docs/SCALE.md, on 800 files"),
        "readme": ("try_readme", "every command and program of README.md, in a new clone"),
    },
    "generate": {
        "documents": ("documents", "the tables of docs/PROVED.md and docs/DEFINITIONS.md, from comments over clauses and definitions"),
        "program": ("generate_program", "help texts, the manual page and completions of the program, from tools/lib/program.py"),
        "header": ("generate_header", "the header of the C library, and the declarations of the bindings"),
        "manuals": ("generate_manuals", "manual pages of ten calls of the C library, from the header"),
    },
    "bench": {
        "tables": ("tables", "instructions and times on made files"),
        "files": ("files", "times or instructions of the programs on whole files, next to other tools"),
        "scaling": ("files:scaling", "how time and memory grow with a file, and what more processes gain"),
        "writing": ("bench_writing", "instructions of writing one item, next to a short program in C"),
        "inlining": ("inlining", "instructions if functions are inlined otherwise, without proofs"),
    },
}


def run(tool, about):
    """Runs the subcommand that the first argument names. Without one, it says which there are."""
    known, words = COMMANDS[tool], sys.argv[1:]
    if not words or words[0] in ("-h", "--help"):
        rows = "".join("    tools/%s %-10s %s\n" % (tool, name, said) for name, (_, said) in known.items())
        print("%s\n\n%s\n`tools/%s NAME --help` says more." % (about.strip(), rows, tool))
        return 0 if words else common.WRONG_USE
    if words[0] not in known:
        common.stop(common.WRONG_USE, "there is no %s; there are %s" % (words[0], ", ".join(known)))
    sys.argv = ["tools/%s %s" % (tool, words[0]), *words[1:]]
    module, _, name = known[words[0]][0].partition(":")
    return getattr(importlib.import_module(module), name or "main")()
