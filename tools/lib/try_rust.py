"""Tests the crate for Rust programs, in a clone: with each set of features, as programs of wasmparser's users, with serde, and for other targets.

    tools/try rust

Its documentation may have no warning, and cargo has to be ready to publish its package, up to the upload. For another target whose standard library the
machine lacks, cargo builds `core` and `alloc` too, from Debian's sources of Rust. The status is 1 if a test fails. What a machine lacks (clippy, serde,
sources of Rust) is said in one line. Status 3: there is no cargo.
"""
import os
import shutil
import subprocess
import tempfile

import cargo
import common
import packages

# Clippy's lints are errors, and a result that nothing else comes from has to be used.
CLIPPY = ["--", "-D", "warnings", "-D", "clippy::must_use_candidate"]
# Other targets that the crate is built for: with 32 bits, with the high byte first, without a system, and systems that can't run here.
OTHERS = ("wasm32-unknown-unknown", "i686-unknown-linux-gnu", "s390x-unknown-linux-gnu", "x86_64-pc-windows-gnu", "aarch64-apple-darwin")


def tested(crate, settings):
    """Runs the tests and the lints, with the features and without, and builds programs that call the crate wasmparser."""
    with_serde = os.path.join(crate, "examples", "json")
    clippy = shutil.which("cargo-clippy") or common.skip("missing: clippy")
    for place in (crate, with_serde) if cargo.with_debian(with_serde) else (crate,):
        for features in ([], ["--no-default-features"]):
            common.must(["cargo", "test", "--offline", "--quiet", *features], folder=place, env=settings)
            if clippy:
                common.must(["cargo", "clippy", "--offline", "--quiet", "--all-targets", *features, *CLIPPY], folder=place, env=settings)
            common.must(["cargo", "doc", "--offline", "--quiet", "--no-deps", *features], folder=place, env={**settings, "RUSTDOCFLAGS": "-D warnings"})
    common.must(["cargo", "build", "--offline", "--quiet"], folder=os.path.join(crate, "examples", "programs"), env=settings)
    print("the crate: its tests, lints and programs pass")


def built(crate, settings):
    """Builds the crate for each other target, with the standard library that this machine has or one that cargo builds."""
    root = subprocess.run(["rustc", "--print", "sysroot"], stdout=subprocess.PIPE, check=True).stdout.decode().strip()
    lacking = [target for target in OTHERS if not os.path.isdir(os.path.join(root, "lib", "rustlib", target))]
    for target in OTHERS:
        if target not in lacking:
            common.must(["cargo", "build", "--offline", "--quiet", "--target", target], folder=crate, env=settings)
    sources = cargo.with_sources("core,alloc") if lacking else ([], {})
    if not sources:
        common.skip("missing: rustc-web with rust-web-src, so the crate for Rust is not built for %s" % ", ".join(lacking))
        return
    cargo.leave_out_serde(crate)
    for target in lacking:
        words, variables = sources
        common.must(["cargo", "build", "--offline", "--quiet", "--target", target, *words], folder=crate, env={**settings, **variables, "RUSTFLAGS": None})
    print("the crate: built for %s" % ", ".join(OTHERS))


def published(folder):
    """Packages the crate, and tries to publish what is in the package."""
    try:
        packages.crate(folder, os.path.join(folder, "packaged"))
    except packages.Missing as program:
        common.skip("missing: %s, so the crate is not packaged" % program)
        return
    name = os.path.join(folder, "pulleynavy-" + common.version())
    shutil.unpack_archive(name + ".crate", folder, "gztar")
    cargo.try_to_publish(name, os.path.join(folder, "index"))
    print("the crate: cargo would publish its package")


def main():
    common.parser(__doc__).parse_args()
    if not cargo.found():
        return common.NO_PROGRAM
    with tempfile.TemporaryDirectory() as folder:
        crate = cargo.copied(os.path.join(folder, "clone"))
        cargo.offline(folder)
        settings = {"CARGO_TARGET_DIR": os.path.join(folder, "target"), "RUSTFLAGS": "-D warnings", "PULLEYNAVY_GOLDEN": common.GOLDEN}
        tested(crate, settings)
        published(folder)
        built(crate, settings)
    return 0
