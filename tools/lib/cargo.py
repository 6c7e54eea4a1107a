"""How the tools call cargo without network: a local registry stands in for crates.io, and has what that says of the one optional dependency."""
import json
import os
import re
import shutil
import subprocess

import common

CRATE = os.path.join(common.TOP, "bindings", "rust")
# Where Debian's packages put the sources of crates, and the one with serde.
DEBIAN, SERDE = "/usr/share/cargo/registry", "librust-serde-dev librust-serde-json-dev"
# The row of crates.io for the version that Debian 12 has, as far as a resolver needs it.
ROWS = {"serde": {"name": "serde", "vers": "1.0.152", "deps": [], "features": {"default": ["std"], "std": [], "alloc": []}, "yanked": False}}
ROWS["serde"]["cksum"] = "bb7d1f0d3021d347a83e556fc4683dea2ea09d87bccdf88ff5c12545d89d5efb"
# Runs a program without a network.
ALONE = ["unshare", "--map-root-user", "--net"]
SETTINGS = '[source.crates-io]\nreplace-with = "%s-crates"\n\n[source.%s-crates]\n%s = "%s"\n'


def oldest():
    """The oldest Rust that the crate needs, as numbers."""
    return tuple(map(int, re.search(r'^rust-version = "([0-9.]+)"', common.read(CRATE, "Cargo.toml"), re.M)[1].split(".")))


def version():
    """The version of this machine's cargo, as numbers, or None."""
    if not shutil.which("cargo"):
        return None
    said = subprocess.run(["cargo", "--version"], stdout=subprocess.PIPE, stderr=subprocess.DEVNULL).stdout.decode()
    found = re.match(r"cargo (\d+)\.(\d+)", said)
    return found and (int(found[1]), int(found[2]))


def found():
    """Whether this machine has a cargo that builds the crate. What needs it is skipped otherwise."""
    if version() and version() >= oldest():
        return True
    common.skip("missing: cargo %d.%d or later" % oldest())
    return False


def with_sources(parts):
    """What has cargo build these parts of the standard library too, from Debian's sources of Rust: its words and variables. None if there are no such sources."""
    for path in filter(os.path.exists, (shutil.which("rustc") or "", "/usr/bin/rustc")):
        root = subprocess.run([path, "--print", "sysroot"], stdout=subprocess.PIPE, check=True).stdout.decode().strip()
        vendored = os.path.join(root, "lib", "rustlib", "src", "rust", "library", "vendor")
        if os.path.isdir(vendored):
            config = ["--config", 'source.crates-io.replace-with="vendored"', "--config", "source.vendored.directory=" + json.dumps(vendored)]
            return ["-Z", "build-std=" + parts, *config], {"RUSTC": path, "RUSTC_BOOTSTRAP": "1"}
    return None


def leave_out_serde(crate):
    """Changes the manifest of a copy: cargo looks for the optional dependency too, which isn't among the crates that the standard library needs."""
    manifest = os.path.join(crate, "Cargo.toml")
    common.write(manifest, re.sub(r"^serde = .*\n", "", common.read(manifest), flags=re.M))


def copied(clone):
    """Copies the files of the repository, without what was built: what cargo sees of a clone. Returns the folder of the crate in it."""
    listed = subprocess.run(["git", "ls-files", "-z"], cwd=common.TOP, stdout=subprocess.PIPE, check=True).stdout.decode().split("\0")
    for name in filter(None, listed):
        path = os.path.join(clone, name)
        os.makedirs(os.path.dirname(path), exist_ok=True)
        shutil.copy2(os.path.join(common.TOP, name), path)
    return os.path.join(clone, "bindings", "rust")


def own_row(digest):
    """What crates.io would say of the crate, of which the package has this checksum."""
    serde = {"name": "serde", "req": "^1", "features": [], "optional": True, "default_features": False, "target": None, "kind": "normal"}
    row = {"name": "pulleynavy", "vers": common.version(), "deps": [serde], "cksum": digest, "yanked": False}
    return {**row, "features": {"default": ["alloc"], "alloc": [], "std": ["alloc"], "serde": ["dep:serde"]}}


def write_registry(folder, digest=None):
    """Writes a local registry, with the crate if the checksum of its package is given."""
    rows = {**ROWS, **({"pulleynavy": own_row(digest)} if digest else {})}
    for name, row in rows.items():
        common.write(os.path.join(folder, "index", name[:2], name[2:4], name), json.dumps(row) + "\n")


def try_to_publish(crate, index):
    """Has cargo publish a crate to an empty registry in a folder, up to the upload. It has no network where a user may take that away: with
    `--offline` cargo 1.95 fails before it looks at the crate, because it prepares a request also for a registry in files."""
    common.write(os.path.join(index, "config.json"), json.dumps({"dl": "file://" + index, "api": "http://localhost"}))
    for words in (["init"], ["add", "config.json"], ["commit", "--message", "An empty index"]):
        common.must(["git", "-c", "user.name=index", "-c", "user.email=index@localhost", *words], folder=index)
    can_be_alone = shutil.which(ALONE[0]) and not subprocess.run([*ALONE, "true"], stderr=subprocess.DEVNULL).returncode
    common.must([*(ALONE if can_be_alone else []), "cargo", "publish", "--dry-run", "--quiet", "--allow-dirty", "--index", "file://" + index], folder=crate)


def offline(folder, registry=None):
    """Has cargo take crates from a local registry wherever it runs below this folder."""
    if not registry:
        registry = os.path.join(folder, ".cargo", "registry")
        write_registry(registry)
    write_settings(folder, "local-registry", registry)


def with_debian(folder):
    """Has cargo take crates from Debian's packages below this folder. Returns whether they are there."""
    write_settings(folder, "directory", DEBIAN)
    names = os.listdir(DEBIAN) if os.path.isdir(DEBIAN) else []
    if all(any(re.match(r"%s-1\." % crate, name) for name in names) for crate in ("serde", "serde_json")):
        return True
    common.skip("missing: %s" % SERDE)
    return False


def settings(kind, path):
    """What has cargo take crates from a folder of this kind."""
    return SETTINGS % (kind, kind, kind, path)


def write_settings(folder, kind, path):
    common.write(os.path.join(folder, ".cargo", "config.toml"), settings(kind, path))
