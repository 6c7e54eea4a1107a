"""What no case of tools/lib/statuses.txt can say of the program pulleynavy: owners and modes of files that it replaces, the file that it writes
meanwhile, the progress that it shows on a terminal, and what it does not write to one."""
import contextlib
import glob
import os
import pty
import subprocess
import tempfile

import common

HEADER = b"\0asm\1\0\0\0"
# The user and the group nobody, of which a machine needs no entry.
NOBODY = 65534
# A custom section of 65 MiB: files above 64 MiB show their progress. Its bytes take no room on a disk.
LARGE = 65 << 20


def size_of(number):
    """A number in LEB128."""
    return bytes([number % 128 + 128]) + size_of(number // 128) if number > 127 else bytes([number])


def write_large(path):
    """Writes a module with a custom section of zeros, whose name is empty."""
    with open(path, "wb") as file:
        file.write(HEADER + b"\0" + size_of(LARGE) + b"\0")
        file.truncate(file.tell() + LARGE - 1)


@contextlib.contextmanager
def folder():
    with tempfile.TemporaryDirectory() as place:
        yield lambda name: os.path.join(place, name)


def mode_of(path):
    return os.stat(path).st_mode & 0o7777


def keeps_owner(program):
    """A file that is replaced keeps its owner and its mode, but for the bits by which it runs as its owner or group."""
    with folder() as path:
        common.write(path("a.wasm"), HEADER + b"\0\2\1a")
        if os.getuid() == 0:
            os.chown(path("a.wasm"), NOBODY, NOBODY)
        os.chmod(path("a.wasm"), 0o6751)
        before = os.stat(path("a.wasm"))
        subprocess.run([program, "strip", path("a.wasm"), "-o", path("a.wasm")], check=True)
        after = os.stat(path("a.wasm"))
        same = (after.st_uid, after.st_gid) == (before.st_uid, before.st_gid)
        return same and mode_of(path("a.wasm")) == 0o751 and common.read_bytes(path("a.wasm")) == HEADER


def gives_mode(program):
    """A new file has the mode of the one that it is made of."""
    with folder() as path:
        common.write(path("a.wasm"), HEADER)
        os.chmod(path("a.wasm"), 0o640)
        subprocess.run([program, "strip", path("a.wasm"), "-o", path("new")], check=True)
        return mode_of(path("new")) == 0o640


def is_private(program):
    """The file that is written meanwhile says whose it is, and nobody else may read it."""
    with folder() as path:
        write_large(path("a.wasm"))
        common.write(path("out"), b"")
        os.chmod(path("out"), 0o644)
        running, modes = subprocess.Popen([program, "strip", "--keep-names", "--keep", "", path("a.wasm"), "-o", path("out")]), set()
        while running.poll() is None:
            with contextlib.suppress(FileNotFoundError):
                modes |= {mode_of(name) for name in glob.glob(path("out.pulleynavy-%d-*.tmp" % running.pid))}
        return running.returncode == 0 and 0o600 in modes and modes <= {0o600, 0o644} and mode_of(path("out")) == 0o644


def takes_another_name(program):
    """If a file has the name of the one that is written meanwhile, that stays, and the next name is taken."""
    with folder() as path:
        common.write(path("a.wasm"), HEADER + b"\0\2\1a")
        script = 'echo stale > out.pulleynavy-$$-0.tmp; exec "$0" strip a.wasm -o out'
        subprocess.run(["bash", "-c", script, program], cwd=path(""), check=True)
        [stale] = glob.glob(path("out.pulleynavy-*"))
        return common.read_bytes(stale) == b"stale\n" and common.read_bytes(path("out")) == HEADER


def written_to_terminal(run):
    """What is written to a terminal while a function is called with it."""
    ours, theirs = pty.openpty()
    run(theirs)
    os.close(theirs)
    shown = b""
    with contextlib.suppress(OSError):
        while True:
            shown += os.read(ours, 4096)
    os.close(ours)
    return shown


def shown_on_terminal(*command):
    """What a command writes to standard error, which is a terminal."""
    return written_to_terminal(lambda terminal: subprocess.run(command, stdout=subprocess.DEVNULL, stderr=terminal, check=True))


def shows_progress(program):
    """A large file shows its progress on a terminal, and clears it at its end; not with --no-progress, nor a small file."""
    with folder() as path:
        write_large(path("large.wasm"))
        common.write(path("small.wasm"), HEADER)
        shown = shown_on_terminal(program, "list", path("large.wasm"))
        others = [shown_on_terminal(program, "list", "--no-progress", path("large.wasm")), shown_on_terminal(program, "list", path("small.wasm"))]
        return shown.startswith(b"\r12 %\r24 %") and shown.endswith(b"\r\x1b[K") and others == [b"", b""]


def spares_terminals(program):
    """A stripped module is written to a file or a pipe, and not to a terminal."""
    said = b"pulleynavy strip: the output is a terminal: name a file with -o OUT, or redirect the output\n"
    ends = []

    def run(terminal):
        for words in ([path("a.wasm")], ["-o", "-"], [path("a.wasm"), "-o", path("out")]):
            done = subprocess.run([program, "strip", *words], input=HEADER, stdout=terminal, stderr=subprocess.PIPE)
            ends.append((done.returncode, done.stderr))

    with folder() as path:
        common.write(path("a.wasm"), HEADER + b"\0\2\1a")
        shown = written_to_terminal(run)
        return not shown and ends == [(2, said), (2, said), (0, b"")] and common.read_bytes(path("out")) == HEADER


CASES = (keeps_owner, gives_mode, is_private, takes_another_name, shows_progress, spares_terminals)


def wrong(program):
    """Tries each case, and prints how it ended. Returns how many did not end as they should."""
    count = 0
    for case in CASES:
        agrees = case(program)
        count += not agrees
        print("%s %s" % ("ok    " if agrees else "WRONG ", case.__doc__.splitlines()[0]))
    return count
