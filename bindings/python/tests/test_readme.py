"""Runs every program of README.md, and compares what it prints with the text that follows it there."""
# SPDX-License-Identifier: Apache-2.0 OR MIT
from __future__ import annotations

import os
import pathlib
import re
import subprocess
import sys
import tempfile
import unittest

PACKAGE = pathlib.Path(__file__).resolve().parent.parent
README = PACKAGE / "README.md"
# The file a.wasm of the programs.
MODULE = b"\0asm\1\0\0\0\1\6\1\x60\1\x7f\1\x7f\3\2\1\0\7\7\1\3add\0\0\x0a\x09\1\7\0\x20\0\x20\0\x6a\x0b\0\x09\x08.comment"


@unittest.skipUnless(README.exists(), "needs README.md")
class Readme(unittest.TestCase):
    def test_programs(self) -> None:
        text = README.read_text(encoding="utf-8")
        programs = re.findall(r"```python\n(.*?)```\n\n```text\n(.*?)```", text, re.S)
        self.assertEqual(len(programs), text.count("```python\n"))
        self.assertGreater(len(programs), 1)
        path = os.pathsep.join([str(PACKAGE), os.environ.get("PYTHONPATH", "")])
        for program, wanted in programs:
            with self.subTest(program), tempfile.TemporaryDirectory() as folder:
                module = pathlib.Path(folder, "a.wasm")
                module.write_bytes(MODULE)
                code = program.replace("https://example.org/a.wasm", module.as_uri())
                words = [sys.executable, "-W", "error", "-c", code]
                done = subprocess.run(words, cwd=folder, capture_output=True, text=True, env={**os.environ, "PYTHONPATH": path})
                self.assertEqual((done.returncode, done.stdout, done.stderr), (0, wanted, ""))


if __name__ == "__main__":
    unittest.main()
