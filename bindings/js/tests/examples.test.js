// SPDX-License-Identifier: Apache-2.0 OR MIT
// Runs every `@example` of pulleynavy.d.ts, each as a program that has the package installed.
import assert from "node:assert/strict";
import { execFile } from "node:child_process";
import { mkdirSync, mkdtempSync, readFileSync, rmSync, symlinkSync, writeFileSync } from "node:fs";
import { tmpdir } from "node:os";
import { join } from "node:path";
import test from "node:test";
import { fileURLToPath } from "node:url";

const PACKAGE = fileURLToPath(new URL("..", import.meta.url));
const declarations = readFileSync(join(PACKAGE, "pulleynavy.d.ts"), "utf8");
// An example ends with its comment.
const examples = [...declarations.matchAll(/@example\n((?: *\*(?!\/).*\n)+)/g)].map(([, lines]) => lines.replace(/^ *\* ?/gm, ""));

function run(file) {
    return new Promise(resolve => execFile(process.execPath, [file], (error, stdout, stderr) => resolve({ stdout, stderr })));
}

test("pulleynavy.d.ts has examples", () => {
    assert.equal(examples.length, declarations.split("@example").length - 1);
    assert.ok(examples.length >= 8);
});

for (const [number, code] of examples.entries()) {
    test(`example ${number + 1} of pulleynavy.d.ts`, async () => {
        const folder = mkdtempSync(join(tmpdir(), "pulleynavy-"));
        try {
            mkdirSync(join(folder, "node_modules"));
            symlinkSync(PACKAGE, join(folder, "node_modules", "pulleynavy"));
            writeFileSync(join(folder, "example.mjs"), code);
            assert.deepEqual(await run(join(folder, "example.mjs")), { stdout: "", stderr: "" });
        } finally {
            rmSync(folder, { recursive: true });
        }
    });
}
