// SPDX-License-Identifier: Apache-2.0 OR MIT
// Runs every example of README.md, and compares what it prints with the text that follows it there.
import assert from "node:assert/strict";
import { execFile } from "node:child_process";
import { mkdirSync, mkdtempSync, readFileSync, rmSync, symlinkSync, writeFileSync } from "node:fs";
import { createServer } from "node:http";
import { tmpdir } from "node:os";
import { join } from "node:path";
import test from "node:test";
import { fileURLToPath } from "node:url";

const PACKAGE = fileURLToPath(new URL("..", import.meta.url));
// The file a.wasm of the examples.
const SECTIONS = [
    "\x01\x06\x01\x60\x01\x7f\x01\x7f", "\x03\x02\x01\0", "\x07\x07\x01\x03add\0\0",
    "\x0a\x09\x01\x07\0\x20\0\x20\0\x6a\x0b", "\0\x09\x08.comment",
];
const MODULE = Buffer.from("\0asm\x01\0\0\0" + SECTIONS.join(""), "latin1");
// The files at the address of the examples. The second names a source map.
const FILES = { "/a.wasm": MODULE, "/b.wasm": Buffer.concat([MODULE, Buffer.from("\0\x1c\x10sourceMappingURL\x0ab.wasm.map", "latin1")]) };
const readme = readFileSync(join(PACKAGE, "README.md"), "utf8");
const blocks = [...readme.matchAll(/```(js|sh)\n(.*?)```\n\n```text\n(.*?)```/gs)];
const examples = blocks.map(([, language, code, wanted]) => ({ language, code, wanted }));

function run(command, words, cwd) {
    return new Promise(resolve => {
        execFile(command, words, { cwd, encoding: "utf8" }, (error, stdout, stderr) => {
            resolve({ status: error ? error.code : 0, stdout, stderr });
        });
    });
}

// A folder that has the package installed, and the module.
function place() {
    const folder = mkdtempSync(join(tmpdir(), "pulleynavy-"));
    mkdirSync(join(folder, "node_modules"));
    symlinkSync(PACKAGE, join(folder, "node_modules", "pulleynavy"));
    writeFileSync(join(folder, "a.wasm"), MODULE);
    return folder;
}

test("README.md has no example without its output", () => {
    assert.equal(examples.length, [...readme.matchAll(/```(js|sh)\n/g)].length);
});

for (const [number, { language, code, wanted }] of examples.entries()) {
    test(`example ${number + 1} of README.md`, async () => {
        const folder = place(), server = createServer((request, response) => response.end(FILES[request.url]));
        await new Promise(resolve => server.listen(0, resolve));
        const address = `http://localhost:${server.address().port}/`;
        try {
            writeFileSync(join(folder, "example.mjs"), code.replace(/https:\/\/example\.org\/(?=\w\.wasm)/, address));
            const words = language === "js" ? ["example.mjs"] : [join(PACKAGE, "cli.js"), ...code.trim().split(" ").slice(2)];
            assert.deepEqual(await run(process.execPath, words, folder), { status: 0, stdout: wanted, stderr: "" });
        } finally {
            server.close();
            rmSync(folder, { recursive: true });
        }
    });
}
