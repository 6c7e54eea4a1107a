// SPDX-License-Identifier: Apache-2.0 OR MIT
// The program `pulleynavy`.
import assert from "node:assert/strict";
import { spawn, spawnSync } from "node:child_process";
import { closeSync, existsSync, mkdtempSync, openSync, readFileSync, rmSync, writeFileSync } from "node:fs";
import { tmpdir } from "node:os";
import { join } from "node:path";
import test from "node:test";
import { fileURLToPath } from "node:url";
import { VERSION } from "../node.js";

const CLI = fileURLToPath(new URL("../cli.js", import.meta.url));
const HEADER = "\0asm\x01\0\0\0";
const GOLDEN = process.env.PULLEYNAVY_STREAMS ?? new URL("../../../tools/golden.jsonl", import.meta.url);
const run = (...words) => spawnSync(process.execPath, [CLI, ...words], { encoding: "utf8" });
const latin = text => Buffer.from(text, "latin1");
// Runs a command over a stream that it reads from standard input. Returns the status, the output and what it says.
function piped(command, text) {
    const done = spawnSync(process.execPath, [CLI, ...command.split(" "), "-"], { input: latin(text) });
    return [done.status, done.stdout.toString("latin1"), done.stderr.toString()];
}

// Runs `body` with the path of a file of these bytes.
async function withFile(text, body) {
    const folder = mkdtempSync(join(tmpdir(), "pulleynavy-")), path = join(folder, "a.wasm");
    try {
        writeFileSync(path, latin(text));
        await body(path);
    } finally {
        rmSync(folder, { recursive: true });
    }
}

test("the sections of a module with their sizes", () =>
    withFile(HEADER + "\x03\x02\x01\0\x0a\x04\x01\x02\0\x0b\0\x02\x01x", path => {
        const done = run(path), rows = done.stdout.trim().split("\n").map(line => line.trim().split(/\s+/));
        assert.deepEqual([done.status, done.stderr], [0, ""]);
        assert.deepEqual(rows, [["2", "0xa", "function", "(1)"], ["4", "0xe", "code", "(1)"], ["2", "0x14", "x"]]);
        assert.equal(run("list", path).stdout, done.stdout);
    }));

test("standard input is binary: 1A and CR LF arrive as they are", () => {
    const section = "\0\x06\x01x\x1a\r\n\xff", kept = "\0\x09\x04name\x1a\x02\r\n";
    const [status, output] = piped("list", HEADER + section);
    assert.deepEqual([status, output.trim().split(/\s+/)], [0, ["6", "0xa", "x"]]);
    assert.deepEqual(piped("strip", HEADER + section + kept), [0, HEADER, ""]);
    assert.deepEqual(piped("strip --keep-names", HEADER + section + kept), [0, HEADER + kept, ""]);
    assert.deepEqual(piped("strip", HEADER + "\x03"), [1, "", "-: unexpected end-of-file (at offset 0x9)\n"]);
    assert.deepEqual(piped("check", ""), [1, "", "-: unexpected end-of-file (at offset 0x0)\n"]);
    assert.deepEqual(piped("check", HEADER + section), [0, "", ""]);
});

test("check prints the first fault of each file, in its items and custom sections too", () => {
    const folder = mkdtempSync(join(tmpdir(), "pulleynavy-"));
    try {
        const rows = readFileSync(GOLDEN, "ascii").trim().split("\n").slice(0, 400).map(row => JSON.parse(row)), wanted = [];
        const paths = rows.map(({ hex, lines }, number) => {
            const path = join(folder, `${number}.wasm`);
            // Constant expressions are bytes here.
            const [fault] = lines.join("\n").match(/fault \d+ [^\n:]*?(?=[:\n})\]]| $|$)/) ?? [];
            if (fault) wanted.push([path, Number(fault.split(" ")[1]), fault.split(" ").slice(2).join(" ").trim()]);
            writeFileSync(path, Buffer.from(hex, "hex"));
            return path;
        });
        const done = run("check", ...paths), said = done.stderr.trim().split("\n");
        assert.deepEqual([done.status, done.stdout, said.length], [1, "", wanted.length]);
        for (const [number, [path, offset, text]] of wanted.entries()) {
            assert.ok(said[number].startsWith(`${path}: ${text}`) && said[number].endsWith(`(at offset 0x${offset.toString(16)})`), `${said[number]}, ${text}`);
        }
        assert.ok(wanted.length > 50 && wanted.length < rows.length - 50);
    } finally {
        rmSync(folder, { recursive: true });
    }
});

test("the status of check is the greatest of all files, in any order", () => {
    const folder = mkdtempSync(join(tmpdir(), "pulleynavy-")), [good, bad, missing] = ["good", "bad", "missing"].map(name => join(folder, name));
    try {
        writeFileSync(good, latin(HEADER));
        writeFileSync(bad, latin(HEADER + "\x07\x04\x01\x01a\x05"));
        const rows = [[[good, good], 0], [[bad, good], 1], [[good, bad], 1], [[good, bad, good], 1], [[missing, bad, good], 3], [[bad, missing], 3]];
        for (const [paths, status] of rows) {
            const done = run("check", ...paths), said = done.stderr.split("\n").slice(0, -1).map(line => line.split(": ")[0]);
            assert.deepEqual([done.status, done.stdout, said], [status, "", paths.filter(path => path !== good)]);
        }
    } finally {
        rmSync(folder, { recursive: true });
    }
});

test("--help and --version", () => {
    assert.match(run("--help").stdout, /^usage: pulleynavy-js \[list\] FILE .*\n(.*\n)*.*standard input/);
    assert.deepEqual([run("--help").status, run("--version").stdout], [0, `pulleynavy-js ${VERSION}\n`]);
});

test("a full device is status 3", { skip: !existsSync("/dev/full") }, () => {
    const full = openSync("/dev/full", "w");
    for (const command of ["list", "strip"]) {
        const done = spawnSync(process.execPath, [CLI, command, "-"], { input: latin(HEADER + "\0\x02\x01x"), stdio: ["pipe", full, "pipe"] });
        assert.equal(done.status, 3, command);
        assert.match(done.stderr.toString(), /^pulleynavy-js: ENOSPC.*\n$/);
    }
    closeSync(full);
});

test("a malformed module: what was read, one line, and status 1", () =>
    withFile(HEADER + "\x03\x02\x01\0\x80", path => {
        const done = run(path);
        assert.equal(done.status, 1);
        assert.match(done.stdout, /^ +2 +0xa {2}function \(1\)\n$/);
        assert.equal(done.stderr, `${path}: malformed section id (at offset 0xc)\n`);
    }));

test("wrong use is status 2, and a file that cannot be read status 3, each with one line", () => {
    const wrong = [[], ["a", "b"], ["--what"], ["list"], ["check"], ["strip", "a", "b"], ["list", "--keep-names", "a"]].map(words => [words, 2]);
    const unreadable = [["/no such file"], ["/"], ["check", "/no such file"], ["strip", "/"]].map(words => [words, 3]);
    for (const [words, status] of [...wrong, ...unreadable]) {
        const done = run(...words);
        assert.deepEqual([done.status, done.stdout, done.stderr.split("\n").length], [status, "", 2], words.join(" "));
    }
});

test("a reader that stops, as `head` does, ends it quietly", () =>
    withFile(HEADER + "\0\x02\x01x".repeat(200_000), async path => {
        const child = spawn(process.execPath, [CLI, path], { stdio: ["ignore", "pipe", "pipe"] });
        let said = "";
        child.stderr.on("data", data => (said += data));
        child.stdout.once("data", () => child.stdout.destroy());
        const status = await new Promise(resolve => child.on("close", resolve));
        assert.deepEqual([status, said], [0, ""]);
    }));
