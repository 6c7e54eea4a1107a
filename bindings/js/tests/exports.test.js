// SPDX-License-Identifier: Apache-2.0 OR MIT
// What package.json exports: each file is there and is packed, its types come first, and every entry has the names that the types declare.
import assert from "node:assert/strict";
import { existsSync, readFileSync } from "node:fs";
import test from "node:test";

const PACKAGE = new URL("..", import.meta.url);
const manifest = JSON.parse(readFileSync(new URL("package.json", PACKAGE), "utf8"));
const targets = Object.entries(manifest.exports).flatMap(([entry, to]) =>
    typeof to === "string" ? [[entry, "default", to]] : Object.entries(to).map(([condition, path]) => [entry, condition, path]));
const isPacked = path => manifest.files.some(pattern => new RegExp(`^${pattern.replaceAll(".", "\\.").replaceAll("*", "[^/]*")}$`).test(path));

test("each file that package.json names is there, and is packed", () => {
    for (const path of [...targets.map(([, , path]) => path), ...Object.values(manifest.bin), manifest.types]) {
        assert.ok(path.startsWith("./"), path);
        assert.ok(existsSync(new URL(path, PACKAGE)), path);
        assert.ok(path === "./package.json" || isPacked(path.slice(2)), path);
    }
    assert.match(readFileSync(new URL(manifest.bin["pulleynavy-js"], PACKAGE), "utf8"), /^#!\/usr\/bin\/env node\n/);
});

test("types are the first condition, and the last is the default", () => {
    for (const [entry, to] of Object.entries(manifest.exports)) {
        if (typeof to === "string") continue;
        const conditions = Object.keys(to);
        assert.deepEqual([conditions[0], conditions.at(-1)], ["types", "default"], entry);
        for (const [condition, path] of Object.entries(to)) assert.ok(condition === "types" ? path.endsWith(".d.ts") : path.endsWith(".js"), path);
    }
});

test("each file has the names that its types declare", async () => {
    for (const [entry, condition, path] of targets) {
        if (condition === "types" || !path.endsWith(".js")) continue;
        const declared = readFileSync(new URL(manifest.exports[entry].types, PACKAGE), "utf8");
        const names = [...declared.matchAll(/^export declare (?:const|function|class) (\w+)/gm)].map(([, name]) => name);
        assert.deepEqual(Object.keys(await import(new URL(path, PACKAGE))).sort(), names.sort(), path);
    }
});

test("what package.json exports is what a program imports by the package's name", async () => {
    for (const entry of ["", "/inline", "/declared.js"]) {
        const found = import.meta.resolve?.(`pulleynavy${entry}`);
        const wanted = manifest.exports[entry ? `.${entry}` : "."];
        if (typeof found === "string") assert.equal(found, new URL(wanted.node ?? wanted.default, PACKAGE).href);
        assert.ok(Object.keys(await import(`pulleynavy${entry}`)).length > 0);
    }
});
