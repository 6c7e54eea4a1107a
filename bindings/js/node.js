// SPDX-License-Identifier: Apache-2.0 OR MIT
// The package in Node, whose fetch reads no files.
import { readFile } from "node:fs/promises";
import { pathToFileURL } from "node:url";
import { load as loadFrom } from "./pulleynavy.js";

export * from "./pulleynavy.js";

// The module next to this file, or next to a bundle in the format of CommonJS, which has a path in place of a URL.
function besideThis() {
    return import.meta.url ? new URL("./pulleynavy.wasm", import.meta.url) : new URL("./pulleynavy.wasm", pathToFileURL(__filename));
}

/**
 * Compiles the parser as `load` of `pulleynavy.js` does, also from the URL of a file.
 *
 * @param {URL | string | Response | ArrayBuffer | ArrayBufferView | WebAssembly.Module} source
 * @returns {Promise<import("./pulleynavy.js").Pulleynavy>}
 */
export async function load(source = besideThis()) {
    return loadFrom(source instanceof URL && source.protocol === "file:" ? await readFile(source) : source);
}
