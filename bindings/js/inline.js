// SPDX-License-Identifier: Apache-2.0 OR MIT
// The package with its module inside, for bundles that are one file. bindings/packaging/packages.py writes pulleynavy.wasm.js.
import base64 from "./pulleynavy.wasm.js";
import { load as loadFrom } from "./pulleynavy.js";

export * from "./pulleynavy.js";

/**
 * Compiles the parser as `load` of `pulleynavy.js` does, by default the module in this file.
 *
 * @param {URL | string | Response | ArrayBuffer | ArrayBufferView | WebAssembly.Module} source
 * @returns {Promise<import("./pulleynavy.js").Pulleynavy>}
 */
export async function load(source = Uint8Array.from(atob(base64), char => char.charCodeAt(0))) {
    return loadFrom(source);
}
