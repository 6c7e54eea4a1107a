// SPDX-License-Identifier: Apache-2.0 OR MIT

/** Runs `body` while instances are counted and their calls go through `calls`. */
export function watched(calls, body) {
    const { Instance } = WebAssembly, made = [];
    WebAssembly.Instance = class {
        constructor(module) {
            const { exports } = new Instance(module);
            this.exports = { ...exports, ...calls(exports) };
            made.push(this);
        }
    };
    try {
        return body(made);
    } finally {
        WebAssembly.Instance = Instance;
    }
}
