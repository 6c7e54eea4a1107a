import { existsSync, readFileSync } from "node:fs";
import { createRequire } from "node:module";

const require = createRequire(import.meta.url);
const manifest = JSON.parse(readFileSync(require.resolve("pulleynavy/package.json"), "utf8"));
for (const [entry, to] of Object.entries(manifest.exports)) {
    if (!existsSync(require.resolve("pulleynavy" + entry.slice(1)))) throw new Error(entry);
    for (const path of typeof to === "string" ? [to] : Object.values(to))
        if (!existsSync("node_modules/pulleynavy/" + path)) throw new Error(`${entry}: ${path}`);
}
