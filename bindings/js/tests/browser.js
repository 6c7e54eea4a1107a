// SPDX-License-Identifier: Apache-2.0 OR MIT
// Compares streams with their lines in Chromium or Firefox: node tests/browser.js BROWSER STREAMS, where STREAMS is a file like tools/golden.jsonl.
import { spawn } from "node:child_process";
import { mkdtempSync, readFileSync, rmSync } from "node:fs";
import { createServer } from "node:http";
import { tmpdir } from "node:os";
import { basename, extname, join } from "node:path";
import { fileURLToPath } from "node:url";

const PACKAGE = fileURLToPath(new URL("..", import.meta.url)), [browser, streams] = process.argv.slice(2);
const TYPES = { ".js": "text/javascript", ".wasm": "application/wasm" };
const WAIT = 120_000;

const PAGE = `<!doctype html><script type="module">
import { load } from "/pulleynavy.js";
import { eventLine, itemLines, withoutRanges } from "/tests/lines.js";

const said = [];
try {
    const { parse, ParserStream } = await load(), text = await (await fetch("/streams")).text();
    const rows = text.trim().split("\\n").map(row => JSON.parse(row));
    for (const { hex, lines } of rows) {
        const bytes = Uint8Array.from(hex.match(/../g) ?? [], byte => parseInt(byte, 16)), wanted = withoutRanges(lines), streamed = [];
        const shown = events => events.flatMap(event => [eventLine(event), ...itemLines(event, bytes)]);
        const reader = new Blob([bytes]).stream().pipeThrough(new ParserStream()).getReader();
        for (let one = await reader.read(); !one.done; one = await reader.read()) streamed.push(one.value);
        for (const found of [shown([...parse(bytes)]), shown(streamed)]) {
            if (found.length !== wanted.length || found.some((line, at) => line !== wanted[at])) said.push(hex.slice(0, 400));
        }
    }
    said.unshift(rows.length + " streams, " + said.length + " differ");
} catch (error) {
    said.push("failed: " + error.stack);
}
await fetch("/said", { method: "POST", body: said.join("\\n") });
</script>`;

function served(path) {
    if (path === "/") return [PAGE, "text/html"];
    if (path === "/streams") return [readFileSync(streams), "text/plain"];
    return [readFileSync(join(PACKAGE, path)), TYPES[extname(path)] ?? "text/plain"];
}

// What the page says.
function answer(server) {
    return new Promise((resolve, reject) => {
        setTimeout(() => reject(new Error("the browser says nothing")), WAIT).unref();
        server.on("request", async (request, response) => {
            if (request.method === "POST") {
                let text = "";
                for await (const chunk of request) text += chunk;
                response.end();
                return resolve(text);
            }
            try {
                const [body, type] = served(request.url);
                response.setHeader("content-type", type);
                response.end(body);
            } catch {
                response.statusCode = 404;
                response.end();
            }
        });
    });
}

// Removes the browser's folder. Its processes may write there until they have all ended, so a removal may have to begin again.
async function removed(folder) {
    for (let tries = 1; ; tries++) {
        try {
            return rmSync(folder, { recursive: true, force: true });
        } catch (error) {
            if (error.code !== "ENOTEMPTY" || tries === 50) throw error;
            await new Promise(resolve => setTimeout(resolve, 100));
        }
    }
}

const server = createServer(), said = answer(server);
await new Promise(resolve => server.listen(0, "127.0.0.1", resolve));
const profile = mkdtempSync(join(tmpdir(), "pulleynavy-"));
const CHROMIUM = ["--headless=new", "--no-sandbox", "--disable-gpu", "--no-first-run", "--disable-dev-shm-usage", `--user-data-dir=${profile}`];
const FIREFOX = ["--headless", "--no-remote", "--profile", profile];
const flags = basename(browser).startsWith("firefox") ? FIREFOX : CHROMIUM;
const child = spawn(browser, [...flags, `http://127.0.0.1:${server.address().port}/`], { stdio: "ignore" });
try {
    const text = await said;
    console.log(text);
    process.exitCode = text.includes(" 0 differ") ? 0 : 1;
} finally {
    child.kill();
    if (child.exitCode === null && child.signalCode === null) await new Promise(resolve => child.on("exit", resolve));
    await removed(profile);
    server.close();
    server.closeAllConnections();
}
