#!/usr/bin/env node
// SPDX-License-Identifier: Apache-2.0 OR MIT
// The program `pulleynavy-js`: lists, checks and strips modules.
import { createReadStream } from "node:fs";
import { SECTIONS, VERSION, faultText, load } from "./node.js";

const MALFORMED = 1, WRONG_USE = 2, FAILED = 3;
const USAGE = `usage: pulleynavy-js [list] FILE                  prints the sections with their sizes in bytes
       pulleynavy-js check FILE..                 reads all items and known custom sections, and prints a fault of each file
       pulleynavy-js strip [--keep-names] FILE    writes the module without its custom sections to standard output
FILE may be -, standard input. The exit status is 1 for a malformed module, 2 for wrong use, and 3 if a file fails.
`;

function line(event) {
    const name = event.kind === "custom" ? event.name : event.kind === "unknown" ? `section ${event.id}` : SECTIONS[event.id];
    const count = event.kind === "section" || event.kind === "code" ? ` (${event.count})` : "";
    const size = (event.end - event.start).toLocaleString("en"), start = `0x${event.start.toString(16)}`;
    return `${size.padStart(12)} ${start.padStart(12)}  ${name}${count}\n`;
}

// The chunks of a file, or of standard input for "-". Both are bytes on every system.
const chunksOf = path => (path === "-" ? process.stdin : createReadStream(path));

// Calls `look` with each event of a file. Returns the first fault: the one that ends the stream, or one that `look` returns.
async function eventsOf({ Parser }, path, options, look) {
    const parser = new Parser(options);
    const first = events => {
        for (const event of events) {
            const fault = event.kind === "fault" ? event : look(event);
            if (fault) return fault;
        }
        return null;
    };
    for await (const chunk of chunksOf(path)) {
        const fault = first(parser.push(chunk));
        if (fault) return fault;
    }
    return first(parser.finish());
}

// The first fault in an event or a part of one.
function faultIn(part) {
    if (part === null || typeof part !== "object" || part.kind === "fault") return part?.kind === "fault" ? part : null;
    for (const one of Object.values(part)) {
        const fault = faultIn(one);
        if (fault) return fault;
    }
    return null;
}

function print(event) {
    if (event.id !== undefined) process.stdout.write(line(event));
    return null;
}

async function stripped({ strip }, path, keepNames) {
    const chunks = [];
    for await (const chunk of chunksOf(path)) chunks.push(chunk);
    const { fault, bytes } = strip(Buffer.concat(chunks), { keepNames });
    if (bytes) process.stdout.write(bytes);
    return fault;
}

// Each command: reads a file, and returns its fault, if there is one.
const COMMANDS = {
    list: (library, path) => eventsOf(library, path, { items: false }, print),
    check: (library, path) => eventsOf(library, path, {}, faultIn),
    strip: stripped,
};

// The command, its files and whether names are kept, or null for wrong use. Of a word that is no command, the command is `list`.
function parsed(words) {
    const [command, ...rest] = Object.hasOwn(COMMANDS, words[0]) ? words : ["list", ...words];
    const keepNames = command === "strip" && rest[0] === "--keep-names", paths = rest.slice(keepNames ? 1 : 0);
    const isWrong = paths.length === 0 || (paths.length > 1 && command !== "check") || paths.some(path => /^-./.test(path));
    return isWrong ? null : { command, paths, keepNames };
}

// Runs a command over a file, and prints its fault. Returns the exit status.
async function attempt(library, { command, keepNames }, path) {
    try {
        const fault = await COMMANDS[command](library, path, keepNames);
        if (!fault) return 0;
        process.stderr.write(`${path}: ${faultText(fault)}\n`);
        return MALFORMED;
    } catch (error) {
        if (!error.code) throw error;
        process.stderr.write(`${path}: ${error.message}\n`);
        return FAILED;
    }
}

async function main(words) {
    if (words.length === 1 && (words[0] === "--help" || words[0] === "--version")) {
        process.stdout.write(words[0] === "--help" ? USAGE : `pulleynavy-js ${VERSION}\n`);
        return 0;
    }
    const given = parsed(words);
    if (!given) {
        process.stderr.write("usage: pulleynavy-js [list|check|strip] FILE, or --help\n");
        return WRONG_USE;
    }
    const library = await load();
    let status = 0;
    for (const path of given.paths) status = Math.max(status, await attempt(library, given, path));
    return status;
}

// A reader of the output that went away, as `head`, is no error.
process.stdout.on("error", error => {
    if (error.code !== "EPIPE") process.stderr.write(`pulleynavy-js: ${error.message}\n`);
    process.exit(error.code === "EPIPE" ? 0 : FAILED);
});
process.exitCode = await main(process.argv.slice(2));
