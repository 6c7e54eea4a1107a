// SPDX-License-Identifier: Apache-2.0 OR MIT
// The page: opens a file in a worker, and shows the bar of sections, the tree, the bytes and the details.
import { Hex } from "./hex.js";
import { hex, plural, shown } from "./text.js";
import { Tree } from "./tree.js";

const $ = id => document.getElementById(id), PAUSE = 150, SCRIPT = "worker.js", OFFSET = /^0x[0-9a-f]+$/i;
let worker = null, waiting = new Map(), requests = 0, file = null, opened = null, fault = -1, word = "", pause = 0, link = location.hash;
// The custom section that is selected, or null, and whether the file has edits.
let selected = null, isEdited = false;
const made = (tag, properties) => Object.assign(document.createElement(tag), properties);
const say = (text, isFault = false) => Object.assign($("said"), { textContent: text, className: isFault ? "fault" : "" });

function startWorker(address) {
    worker?.terminate();
    waiting = new Map();
    worker = new Worker(address, { type: address === SCRIPT ? "module" : "classic" });
    worker.onerror = event => say(`The worker failed: ${event.message}`, true);
    worker.onmessage = ({ data: { read, id, value, error } }) => {
        if (read !== undefined) $("progress").value = read;
        else if (error === undefined) waiting.get(id).resolve(value);
        else waiting.get(id).reject(new Error(error));
        waiting.delete(id);
    };
}

const ask = (call, ...args) => new Promise((resolve, reject) => {
    waiting.set(++requests, { resolve, reject });
    worker.postMessage({ id: requests, call, args });
});

// In the page that is one file, the parser and the worker are compressed texts inside it, since such a page may load neither.
function inflated(text) {
    const bytes = new Blob([Uint8Array.from(atob(text), it => it.charCodeAt(0))]);
    return new Response(bytes.stream().pipeThrough(new DecompressionStream("gzip")));
}

const moduleOf = async text => WebAssembly.compile(await (text ? inflated(text) : await fetch("pulleynavy.wasm")).arrayBuffer());
const addressOf = async text => (text ? URL.createObjectURL(await inflated(text).blob()) : SCRIPT);
const loading = Promise.all([moduleOf($("wasm")?.textContent), addressOf($("worker")?.textContent)]);
loading.catch(error => say(`The parser cannot be loaded: ${error.message}`, true));

// A file that is opened meanwhile ends the worker of this one, whose answer then never comes.
async function open(given, hasEdits = false) {
    const [module, address] = await loading;
    file = given;
    isEdited = hasEdits;
    selectCustom(null);
    startWorker(address);
    say(`Reading ${shown(file.name)}, ${plural(file.size, "byte")}`);
    Object.assign($("progress"), { max: Math.max(1, file.size), value: 0, hidden: false });
    opened = await ask("open", module, file);
    $("progress").hidden = $("empty").hidden = true;
    document.querySelector("main").hidden = document.querySelector("footer").hidden = $("search").disabled = false;
    $("search").value = $("name").value = word = "";
    fault = -1;
    $("next").hidden = !opened.faults.length;
    for (const id of ["strip", "keep", "name", "add", "replace", "remove"]) $(id).disabled = !opened.isWhole;
    $("save").disabled = !isEdited;
    hexView.open(file, opened.faults.map(it => it.offset));
    $("bar").replaceChildren(...opened.bar.map(segment));
    tree.reset(opened.count);
    await (opened.faults.length && !link ? nextFault(false) : tree.go(0, false));
    tell();
    // A link is for the first file, as the address then follows what is chosen.
    if (link) await goToLink(link);
}

function tell() {
    const { faults: [first, ...more], problem, sections, took } = opened;
    const what = `${shown(file.name)}${isEdited ? ", edited" : ""}: ${plural(file.size, "byte")}, ${plural(sections, "section")}, read in ${Math.round(took)} ms. `;
    const others = more.length ? `, and ${plural(more.length, "more fault")}` : "";
    const said = first ? `Fault at ${hex(first.offset)}: ${shown(first.text)}${others}.` : "No faults.";
    say(what + (problem || said), Boolean(problem || first));
}

function selectCustom(section) {
    selected = section;
    $("section").hidden = !section;
}

async function choose(row) {
    if (!tree.scroller.count) return;
    const { first, start, end, place, rows, isBad, custom } = await ask("details", row), all = [...$("bar").children];
    selectCustom(custom && { ...custom, first, end });
    $("hex-title").textContent = isBad ? `Bytes, fault at ${hex(first)}` : `Bytes ${hex(first)} to ${hex(end)}`;
    $("details").replaceChildren(...rows.flatMap(([term, text]) => [made("dt", { textContent: term }), made("dd", { textContent: text })]));
    // After the details, which share the height with the bytes.
    hexView.show(first, { chosen: { first, start, end } });
    const here = all.findLast(it => it.place <= place);
    for (const it of all) it.ariaPressed = it === here;
    stopAt(here);
    history.replaceState(null, "", `#${hex(first)}`);
}

async function go(path, wantsFocus = false) {
    if (word) await ask("show", "");
    if (word) tell();
    $("search").value = word = "";
    $("none").hidden = true;
    const { count, row } = await ask("reveal", path);
    tree.scroller.setCount(count);
    await tree.go(row, wantsFocus);
}

async function goTo(offset) {
    if (!(offset <= file.size)) return say(`${hex(offset)} is past the end of the file, which is ${hex(file.size)}.`, true);
    await go(await ask("pathTo", offset));
    hexView.show(offset, { mark: offset });
}

async function goToLink(hash) {
    const offset = Number(hash.slice(1));
    link = opened ? "" : hash;
    if (opened && Number.isSafeInteger(offset) && offset >= 0) await goTo(offset);
}

async function nextFault(wantsFocus = true) {
    fault = (fault + 1) % opened.faults.length;
    await go(opened.faults[fault].path, wantsFocus);
}

async function search() {
    const text = $("search").value.trim();
    if (OFFSET.test(text) || text === word) return;
    word = text;
    const count = await ask("show", word.toLowerCase());
    if (word) say(`${plural(count, "match", "matches")} of “${shown(word)}”`);
    else tell();
    $("none").hidden = count > 0;
    tree.reset(count);
    await tree.go(0, false);
}

async function pressedInSearch({ key }) {
    if (key === "Escape") $("search").value = "";
    if (key === "Escape" || key === "Enter") await search();
    const text = $("search").value.trim();
    if (key === "Enter" && OFFSET.test(text)) await goTo(Number(text));
    else if (key === "Enter" && tree.scroller.count) await tree.go(tree.cursor);
}

function segment({ title, place, size, isBad, isRest, id }) {
    const share = 100 * size / file.size, className = isRest ? "rest" : isBad ? "marked" : "", onclick = () => go([place]);
    const text = `${title}: ${plural(size, "byte")}, ${share.toFixed(share < 10 ? 1 : 0)} %${isBad ? ", with a fault" : ""}`;
    const element = made("button", { title: text, ariaLabel: text, className, textContent: share > 6 ? title : "", place, onclick });
    element.style.cssText = `flex-grow: ${size}; --hue: ${id * 47 + 20}`;
    return element;
}

// The tab key stops at one segment; arrow keys move to the others.
const stopAt = segment => [...$("bar").children].forEach(it => (it.tabIndex = it === segment ? 0 : -1));
$("bar").addEventListener("keydown", event => {
    const all = [...$("bar").children], at = all.indexOf(event.target);
    const next = all[{ ArrowRight: at + 1, ArrowLeft: at - 1, Home: 0, End: all.length - 1 }[event.key]];
    if (!next) return;
    event.preventDefault();
    stopAt(next);
    next.focus();
});

function save(blob, ending) {
    const href = URL.createObjectURL(blob), download = file.name.replace(/(\.wasm)?$/i, ending);
    made("a", { href, download }).click();
    setTimeout(() => URL.revokeObjectURL(href), 60_000);
    say(`Saved ${shown(download)}: ${plural(blob.size, "byte")} of ${plural(file.size, "byte")}.`);
}

// Does what a button or a file asks for. If that fails, says so.
async function attempt(failure, action) {
    try {
        await action();
    } catch (error) {
        say(`${failure}: ${error.message}`, true);
    }
}

async function saveStripped() {
    const { bytes, why } = await ask("strip", $("keep").checked);
    if (why) throw new Error(why);
    save(new Blob([bytes]), ".stripped.wasm");
}

// Opens the file with other bytes in the place of those between two offsets, and selects what is there.
async function splice(from, to, bytes) {
    link = `#${hex(from)}`;
    await open(new File([file.slice(0, from), bytes, file.slice(to)], file.name), true);
}

// The name of a section as a part of the name of a file.
const inFileName = name => name.replace(/[^\w.-]/g, "_").replace(/^\.+/, "");
const saveData = () => save(file.slice(selected.dataStart, selected.end), `.${inFileName(selected.name)}.bin`);
const removeSection = () => splice(selected.first, selected.end, "");
const replaceData = async data => splice(selected.first, selected.end, await ask("encode", selected.name, data));
const addSection = async data => splice(file.size, file.size, await ask("encode", $("name").value || data.name, data));

const tree = new Tree($("tree"), ask, choose);
const hexView = new Hex($("hex"), goTo, error => say(`The file cannot be read any more: ${error.message}`, true));
// What takes a file, by the id of its input, and what to say if it fails.
const TAKERS = { file: ["Not opened", data => open(data)], replace: ["Not replaced", replaceData], add: ["Not added", addSection] };
function take(id, [data]) {
    const [failure, taker] = TAKERS[id];
    if (data && !$(id).disabled) attempt(failure, () => taker(data));
}

for (const id of Object.keys(TAKERS)) {
    // Choosing the same file again is a change too.
    $(id).addEventListener("click", () => ($(id).value = ""));
    $(id).addEventListener("change", () => take(id, $(id).files));
}
const BUTTONS = {
    strip: ["Not saved", saveStripped], save: ["Not saved", () => save(file, ".edited.wasm")], data: ["Not saved", saveData],
    remove: ["Not removed", removeSection],
};
for (const [id, [failure, action]] of Object.entries(BUTTONS)) $(id).addEventListener("click", () => attempt(failure, action));
$("next").addEventListener("click", () => nextFault());
$("theme").addEventListener("change", () => (document.documentElement.style.colorScheme = $("theme").value));
$("search").addEventListener("input", () => {
    clearTimeout(pause);
    pause = setTimeout(search, PAUSE);
});
$("search").addEventListener("keydown", pressedInSearch);
addEventListener("hashchange", () => goToLink(location.hash));
for (const kind of ["dragover", "dragleave", "drop"]) {
    addEventListener(kind, event => {
        event.preventDefault();
        document.body.classList.toggle("over", kind === "dragover");
        if (kind === "drop") take(event.target.closest?.("label.file")?.control.id ?? "file", event.dataTransfer.files);
    });
}
