// SPDX-License-Identifier: Apache-2.0 OR MIT
// The search of the reference. tools/site puts INDEX before this: of each item its name, its kind, its address and its summary.
"use strict";
const MOST = 40;
const KINDS = { fn: "function", type: "type alias", const: "constant" };
const box = document.getElementById("search"), words = document.getElementById("words"), found = document.getElementById("found");
let chosen = -1;

// How well a name fits what is searched, lower being better, or Infinity if it doesn't. A definition comes after an item.
function rank(name, kind, summary, query) {
  const whole = name.toLowerCase(), last = whole.split("::").pop();
  const later = kind === "definition" ? 0.5 : 0;
  if (last === query || whole === query) return later;
  if (last.startsWith(query)) return 1 + later + last.length / 1000;
  if (whole.includes(query)) return 2 + later + whole.length / 1000;
  const parts = query.split(/[\s:.]+/).filter(Boolean);
  if (parts.length > 1 && parts.every((part) => whole.includes(part))) return 3 + later;
  return parts.every((part) => whole.includes(part) || summary.toLowerCase().includes(part)) ? 4 + later : Infinity;
}

function matches(query) {
  const ranked = INDEX.map((row) => [rank(row[0], row[1], row[3], query), row]);
  return ranked.filter(([fit]) => fit < Infinity).sort((a, b) => a[0] - b[0]).slice(0, MOST).map(([, row]) => row);
}

function element(tag, text) {
  const made = document.createElement(tag);
  made.textContent = text;
  return made;
}

function option([name, kind, href, summary], number) {
  const row = document.createElement("li"), link = document.createElement("a");
  row.id = "found-" + number;
  row.setAttribute("role", "option");
  link.href = href;
  link.tabIndex = -1;
  const [page, place] = href.split("#");
  const where = kind === "definition" ? place.split(".").slice(0, 2).join(".") : page.slice(0, -".html".length);
  link.append(element("b", name), element("i", (KINDS[kind] || kind) + ", " + where), element("small", summary));
  row.append(link);
  return row;
}

function choose(number) {
  const rows = found.querySelectorAll("[role=option]");
  chosen = rows.length ? (number + rows.length) % rows.length : -1;
  rows.forEach((row, at) => row.setAttribute("aria-selected", at === chosen));
  if (chosen < 0) return words.removeAttribute("aria-activedescendant");
  words.setAttribute("aria-activedescendant", rows[chosen].id);
  rows[chosen].scrollIntoView({ block: "nearest" });
}

function show(isShown) {
  found.hidden = !isShown;
  words.setAttribute("aria-expanded", isShown);
}

function search() {
  const query = words.value.trim().toLowerCase();
  const rows = query ? matches(query) : [];
  found.replaceChildren(...rows.map(option));
  if (query && !rows.length) {
    const none = element("li", "No item or definition has this name.");
    none.className = "none";
    found.append(none);
  }
  show(Boolean(query));
  choose(0);
}

words.addEventListener("input", search);
words.addEventListener("focus", () => words.value && search());
words.addEventListener("keydown", (event) => {
  if (event.key === "ArrowDown") choose(chosen + 1);
  else if (event.key === "ArrowUp") choose(chosen - 1);
  else if (event.key === "Escape") found.hidden ? words.blur() : show(false);
  else if (event.key === "Enter" && chosen >= 0) found.querySelector("[aria-selected=true] a").click();
  else return;
  event.preventDefault();
});
found.addEventListener("click", () => { show(false); words.blur(); });
document.addEventListener("click", (event) => box.contains(event.target) || show(false));
document.addEventListener("keydown", (event) => {
  if (event.key !== "/" || event.ctrlKey || event.metaKey || event.altKey || /^(INPUT|TEXTAREA|SELECT)$/.test(event.target.tagName)) return;
  event.preventDefault();
  words.focus();
  words.select();
});
if (matchMedia("(hover: none)").matches) words.placeholder = "Search";
box.hidden = false;
