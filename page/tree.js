// SPDX-License-Identifier: Apache-2.0 OR MIT
// The tree, after the pattern "Tree View" of the ARIA Authoring Practices Guide. Its rows come from the worker.
import { Scroller } from "./scroller.js";
import { hex } from "./text.js";

const ROW = 22;

export class Tree {
    /** `ask` calls the worker, `choose` is called with the row that is chosen. */
    constructor(box, ask, choose) {
        Object.assign(this, { box, ask, choose, cursor: 0, turn: 0, drawn: 0, elements: new Map(), queue: Promise.resolve() });
        this.scroller = new Scroller(box, ROW, () => this.draw());
        box.addEventListener("click", event => this.clicked(event));
        box.addEventListener("keydown", event => this.pressed(event));
        box.addEventListener("focusin", () => this.scroller.show(this.cursor));
    }

    /** Shows other rows, from the first one on. */
    reset(count) {
        Object.assign(this, { cursor: 0, queue: Promise.resolve() });
        this.scroller.top = 0;
        this.scroller.setCount(count);
    }

    async draw() {
        const turn = ++this.turn, { first, count } = this.scroller.inSight;
        const rows = this.scroller.count ? await this.ask("rows", first, count, this.cursor) : [];
        if (turn < this.drawn) return;
        this.drawn = turn;
        this.render(rows);
    }

    // The row of the cursor always exists, as it is the one that the tab key stops at. The other elements are those in sight.
    render(rows) {
        const { list, top } = this.scroller, kept = new Set(rows.map(row => row.index));
        for (const [index, element] of this.elements) if (!kept.has(index) && this.elements.delete(index)) element.remove();
        let next = list.firstChild;
        for (const row of rows) {
            const element = this.elements.get(row.index) ?? this.made(row.index);
            this.fill(element, row);
            element.style.transform = `translateY(${Math.max(-2 * ROW, Math.min(row.index * ROW - top, list.clientHeight + ROW))}px)`;
            if (element === next) next = next.nextSibling;
            else list.insertBefore(element, next);
        }
        if (this.wantsFocus) this.elements.get(this.cursor)?.focus({ preventScroll: true });
        this.wantsFocus = false;
    }

    made(index) {
        const element = document.createElement("div");
        element.setAttribute("role", "treeitem");
        for (const name of ["head", "name", "tail", "at"]) element.appendChild(document.createElement("span")).className = name;
        this.elements.set(index, element);
        return element;
    }

    fill(element, row) {
        const isChosen = row.index === this.cursor, texts = [row.head, row.name, row.tail, hex(row.offset)];
        const states = { level: row.level, setsize: row.size, posinset: row.place + 1, expanded: row.isOpen, selected: isChosen };
        texts.forEach((text, i) => (element.children[i].textContent = text));
        for (const [name, value] of Object.entries(states)) element.setAttribute(`aria-${name}`, value);
        if (row.isOpen === null) element.removeAttribute("aria-expanded");
        element.title = texts.slice(0, 3).filter(Boolean).join(" ") + (row.isMarked ? " (with a fault inside)" : "");
        element.className = row.isBad ? "row bad" : row.isMarked ? "row marked" : "row";
        element.tabIndex = isChosen ? 0 : -1;
        element.dataset.row = row.index;
        element.style.setProperty("--level", row.level);
    }

    /** Chooses a row. */
    async go(row, wantsFocus = true) {
        this.cursor = Math.max(0, Math.min(row, this.scroller.count - 1));
        this.wantsFocus = wantsFocus;
        this.scroller.show(this.cursor);
        await Promise.all([this.draw(), this.choose(this.cursor)]);
    }

    async toggle(isOpen) {
        this.scroller.setCount(await this.ask("toggle", this.cursor, isOpen));
    }

    clicked(event) {
        const element = event.target.closest(".row"), isOpen = element?.ariaExpanded, row = Number(element?.dataset.row);
        const closes = isOpen === "true" && row === this.cursor;
        if (element) this.queue = this.queue.then(() => this.go(row)).then(() => isOpen && this.toggle(!closes));
    }

    // One key after the other, since a key may change the rows that the next one is about.
    pressed(event) {
        if (!(event.key in KEYS) || event.ctrlKey || event.metaKey || event.altKey) return;
        event.preventDefault();
        this.queue = this.queue.then(async () => {
            const row = (await this.ask("rows", this.cursor, 1, this.cursor))[0];
            if (row) await KEYS[event.key](this, row);
        });
    }
}

const page = tree => Math.max(1, tree.scroller.inSight.count - 3);
const toggled = (tree, row) => row.isOpen !== null && tree.toggle(!row.isOpen);
const KEYS = {
    ArrowDown: tree => tree.go(tree.cursor + 1), ArrowUp: tree => tree.go(tree.cursor - 1),
    PageDown: tree => tree.go(tree.cursor + page(tree)), PageUp: tree => tree.go(tree.cursor - page(tree)),
    Home: tree => tree.go(0), End: tree => tree.go(tree.scroller.count - 1),
    ArrowRight: (tree, row) => (row.isOpen ? tree.go(tree.cursor + 1) : row.isOpen === false && tree.toggle(true)),
    ArrowLeft: async (tree, row) => {
        if (row.isOpen) return tree.toggle(false);
        const parent = await tree.ask("parentOf", row.index);
        return parent >= 0 && tree.go(parent);
    },
    Enter: toggled, " ": toggled,
};
