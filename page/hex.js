// SPDX-License-Identifier: Apache-2.0 OR MIT
// The bytes of the file. It reads what is in sight, block by block, so the file is never in memory as a whole.
import { Scroller } from "./scroller.js";

const ROW = 20, BLOCK = 65536, MOST_BLOCKS = 32, NOTHING = { first: 0, start: 0, end: 0 };
// Below this width, in pixels, a row has 8 bytes instead of 16.
const NARROW = 600;
const padded = (n, digits) => n.toString(16).padStart(digits, "0");
const letterOf = byte => (byte > 32 && byte < 127 ? String.fromCharCode(byte) : "·");

export class Hex {
    /** `choose` is called with the offset of a byte that is clicked, `fail` if the file cannot be read. */
    constructor(box, choose, fail) {
        Object.assign(this, { box, fail, file: new Blob(), blocks: new Map(), faults: new Set(), perRow: 0, mark: -1, chosen: NOTHING });
        this.scroller = new Scroller(box, ROW, () => this.draw());
        new ResizeObserver(() => this.setWidth()).observe(box);
        box.addEventListener("click", ({ target }) => target.dataset.at < this.file.size && choose(Number(target.dataset.at)));
    }

    open(file, faults) {
        Object.assign(this, { file, faults: new Set(faults), blocks: new Map(), perRow: 0, mark: -1, chosen: NOTHING });
        this.digits = Math.max(8, file.size.toString(16).length);
        this.setWidth();
    }

    setWidth() {
        const perRow = this.box.clientWidth < NARROW ? 8 : 16;
        if (perRow === this.perRow) return;
        this.perRow = perRow;
        // The offset past the last byte has a place too, as a fault may be there.
        this.scroller.setCount(Math.floor(this.file.size / perRow) + 1);
        this.show(this.chosen.first, this);
    }

    /** Shows an offset, with a mark or a highlighted range of bytes, of which those before `start` are an id and a size. */
    show(offset, { mark = -1, chosen = this.chosen }) {
        Object.assign(this, { mark, chosen });
        if (this.perRow) this.scroller.show(Math.floor(offset / this.perRow));
        this.draw();
    }

    // The byte at an offset, or undefined while it is not read yet.
    byteAt(offset) {
        const number = Math.floor(offset / BLOCK), block = this.blocks.get(number);
        if (block === undefined && offset < this.file.size) this.read(number);
        return block?.[offset % BLOCK];
    }

    async read(number) {
        const { file, blocks } = this;
        if (blocks.size >= MOST_BLOCKS) blocks.delete(blocks.keys().next().value);
        blocks.set(number, null);
        try {
            blocks.set(number, new Uint8Array(await file.slice(number * BLOCK, (number + 1) * BLOCK).arrayBuffer()));
            if (file === this.file) this.draw();
        } catch (error) {
            this.fail(error);
        }
    }

    draw() {
        const { list, top, inSight } = this.scroller, { perRow } = this, rows = [];
        for (let row = inSight.first; perRow && row < inSight.first + inSight.count && row * perRow <= this.file.size; row++) {
            rows.push(this.row(row * perRow));
        }
        list.replaceChildren(...rows);
        if (rows.length) rows[0].style.marginTop = `${-(top % ROW)}px`;
    }

    // A row: its offset, its bytes in hexadecimal, and as text.
    row(from) {
        const line = document.createElement("div"), offset = line.appendChild(document.createElement("span")), end = from + this.perRow;
        Object.assign(offset, { className: "at", textContent: `${padded(from, this.digits)}  ` });
        for (const isText of [false, true]) {
            for (let at = from; at < end; at++) {
                const byte = this.byteAt(at), kind = this.kindOf(at), joins = at + 1 < end && kind === this.kindOf(at + 1);
                const gap = isText ? "" : at % 8 === 7 ? "  " : " ", cell = line.appendChild(document.createElement("span"));
                const text = byte === undefined ? "  ".slice(isText) : isText ? letterOf(byte) : padded(byte, 2);
                cell.textContent = joins ? text + gap : text;
                cell.className = kind;
                cell.dataset.at = at;
                if (!joins) line.append(gap);
            }
        }
        return line;
    }

    kindOf(at) {
        const { first, start, end } = this.chosen;
        const kind = this.faults.has(at) ? "fault" : at < first || at >= end ? "" : at < start ? "before" : "chosen";
        return at === this.mark ? `${kind} mark` : kind;
    }
}
