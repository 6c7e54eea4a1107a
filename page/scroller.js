// SPDX-License-Identifier: Apache-2.0 OR MIT
// Scrolls rows of one height, of which only those in sight exist. Browsers cap the height of an element (Chromium at 33.6 million
// pixels, Firefox at 17.8), so a longer list has a scaled scroll bar: small movements are exact, large ones proportional.
const MOST = 8e6;

export class Scroller {
    /** `box` is the element that scrolls; `draw` draws the rows that are `inSight` into `list`. */
    constructor(box, rowHeight, draw) {
        Object.assign(this, { box, rowHeight, draw, count: 0, top: 0, placed: 0 });
        this.room = box.appendChild(document.createElement("div"));
        this.list = this.room.appendChild(document.createElement("div"));
        this.list.className = "list";
        for (const it of [this.room, this.list]) it.setAttribute("role", "none");
        box.addEventListener("scroll", () => this.scrolled());
        box.addEventListener("wheel", event => this.wheeled(event), { passive: false });
        new ResizeObserver(() => this.setCount(this.count)).observe(box);
    }

    get height() { return this.count * this.rowHeight; }
    get lowest() { return Math.max(0, this.height - this.box.clientHeight); }
    get isScaled() { return this.height > MOST; }
    get inSight() { return { first: Math.floor(this.top / this.rowHeight), count: Math.ceil(this.box.clientHeight / this.rowHeight) + 1 }; }

    setCount(count) {
        this.count = count;
        const height = Math.min(this.height, MOST);
        this.room.style.height = `${height}px`;
        this.list.style.height = `${Math.min(height, this.box.clientHeight)}px`;
        this.moveTo(this.top);
    }

    moveTo(top) {
        const { box, lowest } = this, most = box.scrollHeight - box.clientHeight, page = box.clientHeight;
        this.top = Math.max(0, Math.min(top, lowest));
        let at = this.top;
        // Between the ends a scaled scroll bar keeps off them, so that it can move on in both directions.
        if (this.isScaled && at > 0) at = at === lowest ? most : Math.max(page, Math.min(at / lowest * most, most - page));
        if (Math.abs(box.scrollTop - at) >= 1) box.scrollTop = at;
        this.placed = box.scrollTop;
        this.draw();
    }

    scrolled() {
        const { box } = this, at = box.scrollTop, moved = at - this.placed, most = box.scrollHeight - box.clientHeight;
        if (moved === 0) return;
        const isSmall = at > 0 && at < most - 1 && Math.abs(moved) < box.clientHeight;
        this.moveTo(!this.isScaled ? at : isSmall ? this.top + moved : at >= most - 1 ? this.lowest : this.lowest * at / most);
    }

    wheeled(event) {
        if (!this.isScaled || event.ctrlKey) return;
        event.preventDefault();
        this.moveTo(this.top + event.deltaY * [1, this.rowHeight, this.box.clientHeight][event.deltaMode]);
    }

    /** Shows a row: scrolls as little as it takes, or far rows into the upper part. */
    show(row) {
        const { top, rowHeight, box } = this, at = row * rowHeight, last = at + rowHeight - box.clientHeight;
        if (at < top) this.moveTo(at > top - 2 * rowHeight ? at : at - box.clientHeight / 4);
        else if (last > top) this.moveTo(last < top + 2 * rowHeight ? last : at - box.clientHeight / 4);
    }
}
