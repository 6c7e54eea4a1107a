// Functions for the scripts that `tools/try page` runs in the page.
const $ = id => document.getElementById(id), pause = ms => new Promise(done => setTimeout(done, ms ?? 10));
const until = async test => { for (let i = 0; i < 1000 && !test(); i++) await pause(); };
const rows = () => [...document.querySelectorAll('#tree .row')].sort((a, b) => a.dataset.row - b.dataset.row).map(it => ({
    row: Number(it.dataset.row), level: Number(it.ariaLevel), texts: [...it.children].map(one => one.textContent), isOpen: it.ariaExpanded,
    isBad: it.classList.contains('bad'), size: Number(it.ariaSetSize), place: Number(it.ariaPosInSet), isChosen: it.ariaSelected === 'true',
    stops: it.tabIndex === 0, offset: parseInt(it.querySelector('.at').textContent) }));

// Opens all rows, and returns them.
const openAll = async () => {
    for (let i = 0; i < 400; i++) {
        const row = document.querySelector('.row[aria-expanded=false]');
        if (!row) break;
        row.click();
        await until(() => row.ariaExpanded === 'true');
    }
    return rows();
};
// Starts to measure how long the page does not react.
const measure = () => {
    window.last = performance.now();
    window.longest = 0;
    setInterval(() => {
        const now = performance.now();
        window.longest = Math.max(window.longest, now - window.last);
        window.last = now;
    }, 5);
};
const cellsAt = at => [...$('hex').querySelectorAll(`[data-at='${at}']`)];
const isIn = (it, box, slack) => it.getBoundingClientRect().top >= box.top - slack && it.getBoundingClientRect().bottom <= box.bottom + slack;
// The texts of the bytes from 0 to a number.
const letters = async count => {
    await until(() => cellsAt(count)[0]?.textContent.trim());
    return [...Array(count).keys()].map(at => cellsAt(at).map(it => it.textContent.trim()));
};
// Clicks a row, and returns the title of its bytes.
const clicked = async (row, offset) => {
    document.querySelector(`.row[data-row='${row}']`).click();
    await until(() => $('hex-title').textContent.startsWith(`Bytes 0x${offset.toString(16)} `));
    await pause(60);
    return $('hex-title').textContent;
};
const highlighted = () => [...$('hex').querySelectorAll('.chosen, .before')].map(it => [Number(it.dataset.at), it.textContent.trim()]);
const isFaultInSight = at => {
    const it = $('hex').querySelector(`.fault[data-at='${at}']`);
    return it && isIn(it, $('hex').getBoundingClientRect(), 0);
};
// What is in sight of a byte: its text, and whether all of it is.
const byteInSight = async at => {
    await until(() => cellsAt(at)[0]?.textContent.trim());
    const [it] = cellsAt(at);
    return it ? [it.textContent.trim(), isIn(it, $('hex').getBoundingClientRect(), 1)] : [$('hex').querySelector('[data-at]').dataset.at, 'not there'];
};
// What is cut off at the left or the right.
const cutOff = () => [...document.querySelectorAll('header, header *, #bar, #notice, .pane, .scroll, #section, #section *, #details, footer, footer *')]
    .filter(it => it.checkVisibility() && (it.getBoundingClientRect().right > innerWidth || it.getBoundingClientRect().left < 0))
    .map(it => it.outerHTML.slice(0, 80));
// Whether a row is selected, and is a custom section with buttons.
const selected = row => document.querySelector(`.row[data-row='${row}']`)?.ariaSelected === 'true' && $('section').checkVisibility();
// Drops a file of these bytes on an element.
const drop = (it, name, bytes) => {
    const dataTransfer = new DataTransfer();
    dataTransfer.items.add(new File([new Uint8Array(bytes)], name));
    it.dispatchEvent(new DragEvent('drop', { dataTransfer, bubbles: true, cancelable: true }));
};
