
const parse = color => { const n = color.match(/[\d.]+/g).map(Number); return [n[0], n[1], n[2], n[3] ?? 1]; };
const over = (top, below) => below.map((b, i) => i < 3 ? top[i] * top[3] + b * (1 - top[3]) : 1);
const linear = c => c <= 0.03928 ? c / 12.92 : ((c + 0.055) / 1.055) ** 2.4;
const luminance = c => [0.2126, 0.7152, 0.0722].reduce((sum, weight, i) => sum + weight * linear(c[i] / 255), 0);
const behind = it => it ? over(parse(getComputedStyle(it).backgroundColor), behind(it.parentElement)) : [255, 255, 255, 1];
let lowest = [99, ''];
const look = (it, color, what) => {
    const back = behind(it), front = over(parse(color), back), a = luminance(front), b = luminance(back);
    const ratio = (Math.max(a, b) + 0.05) / (Math.min(a, b) + 0.05);
    if (ratio < lowest[0]) lowest = [ratio, `${what} in ${it.outerHTML.slice(0, 120)}`];
};
const walker = document.createTreeWalker(document.body, NodeFilter.SHOW_TEXT);
while (walker.nextNode()) {
    const it = walker.currentNode.parentElement;
    const data = walker.currentNode.data.trim();
    if (data && it.checkVisibility() && !it.closest('script, style')) look(it, getComputedStyle(it).color, data);
}
for (const it of document.querySelectorAll('input, select')) {
    look(it, getComputedStyle(it).color, 'value');
    if (it.placeholder) look(it, getComputedStyle(it, '::placeholder').color, 'placeholder');
}
return lowest;