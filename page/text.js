// SPDX-License-Identifier: Apache-2.0 OR MIT
// Numbers and texts of the file as the page shows them.

export const numbers = new Intl.NumberFormat("en");
export const plural = (n, word, words = `${word}s`) => `${numbers.format(n)} ${n === 1 ? word : words}`;
export const hex = n => `0x${n.toString(16)}`;
export const faultOf = fault => `${fault.text}${fault.number === null ? "" : `: ${fault.number}`}`;

/** A text of the file, in which characters that cannot be seen, or that change others, are escaped. */
export function shown(text, most = 300) {
    const cut = text.length > most ? `${text.slice(0, most)}…` : text;
    return cut.replace(/[\p{Cc}\p{Cf}\p{Cs}\p{Zl}\p{Zp}]/gu, char => `\\u{${char.codePointAt(0).toString(16)}}`);
}
