// What the parts of the page share: elements, and bytes and numbers as text.
export const byId = (id) => document.getElementById(id);
const DIGITS = Array.from({ length: 256 }, (_, byte) => byte.toString(16).padStart(2, "0").toUpperCase());
export const twoDigits = (byte) => DIGITS[byte];
export const toHex = (bytes) => Array.from(bytes, twoDigits).join(" ");
export const bytesOfHex = (digits) => Uint8Array.from({ length: digits.length / 2 }, (_, at) => parseInt(digits.slice(2 * at, 2 * at + 2), 16));
export const ascii = (byte) => (byte >= 0x20 && byte < 0x7f ? String.fromCharCode(byte) : null);
// Text with escapes for characters that are not shown, or that change how others are: controls and marks of direction. A line ends as it is.
export const visible = (text) => text.replace(/\r\n?/g, "\n").replace(/[\u0000-\u0008\u000b-\u001f\u007f-\u009f\u061c\u200b\u200e\u200f\u2028-\u202e\u2060-\u2069\ufeff]/g,
    (one) => `\\u{${one.charCodeAt(0).toString(16)}}`);
export const shortened = (text, most) => visible(text.slice(0, most)) + (text.length > most ? " …" : "");
export const plural = (count, word) => `${count} ${word}${count === 1 ? "" : "s"}`;
export const capital = (text) => text[0].toUpperCase() + text.slice(1);

// An element with a class, text and children.
export function element(name, options = {}, ...children) {
    const made = document.createElement(name);
    Object.entries(options).forEach(([key, value]) => {
        if (key === "text") made.textContent = value;
        else if (key === "kind") made.className = value;
        else made.setAttribute(key, value);
    });
    made.append(...children);
    return made;
}
