// What callers give: bytes, characters and numbers.

// The bytes of an ArrayBuffer or of a view of one.
export function octets(given) {
    // Of another class, as Buffer, the methods may be others.
    if (ArrayBuffer.isView(given)) return given.constructor === Uint8Array ? given : new Uint8Array(given.buffer, given.byteOffset, given.byteLength);
    const kind = Object.prototype.toString.call(given);
    if (kind === "[object ArrayBuffer]" || kind === "[object SharedArrayBuffer]") return new Uint8Array(given);
    throw new TypeError(`bytes are an ArrayBuffer or a view of one, not ${given === null ? "null" : typeof given}`);
}

const ENCODER = new TextEncoder();

// Characters as bytes: of a string those of UTF-8.
export function characters(given) {
    return typeof given === "string" ? ENCODER.encode(given) : octets(given);
}

const UTF8 = new TextDecoder("utf-8", { ignoreBOM: true });
const STRICT = new TextDecoder("utf-8", { ignoreBOM: true, fatal: true });
const SHORT = 48; // bytes up to which ASCII takes less time letter by letter than by a decoder

// The characters of bytes in UTF-8, from one place up to another, a byte order mark among them.
export function utf8(bytes, from = 0, to = bytes.length) {
    if (to - from > SHORT) return UTF8.decode(bytes.subarray(from, to));
    let text = "";
    for (let index = from; index < to; index++) {
        if (bytes[index] > 127) return UTF8.decode(bytes.subarray(from, to));
        text += String.fromCharCode(bytes[index]);
    }
    return text;
}

// The same of bytes that may be anything: an error where they are not UTF-8.
export const strictUtf8 = (bytes) => STRICT.decode(bytes);

// Arrays of bytes, joined.
export function joined(arrays) {
    const all = new Uint8Array(arrays.reduce((sum, bytes) => sum + bytes.length, 0));
    let end = 0;
    arrays.forEach((bytes) => { all.set(bytes, end); end += bytes.length; });
    return all;
}

// Bytes that parts of a struct name: each is put after the others, and has its place and length.
export class Arena {
    #arrays = [];
    #length = 0;

    put(given) {
        const bytes = characters(given), at = this.#length;
        this.#arrays.push(bytes);
        this.#length += bytes.length;
        return [at, bytes.length];
    }

    get bytes() { return joined(this.#arrays); }
}

// The number, if it is a whole one of 0 to `most`.
export function whole(value, most, name) {
    if (typeof value !== "number") throw new TypeError(`${name} is a number, not ${value === null ? "null" : typeof value}`);
    if (Number.isInteger(value) && value >= 0 && value <= most) return value;
    throw new RangeError(`${name} is a whole number of 0 to ${most}, not ${value}`);
}
