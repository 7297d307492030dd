// The memory of the library in WebAssembly: what is laid into it, and what is read from it.
import { utf8 } from "./bytes.js";
import { LAYOUT } from "./interface.js";

const STRUCTS = 1024; // memory for structs, before the bytes
const SHORT = 48; // bytes up to which a loop takes less time than a call of the engine

// A copy of some bytes, from one place up to another.
function copied(bytes, from, to) {
    if (to - from > SHORT) return bytes.slice(from, to);
    const copy = new Uint8Array(to - from);
    for (let index = 0; index < copy.length; index++) copy[index] = bytes[from + index];
    return copy;
}

// The members of each struct, ready to be read one after another.
const MEMBERS = Object.fromEntries(Object.entries(LAYOUT).map(([name, { members }]) =>
    [name, Object.entries(members).map(([member, [place, size]]) => ({ member, place, size }))]));

// The word of 32 bits at which each member of a struct begins, counted from the front of the struct. Of a place or a length, which lie in a memory
// of 32 bits, this word has all.
export function wordsOf({ members }) {
    return Object.fromEntries(Object.entries(members).map(([member, [place]]) => [member, place / 4]));
}

// The bytes of a struct. A part of other bytes is [at, length]; a member that is left out is 0.
export function structOf({ size, members }, values) {
    const view = new DataView(new ArrayBuffer(size));
    for (const [member, [place, width]] of Object.entries(members)) {
        const value = values[member] ?? 0;
        if (width === 4) view.setUint32(place, value, true);
        else if (width === 8) view.setBigUint64(place, BigInt(value), true);
        else (value || []).forEach((number, index) => view.setBigUint64(place + 8 * index, BigInt(number), true));
    }
    return new Uint8Array(view.buffer);
}

// How many indices below `count` hold, where those that hold are the first ones.
export function countBelow(count, holds) {
    let low = 0, high = count;
    while (low < high) {
        const middle = Math.floor((low + high) / 2);
        if (holds(middle)) low = middle + 1;
        else high = middle;
    }
    return low;
}

// The memory after an address, `base`: first the structs, each at an offset from there, and then bytes. It is seen as bytes and as words of 32
// bits; these views are made once, and again where the memory has grown.
export class Memory {
    #memory;
    #octets;
    #words;

    constructor(memory, base) {
        this.base = base;
        this.#memory = memory;
        this.#look();
        this.reach(base + STRUCTS);
    }

    #look() {
        this.#octets = new Uint8Array(this.#memory.buffer);
        this.#words = new Uint32Array(this.#memory.buffer);
    }

    get octets() {
        if (this.#octets.length === 0) this.#look();
        return this.#octets;
    }

    get words() {
        if (this.#words.length === 0) this.#look();
        return this.#words;
    }

    // Where the bytes begin that are laid.
    get front() { return this.base + STRUCTS; }

    // Grows the memory where it ends before an address.
    reach(end) {
        const more = end - this.octets.length;
        if (more > 0) this.#memory.grow(Math.ceil(more / 65536));
    }

    // Lays bytes at an address.
    put(bytes, at) {
        const { octets } = this;
        if (bytes.length > SHORT) octets.set(bytes, at);
        else for (let index = 0; index < bytes.length; index++) octets[at + index] = bytes[index];
    }

    // Lays arrays of bytes after the structs; answers their addresses. A number stands for a buffer of this many bytes.
    lay(arrays) {
        let end = this.front;
        const places = arrays.map((bytes) => { const at = end; end = (end + (bytes.length ?? bytes) + 15) & ~15; return at; });
        this.reach(end);
        arrays.forEach((bytes, index) => { if (typeof bytes !== "number") this.put(bytes, places[index]); });
        return places;
    }

    // The same for one array; answers its address.
    layOne(bytes) {
        this.reach(this.front + bytes.length);
        this.put(bytes, this.front);
        return this.front;
    }

    // The same; answers a copy where the bytes are few, which takes one loop for both, or else null.
    layAndCopy(bytes) {
        const { length } = bytes, at = this.front;
        if (length > SHORT) {
            this.layOne(bytes);
            return null;
        }
        const { octets } = this, copy = new Uint8Array(length);
        for (let index = 0; index < length; index++) octets[at + index] = copy[index] = bytes[index];
        return copy;
    }

    // A copy of bytes, and characters in UTF-8, at an address.
    bytes(at, length) { return copied(this.octets, at, at + length); }
    text(at, length) { return utf8(this.octets, at, at + length); }

    // A number of 64 bits at an offset.
    u64(offset) {
        const { words } = this, at = (this.base + offset) >> 2;
        return words[at] + words[at + 1] * 2 ** 32;
    }

    // The members of a struct at an offset, by their names, each a number.
    struct(name, offset) {
        const { words } = this, values = {};
        for (const { member, place, size } of MEMBERS[name]) {
            const at = (this.base + offset + place) >> 2;
            if (size === 4) values[member] = words[at];
            else if (size === 8) values[member] = words[at] + words[at + 1] * 2 ** 32;
            else values[member] = this.struct("part", offset + place);
        }
        return values;
    }

    // The structs of an array at an offset.
    structs(name, offset, count) {
        const { size } = LAYOUT[name];
        return Array.from({ length: count }, (_, index) => this.struct(name, offset + size * index));
    }
}
