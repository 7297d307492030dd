// What the tests of the package share: they are counted, compare answers, and read the cases of the suite.
import { readFileSync } from "node:fs";

let passed = 0, failed = 0;

// A test, which passes where its function answers true or nothing, and fails where it throws.
export async function test(name, holds) {
    let why;
    try {
        why = (await holds()) === false ? "no" : null;
    } catch (error) {
        why = error.stack;
    }
    if (why === null) passed++;
    else { failed++; console.log(`FAILED: ${name}: ${why}`); }
}

// A value in text that tells bytes of every class, and numbers and strings apart.
export function shown(value) {
    return JSON.stringify(value, (_, one) => {
        if (one instanceof DataView) return `view ${hexOf(new Uint8Array(one.buffer, one.byteOffset, one.byteLength))}`;
        if (one instanceof Uint8Array) return `bytes ${hexOf(one)}`;
        return one === undefined ? "undefined" : one;
    });
}

export function same(got, wanted) {
    if (shown(got) !== shown(wanted)) throw new Error(`${shown(got)} is not ${shown(wanted)}`);
}

// What a call throws.
function thrown(call) {
    try {
        call();
    } catch (error) {
        return error;
    }
    throw new Error(`nothing is thrown by ${call}`);
}

export function throws(kind, call) {
    const error = thrown(call);
    if (error.constructor !== kind) throw new Error(`${call} throws ${error.stack}`);
    return error;
}

export const bytesOf = (hex) => Uint8Array.from(Buffer.from(hex.replace(/[ -]/g, ""), "hex"));
export const hexOf = (bytes) => Buffer.from(bytes).toString("hex");

// A record in hexadecimal, as NDEF 1.0, 3.2 lays it out: its header octet, its type, its payload in hexadecimal, and its id.
export function recordHex(header, type, payload = "", id = "") {
    const octets = bytesOf(payload), count = (length) => length.toString(16).padStart(2, "0");
    const isShort = bytesOf(header)[0] & 0x10, length = isShort ? count(octets.length) : octets.length.toString(16).padStart(8, "0");
    return [header.toLowerCase(), count(type.length), length, id ? count(id.length) : "", hexOf(Buffer.from(type)), hexOf(Buffer.from(id)), hexOf(octets)].join("");
}

// The cases of the suite, of lines on standard input: the bytes, the languages, profiles and limits with which they are tried, and the
// answer.
export function cases() {
    return readFileSync(0, "utf8").split("\n").filter(Boolean).flatMap((line) => {
        const [, , , , languages, profile, limits, hex, answer] = line.split("|").map((field) => field.trim()), words = limits.split(" ");
        const options = {};
        for (const name of ["payload", "records", "pieces"]) if (words.includes(name)) options[name === "pieces" ? "chunks" : name] = Number(words[words.indexOf(name) + 1]);
        const profiles = profile === "both" ? ["strict", "standard"] : [profile], [word, place, reason] = answer.split(" ");
        return ["typed", "opaque"].filter((name) => languages.split(" ").includes(name)).flatMap((language) => profiles.map((name) => ({
            line, bytes: bytesOf(hex), options: { ...options, standard: name === "standard", opaque: language === "opaque" },
            isAccepted: word === "accepted", place: Number(place), reason: word === "more" ? 24 : Number(reason),
        })));
    });
}

export function finish() {
    console.log(`${passed} passed, ${failed} failed`);
    process.exit(failed || !passed ? 1 : 0);
}
