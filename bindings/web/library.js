// The library, loaded where it is first needed; the options that its checks take; and the error for what it refuses.
import { Ndef } from "./ndef.js";

let loaded = null, loading = null;
let code = null; // the octets of ndef.wasm, or a function that fetches them

// Says where the library is. Octets are taken before a function, where a program has both entries of the package.
export function provide(given) {
    if (code === null || typeof code === "function") code = given;
}

// Throws why the library can't be loaded. Its code is sound, so it is the page's policy that doesn't let it be compiled; browsers have their own
// words and errors for that.
function notLoaded(error) {
    loading = null;
    if (error.name !== "CompileError" && error.name !== "EvalError") throw error;
    throw new Error("the Content Security Policy forbids WebAssembly: its script-src needs 'wasm-unsafe-eval'", { cause: error });
}

// Compiles the library without holding up the page. Calls compile it themselves otherwise, which browsers before 2023
// refuse outside of workers.
export async function ready() {
    if (loaded !== null) return;
    loading ??= Promise.resolve(typeof code === "function" ? code() : code).then(Ndef.load).catch(notLoaded);
    const made = await loading;
    loaded ??= made;
}

export function library() {
    if (loaded !== null) return loaded;
    if (typeof code === "function") throw new Error("await ready() before the first call: the library is in a file of its own");
    try {
        loaded = Ndef.loadNow(code);
    } catch (error) {
        notLoaded(error);
    }
    return loaded;
}

const NO_OPTIONS = Object.freeze({ payload: undefined, records: undefined, chunks: undefined, flags: 0 });

// The limits and flags for `check` of ndef.js: those of { payload, records, chunks, standard, opaque }.
export function optionsOf(options) {
    if (options === undefined) return NO_OPTIONS;
    if (options === null || typeof options !== "object") throw new TypeError("options are an object");
    const { payload, records, chunks, standard, opaque } = options;
    return { payload, records, chunks, flags: (standard ? Ndef.STANDARD : 0) | (opaque ? Ndef.OPAQUE : 0) };
}

// The error for bytes that are no message, or no payload of their type: `place` is the first byte after which none that
// follow make the bytes one, or their number; `reason` its number, `name` its name, `sentence` what it means. Where `encode` refuses a record,
// `record` is its index, and `place` counts from its first byte; else `record` is null. The message has what the reason means.
export class NdefError extends Error {
    constructor(place, reason, name, sentence, record = null, meaning = sentence) {
        super(`${record === null ? "" : `record ${record}: `}refused at ${place}: ${name}: ${meaning}`);
        this.record = record;
        this.place = place;
        this.reason = reason;
        this.name = name;
        this.sentence = sentence;
    }

    // The same words as the first line of its stack: `name` is that of the reason.
    toString() {
        return `NdefError: ${this.message}`;
    }

    // The error for what a call of ndef.js refused.
    static of({ place, reason }) {
        return new NdefError(place, reason, library().reasonName(reason), library().reasonSentence(reason));
    }

    // The error for other bytes after a message, which is no reason of the library: its number is 0.
    static trailing(place) {
        return new NdefError(place, 0, "TrailingBytes", "Other bytes follow the message.");
    }
}
NdefError.prototype.name = "NdefError";

// The answer of a call of ndef.js, unless it is a refusal.
export function accepted(answer) {
    if (answer.status === Ndef.REFUSED) throw NdefError.of(answer);
    return answer;
}

// The bytes that a call of ndef.js wrote, unless it refused what it was given. Causes: each a sentence, and a call that writes the part alone of which
// it speaks; the first that the library refuses is the cause, and the last where it takes all of them.
export function written({ status, bytes }, what, ...causes) {
    if (status === Ndef.OK) return bytes;
    const [why] = causes.find(([, write]) => write?.().status === Ndef.BAD_ARGUMENT) ?? causes[causes.length - 1];
    throw new RangeError(`${what} can't be written: ${why}`);
}

// The answer of the first call of a list that is refused, or the one of none.
export function firstRefused(list, write) {
    return list.map(write).find(({ status }) => status !== Ndef.OK) ?? { status: Ndef.OK };
}
