// Messages written in parts of a size, and records whose payload comes in parts: neither is whole in memory.
import { octets, whole } from "./bytes.js";
import { Ndef } from "./ndef.js";
import { NdefError, library, optionsOf, written } from "./library.js";
import { NDEFRecord, causesOf, messageFor, partsOf } from "./record.js";

const NONE = new Uint8Array(), USUAL = 4096, MOST = 2 ** 32 - 1;

// The parts of a ReadableStream, of which some browsers make no iterator.
function partsOfStream(stream) {
    const reader = stream.getReader();
    return { next: () => reader.read(), return: (reason) => reader.cancel(reason) };
}

// An iterator of parts, whose `next` may answer a promise.
function iteratorOf(parts) {
    const make = parts?.[Symbol.iterator] ?? parts?.[Symbol.asyncIterator];
    if (typeof make === "function") return make.call(parts);
    if (typeof parts?.getReader === "function") return partsOfStream(parts);
    throw new TypeError("the parts of a payload are an iterable of bytes or a ReadableStream");
}

// A record that is written in steps: its parts as NDEF has them, the length of its payload, and an iterator of that.
function sourceOf(init) {
    if (init?.parts === undefined) {
        const { tnf, type, idBytes: id, payload } = init instanceof NDEFRecord ? init : new NDEFRecord(init);
        return { tnf, type, id, length: payload.length, parts: [payload][Symbol.iterator](), payload };
    }
    const { parts, length, ...rest } = init, { tnf, type, id, payload } = partsOf({ ...rest, ...(rest.tnf === undefined ? { data: "" } : { payload: "" }) });
    if (payload !== undefined && payload.length > 0) throw new TypeError(`a record of the type ${rest.recordType} has data, and no parts`);
    return { tnf, type, id, length: whole(length, MOST, "length"), parts: iteratorOf(parts) };
}

// The records of a message: those of a list may have parts.
function sourcesOf(message) {
    const records = message?.records, isList = typeof records?.[Symbol.iterator] === "function";
    const sources = Array.from(isList ? records : messageFor(message).records, sourceOf);
    if (sources.length === 0) throw new TypeError("a message is an object with a list of records, at least one");
    return sources;
}

// Looks at what is written of a message, unless that is unchecked.
class Check {
    #how;
    #state;
    #begun = 0; // where the record begins that is written
    #length = 0;

    constructor(options) {
        this.#how = optionsOf(options);
        this.#state = options?.unchecked ? null : library().begin(this.#how);
    }

    nextRecord() { this.#begun = this.#length; }

    take(bytes, source, index) {
        this.#length += bytes.length;
        const answer = this.#state === null ? null : library().feed(this.#state, bytes);
        if (answer?.status === Ndef.REFUSED) throw this.#refusal(answer, source, index);
    }

    // The sentence is that of the record alone, where it is at hand and is refused alone for the same reason.
    #refusal({ place, reason }, { tnf, type, id, payload }, index) {
        const calls = library(), flags = Ndef.WRITE_FIRST | Ndef.WRITE_LAST;
        const single = payload === undefined ? null : calls.writeRecord({ tnf, type, id, payload, flags }).bytes;
        const isSame = single !== null && calls.check(single, this.#how).reason === reason;
        const meaning = calls.reasonSentence(reason), sentence = (isSame ? calls.why(single, this.#how) : null) ?? meaning;
        return new NdefError(place - this.#begun, reason, calls.reasonName(reason), sentence, index, meaning);
    }
}

// Memory for a part of a size, of which the front is filled.
class Page {
    #bytes;
    #filled = 0;

    constructor(size) { this.#bytes = new Uint8Array(size); }

    get left() { return this.#bytes.length - this.#filled; }

    put(bytes) {
        this.#bytes.set(bytes, this.#filled);
        this.#filled += bytes.length;
    }

    // What is filled, of which nothing is kept.
    take() {
        const taken = this.#bytes.slice(0, this.#filled);
        this.#filled = 0;
        return taken;
    }
}

// The bytes that the library writes of a record, in steps of what a page takes. For each next part of the payload it yields the iterator, and is
// given what that answers. It yields a page that is full.
function* recordInSteps(source, flags, page, look) {
    const { length } = source, { state } = begun(source, flags);
    let taken = 0;
    for (let part = NONE; ;) {
        const answer = library().writeNext(state, source, part.subarray(0, page.left), page.left);
        if (answer.status === Ndef.OK) {
            look(answer.bytes);
            page.put(answer.bytes);
            part = part.subarray(answer.taken);
            if (page.left === 0) {
                yield page.take();
                continue;
            }
        }
        const { done, value } = yield source.parts;
        if (done) break;
        part = octets(value);
        taken += part.length;
        if (taken > length) throw new RangeError(`the parts have more than the ${length} bytes of the payload`);
    }
    if (taken < length) throw new RangeError(`the parts have ${taken} bytes, and the payload ${length}`);
}

// Begins a record, or throws why there is none.
function begun(source, flags) {
    const answer = library().beginRecord({ ...source, flags });
    if (answer.status === Ndef.OK) return answer;
    written(answer, "a record", ...causesOf(source));
}

// The message in steps: parts of the size, and iterators of payloads, as recordInSteps yields them.
function* inSteps(sources, options) {
    const size = whole(options?.size ?? USUAL, MOST, "size"), last = sources.length - 1;
    if (size === 0) throw new RangeError("size is at least 1");
    const page = new Page(size), check = new Check(options);
    for (const [index, source] of sources.entries()) {
        const flags = (index === 0 ? Ndef.WRITE_FIRST : 0) | (index === last ? Ndef.WRITE_LAST : 0);
        yield* recordInSteps(source, flags, page, (bytes) => check.take(bytes, source, index));
        check.nextRecord();
    }
    if (page.left < size) yield page.take();
}

// Ends the iterators of payloads that may have more.
const endAll = (sources, reason) => Promise.all(sources.map(({ parts }) => parts.return?.(reason)));

// The bytes of a message in parts of the `size` of the options, by default 4096, the last with what is left: an iterator of Uint8Array. Else as
// `encode`. A record may have `parts`, an iterable of bytes, and their `length` in place of its data. Throws RangeError where they have another
// length: in place of the first byte that is missing or too much.
export function* encodeParts(message, options) {
    const sources = sourcesOf(message), steps = inSteps(sources, options);
    try {
        for (let step = steps.next(); !step.done;) {
            if (step.value instanceof Uint8Array) {
                yield step.value;
                step = steps.next();
            } else {
                const next = step.value.next();
                if (typeof next.then === "function") throw new TypeError("parts that come later are written by encodeStream");
                step = steps.next(next);
            }
        }
    } finally {
        for (const { parts } of sources) parts.return?.();
    }
}

// The same as a ReadableStream, which fails with the error. The parts of a payload may also be an async iterable or a ReadableStream.
export function encodeStream(message, options) {
    const sources = sourcesOf(message), steps = inSteps(sources, options);
    return new ReadableStream({
        async pull(controller) {
            try {
                let step = steps.next();
                while (!step.done && !(step.value instanceof Uint8Array)) step = steps.next(await step.value.next());
                if (step.done) controller.close();
                else controller.enqueue(step.value);
            } catch (error) {
                controller.error(error);
                await endAll(sources, error);
            }
        },
        cancel: (reason) => endAll(sources, reason),
    }, { highWaterMark: 0 });
}
