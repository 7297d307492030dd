// Records and messages in the shape of Web NFC: NDEFRecord and NDEFMessage have the members that they have there, and a few
// more. The names of Web NFC stand for types of NDEF; what payloads hold, the library says.
import { characters, joined, octets, strictUtf8, utf8 } from "./bytes.js";
import { Ndef } from "./ndef.js";
import { NdefError, accepted, library, optionsOf, written } from "./library.js";
import { messageWithin, valueOf } from "./values.js";

const { KIND } = Ndef;
const TNF = { EMPTY: 0, WELL_KNOWN: 1, MEDIA: 2, ABSOLUTE_URI: 3, EXTERNAL: 4, UNKNOWN: 5 };
const NAMES = new Map([[KIND.TEXT, "text"], [KIND.URI, "url"], [KIND.SMART_POSTER, "smart-poster"]]);
export const MADE = Symbol("what the library has read");

// Bytes as a DataView over a copy of them.
const viewOf = (bytes) => new DataView(bytes.slice().buffer);

// A text in UTF-16, the higher byte of each unit first.
export function utf16Of(text) {
    const view = new DataView(new ArrayBuffer(2 * text.length));
    for (let index = 0; index < text.length; index++) view.setUint16(2 * index, text.charCodeAt(index));
    return view;
}

// The value, or undefined where there is none: Web NFC has null for members that a record lacks.
const given = (value) => value ?? undefined;

function stringOf(value, name) {
    if (typeof value === "string") return value;
    throw new TypeError(`${name} is a string, not ${value === null ? "null" : typeof value}`);
}

// Data that are a string or bytes, as bytes. Web NFC has null for a payload that isn't there.
function dataOf(data, name) {
    if (data === undefined) throw new TypeError(`${name} needs data`);
    return data === null ? new Uint8Array() : characters(data);
}

// The byte order of UTF-16: that of the mark at its front, else that of the name, or the higher byte first.
function orderOf(bytes, name) {
    if (bytes[0] === 0xff && bytes[1] === 0xfe) return "utf-16le";
    return bytes[0] === 0xfe && bytes[1] === 0xff || name === "utf-16" ? "utf-16be" : name;
}

// The encodings of Web NFC, by their names there.
const ENCODINGS = new Set(["utf-8", "utf-16", "utf-16be", "utf-16le"]);

// Data as a string, from bytes in an encoding of Web NFC.
function textOf(data, encoding) {
    if (!ENCODINGS.has(encoding)) throw new TypeError(`the encoding of a text is utf-8, utf-16, utf-16be or utf-16le, not ${encoding}`);
    if (typeof data === "string") return data;
    const bytes = dataOf(data, "a text");
    return encoding === "utf-8" ? strictUtf8(bytes) : new TextDecoder(orderOf(bytes, encoding), { fatal: true }).decode(bytes);
}

function textParts({ data, encoding, lang }) {
    const calls = library(), name = given(encoding) ?? "utf-8", flags = name === "utf-8" ? 0 : Ndef.AS_UTF16, language = given(lang) ?? "en";
    const answer = calls.writeText(language, textOf(data, name), flags);
    const payload = written(answer, "a text", ["its language is too long", () => calls.writeText("a".repeat(characters(language).length), "")],
        ["its language is not ASCII"]);
    return { tnf: TNF.WELL_KNOWN, type: "T", payload };
}

// A URL as a string, and other data as they are.
const addressOf = (data) => (data instanceof URL ? data.href : data);

function urlParts({ data }) {
    const answer = library().writeUri(dataOf(addressOf(data), "a url"));
    return { tnf: TNF.WELL_KNOWN, type: "U", payload: written(answer, "a url", ["it is not UTF-8"]) };
}

// How a message within a payload is encoded: what may stand there the payload around it says.
const WITHIN = { unchecked: true };

// A smart poster of records, or of the bytes of its message.
function posterParts({ data }) {
    const isBytes = ArrayBuffer.isView(data) || data instanceof ArrayBuffer, payload = isBytes ? octets(data).slice() : encode(new NDEFMessage(data), WITHIN);
    accepted(library().poster(payload, Ndef.STANDARD));
    return { tnf: TNF.WELL_KNOWN, type: "Sp", payload };
}

// Whether this has records, as what makes a message does: Web NFC takes anything of which one can be asked after the other.
const isMessage = (init) => init !== null && typeof init === "object" && typeof init.records === "object" && typeof init.records?.[Symbol.iterator] === "function";

// Bytes, or the message that Web NFC takes in their place.
function bytesOrMessage(data) {
    if (data === undefined || data === null) return "";
    return isMessage(data) ? encode(data, WITHIN) : characters(data);
}

const MAKERS = new Map(Object.entries({
    "empty": ({ data }) => ({ tnf: TNF.EMPTY, payload: given(data) ?? "" }),
    "text": textParts,
    "url": urlParts,
    "smart-poster": posterParts,
    "absolute-url": ({ data }) => ({ tnf: TNF.ABSOLUTE_URI, type: dataOf(addressOf(data), "an absolute URL") }),
    "mime": ({ mediaType, data }) => ({
        tnf: TNF.MEDIA, type: stringOf(given(mediaType) ?? "application/octet-stream", "mediaType"),
        payload: dataOf(data, "a mime record"),
    }),
    "unknown": ({ data }) => ({ tnf: TNF.UNKNOWN, payload: dataOf(data, "an unknown record") }),
}));

// The parts of a record as NDEF has them, of a NDEFRecordInit of Web NFC. One that has a `tnf` has these parts as they are.
export function partsOf(init) {
    if (init === null || typeof init !== "object") throw new TypeError("a record is an object");
    if (init.parts !== undefined) throw new TypeError("a record with parts is written by encodeParts or encodeStream");
    const id = given(init.id) ?? "";
    if (init.tnf !== undefined) return { tnf: init.tnf, type: given(init.type) ?? "", id, payload: given(init.payload) ?? "" };
    const recordType = stringOf(init.recordType, "recordType"), make = MAKERS.get(recordType);
    if (make) return { ...make(init), id };
    if (!recordType.includes(":")) throw new TypeError(`there is no record type ${JSON.stringify(recordType)}`);
    const isLocal = recordType.startsWith(":"), tnf = isLocal ? TNF.WELL_KNOWN : TNF.EXTERNAL;
    return { tnf, type: isLocal ? recordType.slice(1) : recordType, id, payload: bytesOrMessage(init.data) };
}

// What may be wrong with the parts of a record.
export function causesOf({ tnf, type = "", id = "" }) {
    const calls = library(), takes = (parts) => calls.writeRecord(parts), isTyped = characters(type).length > 0;
    return [
        ["its id has more than 255 bytes", () => takes({ tnf: TNF.UNKNOWN, id })],
        ["its type has more than 255 bytes", () => (isTyped ? takes({ tnf: TNF.MEDIA, type }) : { status: Ndef.OK })],
        ["there is no such type name format", () => ["", "a"].map((other) => takes({ tnf, type: other })).find(({ status }) => status === Ndef.OK) ?? takes({ tnf })],
        [isTyped ? "a record of its type name format has no type" : "a record of its type name format needs a type", () => takes({ tnf, type })],
        [tnf === TNF.EMPTY ? "an empty record has no id and no payload" : "it is too long"],
    ];
}

// What the library reads of a record that it writes of these parts.
function readOf({ tnf, type, id, payload }) {
    const flags = Ndef.WRITE_FIRST | Ndef.WRITE_LAST, bytes = written(library().writeRecord({ tnf, type, id, payload, flags }), "a record", ...causesOf({ tnf, type, id }));
    return library().items(bytes)[0];
}

export class NDEFRecord {
    #read; // an item of ndef.js
    #value;

    constructor(init, made) {
        this.#read = made === MADE ? init : readOf(init instanceof NDEFRecord ? init.#read : partsOf(init));
    }

    get [Symbol.toStringTag]() { return "NDEFRecord"; }

    get recordType() {
        const { tnf, kind, type } = this.#read;
        switch (tnf) {
            case TNF.EMPTY: return "empty";
            case TNF.WELL_KNOWN: return NAMES.get(kind) ?? `:${utf8(type)}`;
            case TNF.MEDIA: return "mime";
            case TNF.ABSOLUTE_URI: return "absolute-url";
            case TNF.EXTERNAL: return utf8(type);
            default: return "unknown";
        }
    }

    get mediaType() { return this.#read.tnf === TNF.MEDIA ? utf8(this.#read.type) : null; }

    get id() { return this.#read.idLength > 0 ? utf8(this.#read.id) : null; }

    get encoding() {
        if (this.#read.kind !== KIND.TEXT) return null;
        return this.value.utf16 ? "utf-16be" : "utf-8";
    }

    get lang() { return this.#read.kind === KIND.TEXT ? this.value.language : null; }

    get data() {
        const { tnf, kind, type, payload } = this.#read;
        if (tnf === TNF.EMPTY) return null;
        if (tnf === TNF.ABSOLUTE_URI) return viewOf(type);
        if (kind === KIND.URI) return viewOf(characters(this.value.uri));
        if (kind !== KIND.TEXT) return viewOf(payload);
        return this.value.utf16 ? utf16Of(this.value.text) : viewOf(characters(this.value.text));
    }

    // The records of the message within this record, or null where its payload is no message.
    toRecords() {
        const { tnf, kind, payload, flags } = this.#read, within = messageWithin(kind, payload);
        if (within !== null) return recordsOf(within, kind, flags);
        if (tnf !== TNF.EXTERNAL && !this.recordType.startsWith(":"))
            throw new DOMException(`a record of the type ${this.recordType} holds no records`, "NotSupportedError");
        const { status, place } = library().check(payload, { flags });
        return status === Ndef.OK && place === payload.length ? recordsOf(payload, KIND.OTHER, flags) : null;
    }

    // What NDEFReader.write of Web NFC takes for this record.
    toInit() {
        const { recordType } = this, { tnf, type, kind, payload } = this.#read, init = { recordType };
        if (this.id !== null) init.id = this.id;
        if (tnf === TNF.MEDIA) init.mediaType = this.mediaType;
        if (kind === KIND.TEXT) Object.assign(init, { data: this.data, encoding: this.encoding, lang: this.lang });
        else if (kind === KIND.URI) init.data = this.value.uri;
        else if (kind === KIND.SMART_POSTER) init.data = { records: this.toRecords().map((record) => record.toInit()) };
        else if (tnf === TNF.ABSOLUTE_URI) init.data = utf8(type);
        else if (tnf !== TNF.EMPTY) init.data = payload.slice();
        return init;
    }

    // ---- beyond Web NFC

    // The text of a text, or null.
    get text() { return this.#read.kind === KIND.TEXT ? this.value.text : null; }

    // The URI of a url, an absolute URL or a smart poster, or null.
    get uri() { return this.#read.tnf === TNF.ABSOLUTE_URI ? utf8(this.#read.type) : this.value?.uri ?? null; }

    // What the payload means, as an object that the README lists by record types, or null.
    get value() {
        if (this.#value === undefined) this.#value = valueOf(this.#read);
        return this.#value;
    }

    // The parts of the record as NDEF has them: the type name format, and bytes.
    get tnf() { return this.#read.tnf; }
    get type() { return this.#read.type.slice(); }
    get idBytes() { return this.#read.id.slice(); }
    get payload() { return this.#read.payload.slice(); }

    // What the payload is, a number of Ndef.KIND.
    get kind() { return this.#read.kind; }

    // What JSON.stringify makes of the record: its members that aren't null, and its payload in hexadecimal digits.
    toJSON() {
        const { recordType, mediaType, id, encoding, lang, text, uri } = this, payload = Array.from(this.#read.payload, (octet) => octet.toString(16).padStart(2, "0")).join("");
        const members = Object.entries({ recordType, mediaType, id, encoding, lang, text, uri, payload });
        return Object.fromEntries(members.filter(([, value]) => value !== null));
    }

    // What console.log of Node shows. A payload that is none of its kind has no value.
    [Symbol.for("nodejs.util.inspect.custom")](depth, options, inspect) {
        const { tnf, type, id, payload } = this;
        let members;
        try {
            members = { ...this.toJSON(), payload };
        } catch {
            members = { tnf, type, id, payload };
        }
        return `NDEFRecord ${inspect(members, { ...options, depth: options.depth === null ? null : depth })}`;
    }

    // The bytes of the record, in one chunk: those of a message of it alone, as `encode` checks it; with flags those of a record of a
    // message, which aren't checked.
    toBytes(flags) {
        if (flags === undefined) return encode({ records: [this] });
        const { tnf, type, id, payload } = this.#read;
        return written(library().writeRecord({ tnf, type, id, payload, flags }), "a record", ["its flags are unknown"]);
    }
}

// The records of the message with which the bytes begin; within a payload, of its kind.
export function recordsOf(bytes, within, flags) {
    return library().items(bytes, flags, within).map((item) => new NDEFRecord(item, MADE));
}

export class NDEFMessage {
    // Takes what the constructor of Web NFC takes, and records of this module. What is MADE is items of ndef.js.
    constructor(init, made) {
        if (made === MADE) {
            for (let index = 0; index < init.length; index++) init[index] = new NDEFRecord(init[index], MADE);
            this.records = Object.freeze(init);
            return;
        }
        const records = isMessage(init) ? Array.from(init.records) : [];
        if (records.length === 0) throw new TypeError("a message is an object with a list of records, at least one");
        this.records = Object.freeze(records.map((record) => (record instanceof NDEFRecord ? record : new NDEFRecord(record))));
    }

    get [Symbol.toStringTag]() { return "NDEFMessage"; }

    // What NDEFReader.write of Web NFC takes for this message.
    toInit() {
        return { records: this.records.map((record) => record.toInit()) };
    }

    // What JSON.stringify makes of the message.
    toJSON() {
        return { records: this.records.map((record) => record.toJSON()) };
    }
}

// What `write` of Web NFC takes as a message: a string is a text, and bytes are a record of a media type.
export function messageFor(source) {
    if (source instanceof NDEFMessage) return source;
    if (typeof source === "string") return new NDEFMessage({ records: [{ recordType: "text", data: source }] });
    const isBytes = ArrayBuffer.isView(source) || source instanceof ArrayBuffer;
    return new NDEFMessage(isBytes ? { records: [{ recordType: "mime", data: source }] } : source);
}

// The error for a message that was written, of the answer of the check that refuses it. `parts` are the bytes of its records.
function refusalOf(bytes, parts, how, { place, reason }) {
    const calls = library(), meaning = calls.reasonSentence(reason), sentence = calls.why(bytes, how) ?? meaning;
    let record = 0, begin = 0;
    while (record < parts.length - 1 && begin + parts[record].length <= place) begin += parts[record++].length;
    return new NdefError(place - begin, reason, calls.reasonName(reason), sentence, record, meaning);
}

// The bytes of a message: of a NDEFMessage, of Web NFC's, or of what makes one there. Each record has one chunk. Throws NdefError where
// `decode` refuses them with the same options, unless these have `unchecked`.
export function encode(message, options) {
    const how = optionsOf(options), { records } = messageFor(message), last = records.length - 1;
    const parts = records.map((record, index) => record.toBytes((index === 0 ? Ndef.WRITE_FIRST : 0) | (index === last ? Ndef.WRITE_LAST : 0)));
    const bytes = joined(parts), answer = options?.unchecked ? null : library().check(bytes, how);
    if (answer?.status === Ndef.REFUSED) throw refusalOf(bytes, parts, how, answer);
    return bytes;
}
