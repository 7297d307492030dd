// What the payloads of records mean, each as a plain object. The library says where the parts of a payload lie.
import { strictUtf8, utf8 } from "./bytes.js";
import { Ndef } from "./ndef.js";
import { accepted, library } from "./library.js";

const { KIND } = Ndef;

// A name that should be text: a string where the bytes are UTF-8, else the bytes.
function nameOf(bytes) {
    try {
        return strictUtf8(bytes);
    } catch {
        return bytes;
    }
}

const part = (payload, at, length) => payload.slice(at, at + length);

function textOf(item) {
    const { text, language, utf16 } = accepted(library().textOf(item));
    return { text, language, utf16 };
}

function uriOf(item, flags) {
    return { uri: accepted(library().uriOf(item, flags)).text };
}

// A title is a text within the poster: the library reads it as the payload of its own record.
function titlesOf(payload) {
    return library().items(payload, 0, KIND.SMART_POSTER).filter(({ kind }) => kind === KIND.TEXT).map(textOf);
}

function iconsOf(payload) {
    return library().posterIcons(payload).map(({ mediaType, data }) => ({
        mediaType: nameOf(part(payload, mediaType.at, mediaType.length)), data: part(payload, data.at, data.length),
    }));
}

function posterOf(payload, flags) {
    const { uri, action, size } = accepted(library().poster(payload, flags)), media = library().posterMediaType(payload);
    const mediaType = media && utf8(part(payload, media.at, media.length));
    return { uri, titles: titlesOf(payload), action, size, mediaType, icons: iconsOf(payload) };
}

// The bytes of the message within a smart poster or a handover, which has one byte before it: its version. Null for other
// kinds.
export function messageWithin(kind, payload) {
    switch (kind) {
        case KIND.SMART_POSTER: return payload;
        case KIND.REQUEST:
        case KIND.SELECT: return payload.subarray(1);
        default: return null;
    }
}

function referencesOf(payload) {
    const { power, references } = accepted(library().alternative(payload));
    return { power, references: references.map(({ at, length }) => part(payload, at, length)) };
}

// The alternative carriers of a handover: the power state of each, and its references as bytes, the carrier data reference
// first.
export function alternativesOf(kind, payload) {
    const records = library().items(messageWithin(kind, payload), 0, kind);
    return records.filter((record) => record.kind === KIND.ALTERNATIVE).map((record) => referencesOf(record.payload));
}

// An alternative carrier with its references as names.
function carrierOf({ power, references: [reference, ...auxiliary] }) {
    return { power, reference: nameOf(reference), auxiliary: auxiliary.map(nameOf) };
}

function requestOf(payload, flags) {
    const { major, minor, collision } = accepted(library().request(payload, flags));
    return { major, minor, collision, carriers: alternativesOf(KIND.REQUEST, payload).map(carrierOf) };
}

function errorOf(payload) {
    const { dataAt, dataLength, errorReason, number } = accepted(library().error(payload));
    return { reason: errorReason, data: part(payload, dataAt, dataLength), number };
}

function selectOf(payload, flags) {
    const { major, minor, error } = accepted(library().select(payload, flags));
    const found = error === null ? undefined
        : library().items(messageWithin(KIND.SELECT, payload), 0, KIND.SELECT).find(({ kind }) => kind === KIND.ERROR);
    return { major, minor, carriers: alternativesOf(KIND.SELECT, payload).map(carrierOf), error: found ? errorOf(found.payload) : null };
}

function handoverCarrierOf(payload) {
    const { format, typeAt, typeLength, dataAt, dataLength } = accepted(library().carrier(payload));
    return { format, type: nameOf(part(payload, typeAt, typeLength)), data: part(payload, dataAt, dataLength) };
}

const READERS = new Map([
    [KIND.SMART_POSTER, posterOf], [KIND.REQUEST, requestOf], [KIND.SELECT, selectOf],
    [KIND.CARRIER, handoverCarrierOf], [KIND.ALTERNATIVE, (payload) => carrierOf(referencesOf(payload))], [KIND.ERROR, errorOf],
]);

// What the payload of an item of ndef.js means, or null where its kind has no value of its own. Throws NdefError for a payload that is
// none of its kind, which only messages have whose payloads weren't checked.
export function valueOf(item) {
    const { kind } = item, flags = item.flags & Ndef.STANDARD;
    if (kind === KIND.TEXT) return textOf(item);
    return kind === KIND.URI ? uriOf(item, flags) : READERS.get(kind)?.(item.payload, flags) ?? null;
}
