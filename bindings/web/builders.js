// Makes records whose payloads have several parts. Each function takes what `value` of such a record is, and answers the record.
import { Ndef } from "./ndef.js";
import { firstRefused, library, written } from "./library.js";
import { NDEFRecord } from "./record.js";

const WELL_KNOWN = 1;

function wellKnown(type, payload, id) {
    return new NDEFRecord({ tnf: WELL_KNOWN, type, id, payload });
}

function alternativesOf(carriers = []) {
    return carriers.map(({ power, reference, auxiliary = [] }) => ({ power, references: [reference, ...auxiliary] }));
}

// The minor version of a handover, whose major version the library writes.
function minorOf({ major = 1, minor = 2 }, what) {
    if (major === 1) return minor;
    throw new RangeError(`${what} can't be written: its major version is not 1`);
}

// A smart poster of { uri, titles, action, size, mediaType, icons }.
export function smartPoster(poster, id = "") {
    const calls = library(), { uri, titles = [], action = null, mediaType = null, icons = [] } = poster;
    return wellKnown("Sp", written(calls.writePoster(poster), "a smart poster",
        ["its URI is not UTF-8", () => calls.writeUri(uri)],
        ["the language of a title is too long or not ASCII", () => firstRefused(titles, ({ language }) => calls.writeText(language, ""))],
        ["the text of a title is not UTF-8", () => firstRefused(titles, ({ text }) => calls.writeText("", text))],
        ["its action is above 255", () => calls.writePoster({ uri: "", action })],
        ["its media type is empty or not UTF-8", () => calls.writePoster({ uri: "", mediaType })],
        ["the media type of an icon is empty or too long", () => calls.writePoster({ uri: "", icons })]), id);
}

// What may be wrong with the version and the carriers of a handover.
function causesOf(minor, alternatives) {
    const calls = library(), references = alternatives.flatMap((one) => one.references);
    return [
        ["its minor version is above 15", () => calls.writeSelect({ minor })],
        ["a power state is above 3", () => firstRefused(alternatives, ({ power }) => calls.writeAlternative(power, [""]))],
        ["a reference has more than 255 bytes", () => firstRefused(references, (reference) => calls.writeAlternative(0, [reference]))],
        ["a carrier has more than 255 auxiliary references", () => firstRefused(alternatives, (one) => calls.writeAlternative(0, one.references))],
    ];
}

// A handover request of { minor, collision, carriers }, each carrier { power, reference, auxiliary }.
export function handoverRequest(request, id = "") {
    const minor = minorOf(request, "a handover request"), alternatives = alternativesOf(request.carriers);
    const answer = library().writeRequest({ minor, collision: request.collision, alternatives });
    return wellKnown("Hr", written(answer, "a handover request", ...causesOf(minor, alternatives), ["its random number is above 65535"]), id);
}

// The data of an error: its own, or its number as the library writes it.
function errorOf({ reason, data, number }) {
    if (data !== undefined && data !== null) return { reason, data };
    const payload = written(library().writeErrorNumber(reason, number), "a handover error", ["its number doesn't fit its reason"]);
    const { dataAt, dataLength } = library().error(payload);
    return { reason, data: payload.slice(dataAt, dataAt + dataLength) };
}

// A handover select of { minor, carriers, error }; an error is { reason, data } or { reason, number }.
export function handoverSelect(select, id = "") {
    const minor = minorOf(select, "a handover select"), alternatives = alternativesOf(select.carriers);
    const error = select.error ? errorOf(select.error) : null;
    const answer = library().writeSelect({ minor, alternatives, error });
    return wellKnown("Hs", written(answer, "a handover select", ...causesOf(minor, alternatives), ["the data of its error don't fit its reason"]), id);
}

// A handover carrier of { format, type, data }.
export function handoverCarrier({ format, type, data }, id = "") {
    const calls = library(), answer = calls.writeCarrier(format, type, data);
    return wellKnown("Hc", written(answer, "a handover carrier", ["its format is above 7", () => calls.writeCarrier(format, "")], ["its type has more than 255 bytes"]), id);
}

// The numbers that values have: power states of carriers, actions of smart posters, and kinds of payloads.
export const POWER = { INACTIVE: 0, ACTIVE: 1, ACTIVATING: 2, UNKNOWN: 3 };
export const ACTION = { DO: 0, SAVE: 1, OPEN: 2 };
export const { KIND } = Ndef;
