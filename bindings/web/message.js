// Reads messages: checks, decodes and explains bytes, and follows the links of a handover.
import { octets } from "./bytes.js";
import { PROGRAM, hintText } from "./hint.js";
import { Ndef } from "./ndef.js";
import { NdefError, accepted, library, optionsOf } from "./library.js";
import { MADE, NDEFMessage, recordsOf } from "./record.js";
import { alternativesOf } from "./values.js";

const { KIND } = Ndef;

// Checks that the bytes begin with a message: its length in bytes and the number of its records. Throws NdefError.
export function check(bytes, options) {
    const { place, records } = accepted(library().check(bytes, optionsOf(options)));
    return { length: place, records };
}

// The message of bytes that hold it and nothing before them, known to be whole.
export function messageOf(bytes, flags) {
    return new NDEFMessage(library().items(bytes, flags), MADE);
}

// The message with which the bytes begin, and its length in bytes. Throws NdefError.
export function decodePrefix(bytes, options) {
    const { items, place } = accepted(library().read(bytes, optionsOf(options)));
    return { message: new NDEFMessage(items, MADE), length: place };
}

// The message that the bytes are. Throws NdefError, also where other bytes follow it.
export function decode(bytes, options) {
    const given = octets(bytes), { message, length } = decodePrefix(given, options);
    if (length < given.length) throw NdefError.trailing(length);
    return message;
}

// The fields of the message with which the bytes begin: { at, length, depth, name } each. Throws NdefError.
export function fields(bytes, options) {
    return accepted(library().fields(bytes, optionsOf(options))).fields;
}

// All that can be said of the bytes, whatever they are: `refusal`, an NdefError or null; the `fields` before the refused
// byte, or of the message; the `records` that are whole before it; and the `length` of the message, or of what is before
// the refused byte.
export function explain(bytes, options) {
    const given = octets(bytes), how = optionsOf(options), answer = library().fields(given, how), { place } = answer;
    const refusal = answer.status === Ndef.REFUSED ? NdefError.of(answer) : null;
    return { refusal, length: place, fields: answer.fields, records: recordsOf(given.subarray(0, place), KIND.OTHER, how.flags) };
}

// The options of a check of payloads, which the calls below always make.
function typed(options) {
    const how = optionsOf(options);
    return { ...how, flags: how.flags & ~Ndef.OPAQUE };
}

// What was wanted where the bytes are refused, or what the reason means where nothing more is known: a sentence of English. Null where
// they begin with a message.
export function why(bytes, options) {
    return library().why(bytes, typed(options));
}

// What may help where the bytes are refused, in a sentence of English, which names commands. Null where nothing is known to.
export function hint(bytes, options) {
    return library().hint(bytes, typed(options));
}

// The same for a program: { kind, place, length, text }, where `kind` is one of HINT. The `text` is a sentence that names what a program calls.
export function findHint(bytes, options) {
    const found = library().findHint(bytes, typed(options));
    return found && { kind: found.hint, place: found.at, length: found.length, text: hintText(found, PROGRAM) };
}

// A key for bytes in a map.
const keyOf = (bytes) => bytes.join();

// The carriers of the first handover of a message: { power, reference, auxiliary }, and the `record` and its `index` to
// which the carrier data reference refers, or null. None where there is no handover. It looks at each record once.
export function links(message) {
    const { records } = message instanceof NDEFMessage ? message : new NDEFMessage(message);
    const handover = records.find(({ kind }) => kind === KIND.REQUEST || kind === KIND.SELECT);
    if (!handover) return [];
    const places = new Map();
    records.forEach((record, index) => {
        const key = keyOf(record.idBytes);
        if (key !== "" && !places.has(key)) places.set(key, index);
    });
    const { carriers } = handover.value;
    return alternativesOf(handover.kind, handover.payload).map(({ references: [reference] }, number) => {
        const index = places.get(keyOf(reference)) ?? null;
        return { ...carriers[number], index, record: index === null ? null : records[index] };
    });
}
