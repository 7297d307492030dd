// node test/web/members.mjs [COUNT]: every member of every answer of ndef.js beside what the calls of ndef.wasm tell, whose
// structs are read here again by include/ndef.h: over the cases of the suite, given as lines on standard input, each also with
// bytes changed and cut off; over what the fuzzer found; and over this many random messages. Each payload is read as every type.
// Prints 'N passed, M failed'.
import { readFileSync } from "node:fs";
import { Ndef } from "../../out/web/ndef.js";
import { below, randomLimits, randomMessage } from "./random.mjs";

const code = readFileSync(new URL("../../out/web/ndef.wasm", import.meta.url));
const ndef = await Ndef.load(code);
const c = (await WebAssembly.instantiate(code)).instance.exports;
const base = (Number(c.__heap_base.value) + 15) & ~15;
const OUT = 64, WHY = 256, COUNT = 320, ARRAY = 8192, INPUT = 1 << 20, BUFFER = 3 << 20;
c.memory.grow(128);

const view = new DataView(c.memory.buffer), memory = new Uint8Array(c.memory.buffer);
const u32 = (at) => view.getUint32(base + at, true);
const u64 = (at) => view.getUint32(base + at, true) + 2 ** 32 * view.getUint32(base + at + 4, true);
const bytesAt = (at, length) => memory.slice(base + at, base + at + length);
const textAt = (at, length) => Buffer.from(bytesAt(at, length)).toString("utf8");
const fromHex = (text) => Uint8Array.from(Buffer.from(text.replaceAll(" ", ""), "hex"));

// Lays bytes where calls take them, and others after them.
function put(bytes, at = INPUT) {
    memory.set(bytes, base + at);
    return [base + at, BigInt(bytes.length)];
}

// Whether two answers have the same members, lists the same elements, and bytes the same octets.
function same(one, other) {
    if (typeof one !== "object" || typeof other !== "object" || one === null || other === null) return Object.is(one, other);
    if (one.constructor !== other.constructor) return false;
    if (one.length !== undefined) {
        let at = one.length;
        if (at !== other.length) return false;
        while (at-- > 0) if (!same(one[at], other[at])) return false;
        return true;
    }
    const names = Object.keys(one);
    return names.length === Object.keys(other).length && names.every((name) => name in other && same(one[name], other[name]));
}

let passed = 0, failed = 0;
function look(name, got, wanted, bytes) {
    if (same(got, wanted)) { passed++; return; }
    if (failed++ < 20) console.log(`FAILED: ${name} of ${Buffer.from(bytes).toString("hex")}\n ${JSON.stringify(got)}\n ${JSON.stringify(wanted)}`);
}

// The answer of a call that reads a payload: its struct, read by the places of its members; or the refusal.
function read(call, bytes, members, ...flags) {
    const status = c[call](...put(bytes), ...flags, base + OUT, base + WHY);
    if (status === 1) return { status, place: u64(WHY), records: u32(WHY + 8), reason: u32(WHY + 12) };
    if (status !== 0) return { status };
    return { status, ...Object.fromEntries(Object.entries(members).map(([name, read]) => [name, read()])) };
}
const number = (at) => () => u32(OUT + at), place = (at) => () => u64(OUT + at);
const optional = (at) => () => (u32(OUT + at) ? u32(OUT + at + 4) : null);

function texts(bytes) {
    const result = read("ndef_text", bytes, {
        languageAt: place(0), languageLength: place(8), textAt: place(16), textLength: place(24), utf16: () => u32(OUT + 32) === 1,
    });
    if (result.status === 0) {
        result.language = textAt(INPUT + result.languageAt, result.languageLength);
        c.ndef_text_in_utf8(...put(bytes), base + BUFFER, BigInt(1 << 20), base + COUNT, base + WHY);
        result.text = textAt(BUFFER, u64(COUNT));
    }
    return result;
}

function uris(bytes, flags) {
    const status = c.ndef_uri(...put(bytes), flags, base + BUFFER, BigInt(1 << 20), base + COUNT, base + WHY);
    if (status === 1) return { status, place: u64(WHY), records: u32(WHY + 8), reason: u32(WHY + 12) };
    return status ? { status } : { status, text: textAt(BUFFER, u64(COUNT)) };
}

function posters(bytes, flags) {
    const result = read("ndef_poster", bytes, { uriAt: place(0), uriLength: place(8), action: optional(16), size: optional(24) }, flags);
    if (result.status === 0) result.uri = uris(bytes.slice(result.uriAt, result.uriAt + result.uriLength), flags).text;
    return result;
}

const requests = (bytes, flags) => read("ndef_request", bytes, { carriers: place(0), major: number(8), minor: number(12), collision: number(16) }, flags);
const selects = (bytes, flags) => read("ndef_select", bytes, {
    carriers: place(0), detailAt: place(8), detailLength: place(16), major: number(24), minor: number(28), error: optional(32),
}, flags);
const carriers = (bytes) => read("ndef_carrier", bytes, { typeAt: place(0), typeLength: place(8), dataAt: place(16), dataLength: place(24), format: number(32) });
const errors = (bytes) => read("ndef_error", bytes, { dataAt: place(0), dataLength: place(8), errorReason: number(16), number: optional(20) });

function alternatives(bytes) {
    const result = read("ndef_alternative", bytes, { power: number(0) });
    if (result.status !== 0) return result;
    result.references = [];
    for (let index = 0n; c.ndef_reference(...put(bytes), index, base + OUT) === 0; index++) result.references.push({ at: u64(OUT), length: u64(OUT + 8) });
    return result;
}

function links(bytes, payload) {
    const message = put(bytes), handover = put(payload, INPUT + bytes.length), result = [];
    for (let index = 0n; c.ndef_link_at(...message, ...handover, index, base + OUT) === 0; index++) {
        const has = u32(OUT + 32) === 1;
        result.push({ carrierAt: u64(OUT), carrierLength: u64(OUT + 8), recordIndex: has ? u64(OUT + 16) : null, recordAt: has ? u64(OUT + 24) : null });
    }
    return result;
}

function payloads(bytes, profiles) {
    look("text", ndef.text(bytes), texts(bytes), bytes);
    look("carrier", ndef.carrier(bytes), carriers(bytes), bytes);
    look("error", ndef.error(bytes), errors(bytes), bytes);
    look("alternative", ndef.alternative(bytes), alternatives(bytes), bytes);
    for (const flags of profiles) {
        look(`uri with ${flags}`, ndef.uri(bytes, flags), uris(bytes, flags), bytes);
        look(`poster with ${flags}`, ndef.poster(bytes, flags), posters(bytes, flags), bytes);
        look(`request with ${flags}`, ndef.request(bytes, flags), requests(bytes, flags), bytes);
        look(`select with ${flags}`, ndef.select(bytes, flags), selects(bytes, flags), bytes);
    }
    if (profiles.length === 1) return;
    look("uri", ndef.uri(bytes), uris(bytes, 0), bytes);
    look("poster", ndef.poster(bytes), posters(bytes, 0), bytes);
    look("request", ndef.request(bytes), requests(bytes, 0), bytes);
    look("select", ndef.select(bytes), selects(bytes, 0), bytes);
}

// A record, as ndef_record_at and ndef_payload tell it.
const RECORD = ["at", "end", "typeAt", "typeLength", "idAt", "idLength", "payloadAt", "partLength", "payloadLength", "chunks"];
function record(bytes, at, within) {
    const input = put(bytes), status = c.ndef_record_at(...input, BigInt(at), base + OUT);
    if (status !== 0) return { status };
    const result = { status, tnf: u32(OUT + 80), last: u32(OUT + 84) === 1, kind: c.ndef_kind(...input, base + OUT, within) };
    RECORD.forEach((name, index) => { result[name] = u64(OUT + 8 * index); });
    c.ndef_payload(...input, BigInt(at), base + BUFFER, BigInt(1 << 21), base + COUNT);
    const payload = bytesAt(BUFFER, u64(COUNT));
    const part = (from, length) => bytes.slice(from, from + length);
    return { ...result, payload, type: part(result.typeAt, result.typeLength), id: part(result.idAt, result.idLength) };
}

function recordsOf(bytes, within) {
    const wanted = [];
    for (let at = 0; ;) {
        const result = record(bytes, at, within);
        if (result.status !== 0) return wanted;
        wanted.push(result);
        if (result.last) return wanted;
        at = result.end;
    }
}

// The records of a message, and the payloads of those whose place `chosen` takes, read as every type with each of the flags.
function records(bytes, profiles, chosen) {
    const wanted = recordsOf(bytes, 0);
    look("records", ndef.records(bytes), wanted, bytes);
    wanted.slice(0, 20).filter(chosen).forEach((one) => {
        look(`recordAt ${one.at}`, ndef.recordAt(bytes, one.at), one, bytes);
        const { payload } = one, inner = payload.subarray(one.kind === 3 ? 0 : 1);
        look("links", ndef.links(bytes, payload), links(bytes, payload), bytes);
        look(`records within ${one.kind}`, ndef.records(inner, one.kind), recordsOf(inner, one.kind), inner);
        look(`recordAt 0 within ${one.kind}`, ndef.recordAt(inner, 0, one.kind), record(inner, 0, one.kind), inner);
        if (payload.length < 5000) payloads(payload, profiles);
    });
    for (const at of [1, bytes.length, bytes.length + 1]) look(`recordAt ${at}`, ndef.recordAt(bytes, at), record(bytes, at, 0), bytes);
}

// What `read` gives of bytes: the answer of the check, the records, and the values of texts and URIs. The walk of `items` gives the same of a message.
const partsOf = ({ tnf, kind, type, id, payload }) => ({ tnf, kind, type, id, payload });
const valueOf = ({ status, language, text, utf16, place, reason }) => ({ status, language, text, utf16, place, reason });
function reads(bytes, options, flags) {
    const how = { ...options, flags }, answer = ndef.check(bytes, how), wanted = answer.status === Ndef.OK ? recordsOf(bytes, 0) : null;
    const values = wanted?.filter(({ kind }) => kind === 1 || kind === 2).map(({ kind, payload }) => valueOf(kind === 1 ? texts(payload) : uris(payload, flags & 1)));
    const { items, ...result } = ndef.read(bytes, how);
    look(`what is read with ${flags}`, [result, items === null], [answer, wanted === null], bytes);
    for (const all of items === null ? [] : [items, ndef.items(bytes, flags)]) {
        const given = all.filter(({ kind }) => kind === 1 || kind === 2);
        look(`records with ${flags}`, all.map(partsOf), wanted.map(partsOf), bytes);
        look(`values with ${flags}`, given.map((item) => valueOf(item.kind === 1 ? ndef.textOf(item) : ndef.uriOf(item, flags & 1))), values, bytes);
    }
}

const named = (call, value) => (c[call](value, base + BUFFER, 80n, base + COUNT) === 0 ? textAt(BUFFER, u64(COUNT)) : null);
const FIELD_NAMES = Array.from({ length: 64 }, (_, value) => named("ndef_field_name", value));

function checks(bytes, options, flags) {
    const limits = [options.payload ?? 1048576, options.records ?? 1024, options.chunks ?? 4096, flags];
    limits.forEach((value, index) => view.setUint32(base + 4 * index, value, true));
    const input = put(bytes), status = c.ndef_check(...input, base, base + OUT);
    const checked = (at) => ({ place: u64(at), records: u32(at + 8), reason: u32(at + 12) });
    look(`check with ${flags}`, ndef.check(bytes, { ...options, flags }), { status, ...checked(OUT) }, bytes);
    look("checkAll", ndef.checkAll(bytes, { ...options, flags })[0], { at: 0, status, ...checked(OUT) }, bytes);
    if (flags & 2) return;
    const ended = c.ndef_fields(...input, base, base + ARRAY, 20000n, base + COUNT, base + WHY), count = u64(COUNT);
    const wanted = Array.from({ length: count }, (_, index) => {
        const at = ARRAY + 24 * index;
        return { at: u64(at), length: u64(at + 8), depth: u32(at + 16), name: u32(at + 20) };
    });
    const answer = { status: ended, ...checked(WHY), fields: wanted.map((field) => ({ ...field, name: FIELD_NAMES[field.name] })) };
    look(`fields with ${flags}`, ndef.fields(bytes, { ...options, flags }), answer, bytes);
}

// How the messages were answered that were looked at.
const answered = { taken: 0, refused: 0, cut: 0, chunked: 0 };

const BYTES = 7; // the column of a case that has its bytes
const SMALL = { payload: 9, records: 2, chunks: 2 }, ALL = [0, 1, 2, 3];
for (const line of readFileSync(0, "utf8").split("\n").filter(Boolean)) {
    const hex = line.split("|")[BYTES].trim(), bytes = fromHex(hex === "-" ? "" : hex);
    if (bytes.length > 20000) continue;
    for (let round = 0; round < 4; round++) {
        const given = bytes.slice(0, round === 3 ? below(bytes.length + 1) : bytes.length);
        if (round === 1 || round === 2) if (given.length) given[below(given.length)] = below(256);
        for (const flags of ALL) {
            checks(given, round === 2 ? SMALL : {}, flags);
            reads(given, round === 2 ? SMALL : {}, flags);
        }
        records(given, [0, 1, 2], () => true);
    }
}
// An input of the fuzzer: two bytes that choose how it is read, and the message.
for (const line of readFileSync(new URL("../fuzz/corpus.txt", import.meta.url), "utf8").split("\n").filter((digits) => digits.length >= 4)) {
    const given = fromHex(line), bytes = given.subarray(2);
    checks(bytes, given[0] & 4 ? { payload: 16, records: 2, chunks: 2 } : {}, given[0] & 3);
    records(bytes, [given[0] & 1], () => true);
}
const most = Number(process.argv[2] ?? 100000);
for (let made = 0; made < most; made++) {
    const bytes = randomMessage(), options = randomLimits(), flags = ALL[below(4)], looked = below(4);
    const { status, reason, place } = ndef.check(bytes, { ...options, flags });
    answered.taken += status === Ndef.OK;
    answered.refused += status === Ndef.REFUSED;
    answered.cut += reason === 24 && place === bytes.length;
    checks(bytes, options, flags);
    reads(bytes, options, flags);
    records(bytes, [flags & 1], (_, index) => index === looked);
    answered.chunked += ndef.recordAt(bytes, 0).chunks > 1;
}
for (let value = 0; value < 64; value++) {
    look("reasonName", ndef.reasonName(value), named("ndef_reason_name", value), []);
    look("reasonSentence", ndef.reasonSentence(value), named("ndef_reason_sentence", value), []);
    look("statusName", ndef.statusName(value), named("ndef_status_name", value), []);
    look("fieldName", ndef.fieldName(value), named("ndef_field_name", value), []);
}
// A text whose language code doesn't fit, a message after a byte that may be of a tag, a message, and bytes whose payloads aren't checked.
const late = [0xd1, 1, 6, 0x54, 0x3f, 0, 0, 0, 0, 0], after = [1, 0xd0, 0, 0];
look("why", ndef.why(new Uint8Array(late)), "The language code has 63 octets; 5 are left in the payload.", late);
look("why", ndef.why(new Uint8Array([0xd0, 0, 0])), null, [0xd0, 0, 0]);
look("why", ndef.why(new Uint8Array(late), { flags: Ndef.OPAQUE }), null, late);
look("hint", ndef.hint(new Uint8Array(after)),
    "The bytes may begin with what surrounds a message on a tag; a message begins at byte 1.", after);
look("hint", ndef.hint(new Uint8Array(late)), null, late);
// An empty tag after its capability container, and the type name format 7 (test/faces/hints.txt).
const empty = [0xe1, 0x10, 0x12, 0, 3, 0, 0xfe], reserved = [0xd7, 0, 1, 0x61];
look("findHint", ndef.findHint(new Uint8Array(empty)), { hint: Ndef.HINT.TLV, at: 6, length: 0 }, empty);
look("findHint", ndef.findHint(new Uint8Array(after)), { hint: Ndef.HINT.MESSAGE, at: 1, length: 0 }, after);
look("findHint", ndef.findHint(new Uint8Array(late)), null, late);
look("findHint", ndef.findHint(new Uint8Array(reserved)), { hint: Ndef.HINT.STANDARD, at: 0, length: 0 }, reserved);
look("findHint", [Ndef.STANDARD, Ndef.OPAQUE].map((flags) => ndef.findHint(new Uint8Array(reserved), { flags })), [null, null], reserved);
// What is strange in fields and in records, by docs/EXPLAIN.md; three records have the ids a, b and a.
look("fieldWarning", ndef.fieldWarning("action", new Uint8Array([3])), "The action 3 is reserved.", []);
look("fieldWarning", ndef.fieldWarning("action", new Uint8Array([2])), null, []);
look("fieldWarning", ndef.fieldWarning("PAYLOAD_LENGTH", new Uint8Array([0, 0, 0, 3])),
    "The payload length 3 fits one octet (SR): the message could be 3 bytes shorter.", []);
const twice = new Uint8Array([0x9d, 0, 0, 1, 0x61, 0x1d, 0, 0, 1, 0x62, 0x5d, 0, 0, 1, 0x61]), again = "Another record has the same id.";
look("recordWarning", [0, 1, 2, 3, 1e15].map((index) => ndef.recordWarning(twice, index)), [again, null, again, null, null], twice);
look("recordWarning", ndef.recordWarning(twice.subarray(0, 14), 0), null, twice);
for (const wrong of [() => ndef.fieldWarning("uri", new Uint8Array(1)), () => ndef.recordWarning(new Uint8Array(1), -1)]) {
    let refused = null;
    try { wrong(); } catch (error) { refused = error; }
    look("a bad argument for a remark", refused instanceof RangeError, true, []);
}
const saysOf = (number) => { try { return new Ndef({ ...c, ndef_version: () => number }).version().join("."); } catch (error) { return String(error); } };
const needs = "Error: ndef.js needs the library of version 1.0.0, or a later 1; this is";
look("libraries of other versions", [0x300, 0x20003, 0x10203].map(saysOf), [`${needs} 0.3.0`, `${needs} 2.0.3`, "1.2.3"], []);
c.ndef_default_limits(base);
look("defaultLimits", ndef.defaultLimits(), { payload: u32(0), records: u32(4), chunks: u32(8), flags: u32(12) }, []);

// A byte order mark is a character of a text in UTF-8, and the memory grows by what is given.
look("text", ndef.text(fromHex("02656EEFBBBF61")).text, "\ufeffa", []);
const many = fromHex(`900000${"100000".repeat(2998)}550001 07`), fresh = await Ndef.load(code);
look("many records by a walk", fresh.items(many).map(({ tnf, payload }) => [tnf, payload.length]).slice(2997), [[0, 0], [0, 0], [5, 1]], many);
const large = new Uint8Array(3000006);
large.set([0xc5, 0, 0, 45, 0xc6, 0xc0]);
look("a message of 3 MB", [fresh.check(large, { payload: 3000000 }).place, fresh.records(large)[0].payload.length], [3000006, 3000000], []);
const { taken, refused, cut, chunked } = answered;
console.log(`random messages ${most}, taken ${taken}, refused ${refused}, cut off ${cut}, in chunks ${chunked}`);
look("how many were answered so", [taken > most / 8, refused > most / 8, cut > most / 50, chunked > most / 50], [true, true, true, true], []);
console.log(`${passed} passed, ${failed} failed`);
process.exit(failed || !passed ? 1 : 0);
