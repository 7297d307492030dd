// node javascript.mjs steps SECONDS: reads all of each message on standard input, which test/fuzz/messages.c writes, by ndef.js, for so many
// seconds. Looks whether the parts of the message are told without a gap, and how many steps each message took: blocks of
// ndef.js that ran, as V8 counts them, and bytes that the calls of the library were given.
//
// node --expose-gc --max-semi-space-size=1 javascript.mjs life COUNT: decodes so many messages, one after the other and again from the first,
// and looks whether memory grows. Without these options V8 takes memory for objects to come.
import assert from "node:assert";
import { readFileSync, readSync } from "node:fs";
import { Session } from "node:inspector/promises";
import { Ndef } from "../../out/web/ndef.js";

// The most blocks that run, and the most bytes that the library is given, for each byte of a message and 64 more.
const MOST_BLOCKS = 100, MOST_BYTES = 30;
// The least messages a second; one in twenty at least is taken, and one in twenty refused.
const LEAST = 10;
// These calls are given a whole message and look at one record of it, or are given no bytes.
const ONE_RECORD = new Set(["ndef_record_at", "ndef_kind", "ndef_payload", "ndef_field_name", "ndef_default_limits"]);

const ndef = await Ndef.load(readFileSync(new URL("../../out/web/ndef.wasm", import.meta.url)));
const { OK, REFUSED, KIND, STANDARD } = Ndef;
let given = 0;

// Has each call add the lengths that it is given. `ndef.calls` takes lengths as numbers, the first of them after the address.
function countBytes() {
    for (const [name, call] of Object.entries(ndef.calls)) {
        ndef.calls[name] = (...words) => {
            given += ONE_RECORD.has(name) ? 1 : 1 + words[1];
            return call(...words);
        };
    }
}

// Exactly `length` bytes of standard input, or null at its end.
function read(length) {
    const bytes = new Uint8Array(length);
    for (let at = 0; at < length;) {
        const count = readSync(0, bytes, at, length - at);
        if (count === 0) return null;
        at += count;
    }
    return bytes;
}

function* messages() {
    for (let head = read(4); head !== null; head = read(4)) {
        const message = read(new DataView(head.buffer).getUint32(0, true));
        if (message === null) return;
        yield message;
    }
}

const READ = {
    [KIND.TEXT]: (payload) => ndef.text(payload),
    [KIND.URI]: (payload, flags) => ndef.uri(payload, flags),
    [KIND.SMART_POSTER]: (payload, flags) => [ndef.poster(payload, flags), ndef.records(payload, KIND.SMART_POSTER)],
    [KIND.REQUEST]: (payload, flags) => [ndef.request(payload, flags), ndef.records(payload.subarray(1), KIND.REQUEST)],
    [KIND.SELECT]: (payload, flags) => [ndef.select(payload, flags), ndef.records(payload.subarray(1), KIND.SELECT)],
    [KIND.CARRIER]: (payload) => ndef.carrier(payload),
};

// What the library tells of the message with which the bytes begin, and of each of its records.
function decoded(bytes, flags) {
    const checked = ndef.check(bytes, { flags });
    if (checked.status !== OK) return { checked, records: [] };
    const records = ndef.records(bytes).map((record) => {
        const value = (READ[record.kind] ?? (() => ({ status: OK })))(record.payload, flags);
        return { record, value: Array.isArray(value) ? value[0] : value };
    });
    return { checked, records };
}

// Whether the message is taken by the strict profile.
function lookAt(bytes) {
    let isTaken = false;
    for (const flags of [0, STANDARD]) {
        const { checked, records } = decoded(bytes, flags);
        assert([OK, REFUSED].includes(checked.status));
        assert.equal(records.length, checked.status === OK ? checked.records : 0);
        let end = 0;
        for (const { record, value } of records) {
            assert.equal(record.at, end);
            assert.equal(record.payload.length, record.payloadLength);
            assert.equal(value.status, OK, "a payload of a message that was taken is one of its type");
            end = record.end;
        }
        if (checked.status === OK) assert.equal(end, checked.place);
        isTaken ||= flags === 0 && checked.status === OK;
        const found = ndef.fields(bytes, { flags });
        assert.equal(found.status, checked.status);
        assert.equal(found.fields.reduce((at, field) => { assert.equal(field.at, at); return at + field.length; }, 0) <= bytes.length, true);
    }
    return isTaken;
}

// How often blocks of ndef.js ran since the last call.
async function blocks(session) {
    const { result } = await session.post("Profiler.takePreciseCoverage");
    const script = result.find(({ url }) => url.endsWith("/ndef.js"));
    return script === undefined ? 0 : script.functions.flatMap(({ ranges }) => ranges).reduce((sum, { count }) => sum + count, 0);
}

async function fuzz(seconds) {
    const session = new Session(), end = Date.now() + 1000 * seconds;
    let seen = 0, taken = 0, mostBlocks = 0, mostBytes = 0;
    countBytes();
    session.connect();
    await session.post("Profiler.enable");
    await session.post("Profiler.startPreciseCoverage", { callCount: true, detailed: true });
    for (const message of messages()) {
        given = 0;
        taken += lookAt(message);
        const length = message.length + 64, ran = (await blocks(session)) / length, bytes = given / length;
        mostBlocks = Math.max(mostBlocks, ran);
        mostBytes = Math.max(mostBytes, bytes);
        assert(ran <= MOST_BLOCKS && bytes <= MOST_BYTES, `${ran} blocks and ${bytes} bytes a byte: ${Buffer.from(message).toString("hex")}`);
        seen++;
        if (Date.now() >= end) break;
    }
    console.log(`${seen} messages, ${taken} of them taken, at most ${mostBlocks.toFixed(0)} blocks that ran and ${mostBytes.toFixed(0)} bytes given a byte`);
    assert(seen >= LEAST * seconds && seen / 20 < taken && taken < seen - seen / 20 && mostBlocks > 0 && mostBytes > 0);
}

function live(count) {
    const all = [...messages()], first = [];
    const resident = () => { globalThis.gc?.(); return Math.round(process.memoryUsage().rss / 1024); };
    let before = 0;
    for (let done = 0; done < count; done++) {
        const which = done % all.length, { checked, records } = decoded(all[which], 0);
        const outcome = checked.place + records.length;
        first[which] ??= outcome;
        assert.equal(outcome, first[which], "a message is answered in another way than the first time");
        if (done === Math.floor(count / 10)) before = resident();
    }
    console.log(`${count} decodes, memory ${before} kB after a tenth, ${resident()} kB at the end`);
    assert(resident() <= before + 4096, "the memory grows");
}

const [, , how, number] = process.argv;
if (how === "steps") await fuzz(Number(number));
else live(Number(number));
process.exit(0);
