// node test/web/growth.mjs: how the time of each walk of ndef.js and of the package grows with the records: prints microseconds for
// 100, 1000 and 10000 of them. A walk that takes much more than ten times as long for ten times as many fails. The links of ndef.js
// are left out of that: each carrier is looked for among the records.
import { readFileSync } from "node:fs";
import { NDEFDecoderStream, decode, encode, explain, links } from "../../out/web/index.js";
import { Ndef } from "../../out/web/ndef.js";

const ndef = await Ndef.load(readFileSync(new URL("../../out/web/ndef.wasm", import.meta.url)));
const bytesOf = (...parts) => Uint8Array.from(parts.flatMap((part) => (typeof part === "string" ? [...Buffer.from(part, "latin1")] : part)));
const MANY = { records: 65535 };

// A short record, or one with a length of four octets.
function record(tnf, type, payload, id = "") {
    const size = payload.length, short = size < 256;
    const length = short ? [size] : [size >>> 24, (size >>> 16) & 255, (size >>> 8) & 255, size & 255];
    return bytesOf([tnf | (short ? 0x10 : 0) | (id ? 8 : 0), type.length], length, id ? [id.length] : [], type, id, [...payload]);
}

// The records as a message.
function message(records) {
    const bytes = Buffer.concat(records);
    bytes[0] |= 0x80;
    bytes[bytes.length - records[records.length - 1].length] |= 0x40;
    return new Uint8Array(bytes);
}

const times = (count, made) => Array.from({ length: count }, (_, index) => made(index));
const texts = (count) => message(times(count, () => record(1, "T", "\x02enHello")));

// A request with this many carriers, and as many records to which they refer.
function handover(count) {
    const carriers = times(count, (index) => record(1, "ac", bytesOf([1, `${index}`.length], `${index}`, [0])));
    const payload = bytesOf([0x12], [...message([record(1, "cr", "\x01\x02"), ...carriers])]);
    return { payload, bytes: message([record(1, "Hr", payload), ...times(count, (index) => record(2, "a/b", "x", `${index}`))]) };
}

// The microseconds of processor time of a walk: of seven the fewest.
function timeOf(walk) {
    let fewest = Infinity;
    for (let round = 0; round < 7; round++) {
        const before = process.cpuUsage();
        walk();
        const { user, system } = process.cpuUsage(before), taken = user + system;
        fewest = Math.min(fewest, taken);
        if (taken > 1e6) break;
    }
    return fewest;
}

let steep = false;
function row(name, isLinear, walkOf) {
    const measured = [];
    for (const count of [100, 1000, 10000]) {
        const before = measured[measured.length - 1], now = timeOf(walkOf(count));
        measured.push(now);
        if (isLinear && before !== undefined && now > 35 * before + 2000) { measured.push("steep"); steep = true; break; }
    }
    console.log(["JavaScript", name, ...measured.map((time) => (typeof time === "number" ? time.toFixed(0) : time))].join(" | "));
}

function messages(count) {
    const bytes = Uint8Array.from({ length: 3 * count }, (_, at) => (at % 3 ? 0 : 0xd0));
    return () => ndef.checkAll(bytes);
}

row("messages", true, messages);
row("records", true, (count) => { const bytes = texts(count); return () => ndef.records(bytes); });
row("fields", true, (count) => { const bytes = texts(count); return () => ndef.fields(bytes, MANY); });
row("links of a handover (carriers times records)", false, (count) => {
    const { bytes, payload } = handover(count);
    if (ndef.links(bytes, payload).length !== count) throw new Error("other links");
    return () => ndef.links(bytes, payload);
});
row("decode, and all values", true, (count) => { const bytes = texts(count); return () => decode(bytes, MANY).records.map(({ text }) => text); });
row("encode", true, (count) => { const message = decode(texts(count), MANY); return () => encode(message, MANY); });
row("explain", true, (count) => { const bytes = texts(count); return () => explain(bytes, MANY); });
row("titles of a poster", true, (count) => {
    const poster = record(1, "Sp", message([record(1, "U", "\0a"), ...times(count, () => record(1, "T", "\x02enHello"))]));
    const bytes = message([poster]);
    return () => decode(bytes, MANY).records[0].value.titles;
});
row("links", true, (count) => {
    const given = decode(handover(count).bytes, MANY);
    if (links(given).filter(({ record }) => record).length !== count) throw new Error("other links");
    return () => links(given);
});

// A stream's steps are waited for, so its time is that of the clock.
for (const length of [1, 1 << 20]) {
    const measured = [];
    for (const count of [100, 1000, 10000]) {
        const bytes = Uint8Array.from({ length: 3 * count }, (_, at) => (at % 3 ? 0 : 0xd0)), before = performance.now();
        const parts = new Blob([bytes]).stream().pipeThrough(new TransformStream({ transform: (part, controller) => {
            for (let at = 0; at < part.length; at += length) controller.enqueue(part.subarray(at, at + length));
        } }));
        for await (const _ of parts.pipeThrough(new NDEFDecoderStream())) measured.count = (measured.count ?? 0) + 1;
        measured.push(1000 * (performance.now() - before));
    }
    if (measured.count !== 11100) throw new Error("other messages");
    console.log(["JavaScript", `messages of a stream in parts of ${length}`, ...measured.map((time) => time.toFixed(0))].join(" | "));
}
process.exit(steep ? 1 : 0);
