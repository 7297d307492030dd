// node test/web/values.mjs: what ndef.js takes for bytes, numbers and options, and what it answers to several messages.
// Prints 'N passed, M failed'.
import { readFileSync } from "node:fs";
import { links } from "../../out/web/index.js";
import { Ndef } from "../../out/web/ndef.js";

const ndef = await Ndef.load(readFileSync(new URL("../../out/web/ndef.wasm", import.meta.url)));
const fromHex = (text) => Uint8Array.from(Buffer.from(text.replaceAll(" ", ""), "hex"));
const EMPTY = fromHex("D00000"), HELLO = fromHex("D101085402656E48656C6C6F");
const POSTER = fromHex("91010255006151010354004142"), CARRIER = fromHex("010130020131013233");
let passed = 0, failed = 0;

function test(name, holds) {
    let why;
    try {
        why = holds() ? null : "no";
    } catch (error) {
        why = error.stack;
    }
    if (why === null) passed++;
    else { failed++; console.log(`FAILED: ${name}: ${why}`); }
}

// Whether a call throws an error of this class, by the name too.
function throws(kind, call) {
    try {
        call();
    } catch (error) {
        return error instanceof kind && error.name === kind.name;
    }
    return false;
}

const same = (one, other) => JSON.stringify(one) === JSON.stringify(other);

// The calls that take bytes, each with what it is given besides.
const READERS = [
    (bytes) => ndef.check(bytes), (bytes) => ndef.checkAll(bytes), (bytes) => ndef.fields(bytes), (bytes) => ndef.records(bytes),
    (bytes) => ndef.recordAt(bytes, 0), (bytes) => ndef.uri(bytes), (bytes) => ndef.text(bytes), (bytes) => ndef.poster(bytes),
    (bytes) => ndef.request(bytes), (bytes) => ndef.select(bytes), (bytes) => ndef.carrier(bytes), (bytes) => ndef.alternative(bytes),
    (bytes) => ndef.error(bytes), (bytes) => ndef.links(bytes, EMPTY), (bytes) => ndef.links(EMPTY, bytes),
];
const NO_BYTES = ["d00000", "", undefined, null, 3, 3n, true, [0xd0, 0, 0], { length: 3 }, new Map(), () => 1, Symbol("bytes")];

test("what is no bytes is a TypeError", () => READERS.every((read) => NO_BYTES.every((given) => throws(TypeError, () => read(given)))));

// The same octets as an ArrayBuffer, and in the middle of one by views of elements of 8, 16 and 32 bits.
function shapes(bytes) {
    const buffer = new ArrayBuffer(bytes.length + 16), shared = new SharedArrayBuffer(bytes.length);
    new Uint8Array(buffer).fill(0xff);
    new Uint8Array(buffer).set(bytes, 8);
    new Uint8Array(shared).set(bytes);
    return [
        bytes.slice().buffer, new DataView(buffer, 8, bytes.length), new Uint8Array(buffer, 8, bytes.length), Buffer.from(bytes), shared,
        new Int8Array(buffer, 8, bytes.length), new Uint16Array(buffer, 8, bytes.length / 2), new Float32Array(buffer, 8, bytes.length / 4),
    ];
}

test("bytes have any shape", () => [HELLO, fromHex("D1010855006162636465 6667")].every((bytes) =>
    READERS.every((read) => shapes(bytes).every((shape) => same(read(shape), read(bytes))))));
test("a view of 16 bits is all of its octets", () => ndef.check(new Uint16Array(HELLO.slice().buffer)).place === 12);
test("what is given isn't changed", () => {
    const given = HELLO.slice();
    READERS.forEach((read) => read(given));
    return same([...given], [...HELLO]);
});

const LIMITS = ["payload", "records", "chunks", "flags"];
const WRAPPED = [-1, 0.5, 2 ** 32, 2 ** 32 + 1, NaN, Infinity, -Infinity, Number.MAX_SAFE_INTEGER];
const CHECKS = ["check", "checkAll", "fields"];
const everywhere = (holds) => CHECKS.every((call) => LIMITS.every((name) => holds(call, name)));

test("a limit that isn't a whole number of 32 bits is a RangeError", () => everywhere((call, name) =>
    WRAPPED.every((value) => throws(RangeError, () => ndef[call](EMPTY, { [name]: value })))));
test("a limit that is no number is a TypeError", () => everywhere((call, name) =>
    ["1", null, true, 1n, {}, [1]].every((value) => throws(TypeError, () => ndef[call](EMPTY, { [name]: value })))));
test("a limit that the library refuses is a RangeError", () => [...CHECKS, "why", "hint", "findHint"].every((call) =>
    [{ payload: 0 }, { records: 0 }, { chunks: 0 }, { records: 65536 }, { chunks: 65536 }, { flags: 4 }].every((options) =>
        throws(RangeError, () => ndef[call](EMPTY, options)))));
test("a limit that is refused is named with the others", () => {
    try { ndef.check(EMPTY, { payload: 258, records: 0, chunks: 772, flags: 1 }); } catch (error) {
        return error.message.endsWith(': {"payload":258,"records":0,"chunks":772,"flags":1}');
    }
    return false;
});
test("fields look into payloads", () => throws(RangeError, () => ndef.fields(EMPTY, { flags: Ndef.OPAQUE })));
test("options are an object", () => CHECKS.every((call) =>
    [5, "records", null, true].every((options) => throws(TypeError, () => ndef[call](EMPTY, options)))
    && same(ndef[call](EMPTY, undefined), ndef[call](EMPTY)) && same(ndef[call](EMPTY, { payload: undefined }), ndef[call](EMPTY))));
test("each limit is its own", () => {
    const two = fromHex("900000 500000"), chunks = fromHex("B1010154 00 56000165"), long = fromHex("D5000201 02");
    return ndef.check(two, { records: 1 }).reason === 10 && ndef.check(two, { records: 2, chunks: 1, payload: 1 }).place === 6
        && ndef.check(chunks, { chunks: 1 }).reason === 9 && ndef.check(chunks, { chunks: 2, records: 1, payload: 2 }).place === 9
        && ndef.check(long, { payload: 1 }).reason === 14 && ndef.check(long, { payload: 2, records: 1, chunks: 1 }).place === 5;
});
test("flags, places, reasons and names are whole numbers", () =>
    [(value) => ndef.uri(fromHex("0061"), value), (value) => ndef.poster(POSTER, value), (value) => ndef.request(EMPTY, value),
        (value) => ndef.select(EMPTY, value), (value) => ndef.reasonName(value), (value) => ndef.fieldName(value)].every((call) =>
        WRAPPED.every((value) => throws(RangeError, () => call(value)))
        && ["1", null, 1n].every((value) => throws(TypeError, () => call(value))))
    && [-1, 0.5, NaN, 2 ** 53].every((place) => throws(RangeError, () => ndef.recordAt(EMPTY, place)))
    && throws(TypeError, () => ndef.recordAt(EMPTY)) && ndef.recordAt(EMPTY, 3).status === Ndef.END
    && ndef.recordAt(EMPTY, 4).status === Ndef.BAD_ARGUMENT && ndef.reasonName(1) === "ReservedTnf" && ndef.reasonName(2 ** 32 - 1) === null);

test("all messages are checked, one after another", () => {
    const bytes = new Uint8Array(301);
    for (let at = 0; at < 300; at += 3) bytes[at] = 0xd0;
    bytes[300] = 0xff;
    const answers = ndef.checkAll(bytes), last = answers.pop();
    return answers.length === 100 && answers.every((answer, index) => answer.at === 3 * index && same(
        { ...answer, at: 0 }, { ...ndef.check(EMPTY), at: 0 })) && same(last, { ...ndef.check(bytes.subarray(300)), at: 300 })
        && last.status === Ndef.REFUSED && last.place === 0 && last.reason === 1;
});
test("a part of the messages is checked", () => {
    const given = Uint8Array.from({ length: 15 }, (_, index) => (index % 3 ? 0 : 0xd0)), all = ndef.checkAll(given);
    return all.length === 5 && same(ndef.checkFrom(given, 3, 2), all.slice(1, 3)) && same(ndef.checkFrom(given, 9, 5), all.slice(3))
        && same(ndef.checkFrom(given, 15, 1), [{ ...ndef.check(new Uint8Array()), at: 15 }])
        && [16, -1, 0.5].every((place) => throws(RangeError, () => ndef.checkFrom(given, place, 1)));
});
test("no bytes are one answer", () => same(ndef.checkAll(new Uint8Array()), [{ ...ndef.check(new Uint8Array()), at: 0 }]));

test("records have bytes of their own", () => {
    const given = HELLO.slice(), record = ndef.recordAt(given, 0);
    given.fill(0);
    return Buffer.from(record.payload).toString("latin1") === "\x02enHello" && Buffer.from(record.type).toString() === "T";
});
test("all references are given", () => {
    const value = ndef.alternative(CARRIER);
    return value.power === 1 && value.references.map(({ at, length }) => `${at} ${length}`).join() === "2 1,5 1,7 1"
        && same(Object.keys(ndef.alternative(fromHex("00"))), ["status", "place", "records", "reason"]);
});
test("two links are told, and the second refers to no record", () => {
    const payload = fromHex("12 910202637212341102046163010130005102046163000131 00");
    const message = fromHex("91021A4872" + Buffer.from(payload).toString("hex") + "5A030401612F623001020304");
    const links = ndef.links(message, payload);
    return same(links.map((link) => [link.recordIndex, link.recordAt, link.carrierLength]), [[1, 31, 4], [null, null, 4]])
        && ndef.links(message, EMPTY).length === 0;
});

// "Hello" has 7 fields: at 0, 1, 2, 3, 4, 5 and 7.
const at = ({ fields }) => fields.map((field) => field.at);
test("the fields of a part of a message", () => same(at(ndef.firstFields(HELLO, 3)), [0, 1, 2]) && at(ndef.firstFields(HELLO, 9)).length === 7
    && same(at(ndef.fieldsWithin(HELLO, 4, 7)), [4, 5]) && same(at(ndef.fieldsWithin(HELLO, 6, 8)), [5, 7]) && same(at(ndef.fieldsWithin(HELLO, 0, 0)), []));
test("the records of a part of a message", () => same(ndef.recordsFrom(fromHex("910000 110000 510000"), 3, 1), ndef.records(fromHex("910000 110000 510000")).slice(1, 2))
    && throws(RangeError, () => ndef.recordsFrom(EMPTY, -1, 1)));
test("a message in the other form, and a handover of version 1.2 without carriers", () =>
    same([...ndef.normalize(fromHex("C10100000001 54 00")).bytes], [...fromHex("D1010154 00")])
    && same([...ndef.normalize(fromHex("D1010154 00"), Ndef.WRITE_LONG).bytes], [...fromHex("C10100000001 54 00")])
    && same([...ndef.writeHandover(true, 1, 2).bytes], [0x12]));
test("a request of a collision number and a carrier", () => {
    const message = fromHex("9102026372 0001 5102046163 01013000");
    return same([...ndef.writeHandover(false, 1, 2, message).bytes], [0x12, ...message]);
});
test("a message without a handover has no links", () => links({ records: [{ recordType: "text", data: "Hello" }] }).length === 0);

test("kinds, statuses and flags have the numbers of the header", () => {
    const header = readFileSync(new URL("../../include/ndef.h", import.meta.url), "utf8");
    const kinds = [...header.matchAll(/NDEF_KIND_(\w+) = (\d+)/g)].map(([, name, number]) => [name, Number(number)]);
    return same(Ndef.KIND, Object.fromEntries(kinds)) && ["OK", "REFUSED", "BUFFER_TOO_SMALL", "BAD_ARGUMENT", "END", "MORE", "STANDARD", "OPAQUE"].every(
        (name) => new RegExp(`NDEF_${name} = ${Ndef[name]}\\b`).test(header));
});

console.log(`${passed} passed, ${failed} failed`);
process.exit(failed || !passed ? 1 : 0);
