// node test/web/package.mjs <LINES: what the package reads: records in the shape of Web NFC, values, errors, options; also over the cases
// of the suite, given as lines on standard input. Prints 'N passed, M failed'.
import { readFileSync } from "node:fs";
import { inspect } from "node:util";
import { HINT, NDEFMessage, NDEFRecord, Ndef, NdefError, check, decode, decodePrefix, encode, explain, fields, findHint, hint, links, ready, why } from "../../out/web/index.js";
import { PROGRAM, hintText } from "../../out/web/hint.js";
import code from "../../out/web/ndef_wasm.mjs";
import { bytesOf, cases, finish, hexOf, recordHex, same, test, throws } from "./tests.mjs";

const calls = await Ndef.load(code), all = cases();
const recordOf = (hex, options) => decode(bytesOf(hex), options).records[0];
const MEMBERS = ["recordType", "mediaType", "id", "encoding", "lang", "data"];
const membersOf = (record) => MEMBERS.map((name) => record[name]);
const viewOf = (hex) => new DataView(bytesOf(hex).buffer);

// Messages within payloads, with each part that they may have.
const POSTER = recordHex("91", "U", "00 61") + recordHex("11", "T", "02 656E 48") + recordHex("11", "act", "01") + recordHex("11", "s", "000003E8")
    + recordHex("11", "t", "612F62") + recordHex("52", "image/png", "0102");
const REQUEST = "12" + recordHex("91", "cr", "0102") + recordHex("51", "ac", "03 01 30 01 01 31");
const SELECT = "13" + recordHex("91", "ac", "01 02 FF30 00") + recordHex("51", "err", "02 00000104");

// ---- records. The draft of Web NFC says what each member is.

const SHAPES = [
    ["D00000", ["empty", null, null, null, null, null]],
    ["D9 01 08 02 54 6964 02 656E 48656C6C6F", ["text", null, "id", "utf-8", "en", viewOf("48656C6C6F")]],
    ["D1 01 05 54 00 E282AC 61", ["text", null, null, "utf-8", "", viewOf("E282AC61")]],
    ["D1 01 05 54 82 6465 20AC", ["text", null, null, "utf-16be", "de", viewOf("20AC")]],
    ["D1 01 07 54 82 6465 FEFF 20AC", ["text", null, null, "utf-16be", "de", viewOf("20AC")]],
    ["D1 01 07 54 82 6465 FFFE AC20", ["text", null, null, "utf-16be", "de", viewOf("20AC")]],
    ["D1 01 03 55 01 612E", ["url", null, null, null, null, viewOf(hexOf(Buffer.from("http://www.a.")))]],
    ["D1 02 06 5370 D1 01 02 55 00 61", ["smart-poster", null, null, null, null, viewOf("D101025500 61")]],
    ["D3 03 00 613A62", ["absolute-url", null, null, null, null, viewOf("613A62")]],
    ["DA 03 02 01 612F62 31 0102", ["mime", "a/b", "1", null, null, viewOf("0102")]],
    ["D4 05 01 612E623A63 07", ["a.b:c", null, null, null, null, viewOf("07")]],
    ["D5 00 01 07", ["unknown", null, null, null, null, viewOf("07")]],
    ["D1 03 01 616374 00", [":act", null, null, null, null, viewOf("00")]],
    ["D1 02 01 4873 12", [":Hs", null, null, null, null, viewOf("12")]],
    ["B2 03 01 612F62 01 56 00 01 02", ["mime", "a/b", null, null, null, viewOf("0102")]],
];
for (const [hex, wanted] of SHAPES) await test(`the members of ${hex}`, () => same(membersOf(recordOf(hex)), wanted));
await test("TextDecoder reads data by its encoding", () => SHAPES.map(([hex]) => recordOf(hex)).filter(({ encoding }) => encoding !== null)
    .every((record) => new TextDecoder(record.encoding).decode(record.data) === record.text));
await test("what isn't in Web NFC", () => {
    const record = recordOf("DA 03 02 01 612F62 31 0102");
    same([record.tnf, record.type, record.idBytes, record.payload, record.kind, record.value, record.text, record.uri],
        [2, bytesOf("612F62"), bytesOf("31"), bytesOf("0102"), 0, null, null, null]);
    same(["D101025501 61", "D10206537 0D10102550061", "D30300613A62", "D101035402656E"].map((hex) => [recordOf(hex).uri, recordOf(hex).text]),
        [["http://www.a", null], ["a", null], ["a:b", null], [null, ""]]);
});
await test("a record's bytes are its own", () => {
    const given = bytesOf("DA 03 02 01 612F62 31 0102"), record = decode(given).records[0];
    given.fill(0);
    record.payload.fill(0);
    record.type.fill(0);
    record.idBytes.fill(0);
    record.data.setUint8(0, 9);
    same(hexOf(record.toBytes()), "da030201612f62310102");
});
await test("a message has a frozen list", () => {
    const { records } = decode(bytesOf("900000500000"));
    same([Object.isFrozen(records), records.length, records.every((record) => record instanceof NDEFRecord)], [true, 2, true]);
});
await test("records within", () => {
    const types = (hex) => recordOf(hex).toRecords()?.map((record) => [record.recordType, record.kind]) ?? null;
    same(types(recordHex("D1", "Sp", POSTER)), [["url", 2], ["text", 1], [":act", 7], [":s", 8], [":t", 9], ["mime", 0]]);
    same(types(recordHex("D1", "Hr", REQUEST)), [[":cr", 11], [":ac", 10]]);
    same(types(recordHex("D1", "Hs", SELECT)), [[":ac", 10], [":err", 12]]);
    same(types(recordHex("D1", "Hs", "12")), []);
    for (const [header, type] of [["D4", "a.b:c"], ["D1", "x"]]) {
        same(types(recordHex(header, type, "D00000")), [["empty", 0]]);
        same(["D00001", "D0000000", "D70000", ""].map((payload) => types(recordHex(header, type, payload))), [null, null, null, null]);
    }
    for (const hex of ["D00000", "D101035402656E", "D101025500 61", "D5000107", recordHex("DA", "a/b", "D00000", "1"), "D3030061 3A62"])
        same(throws(DOMException, () => recordOf(hex).toRecords()).name, "NotSupportedError");
});
await test("the values of records within", () => {
    same(recordOf(recordHex("D1", "Hr", REQUEST)).toRecords()[1].value, { power: 3, reference: "0", auxiliary: ["1"] });
    same(recordOf(recordHex("D1", "Hs", SELECT)).toRecords()[1].value, { reason: 2, data: bytesOf("00000104"), number: 260 });
});

// ---- what is decoded goes to Web NFC, and what Web NFC gives is encoded

// A record as a browser has it: its members are those of its class, and null where there is none.
class Theirs {
    #record;
    constructor(record) { this.#record = record; }
}
for (const name of MEMBERS) Object.defineProperty(Theirs.prototype, name, { get() { return this.record[name]; } });
const theirs = (message) => ({ records: message.records.map((record) => Object.create(Theirs.prototype, { record: { value: record } })) });
const meant = (message) => message.records.map((record) => [record.recordType, record.mediaType, record.id, record.text, record.uri,
    record.text === null && record.uri === null ? record.payload : null]);

await test("what the browser has is encoded", () => SHAPES.forEach(([hex]) => {
    const message = decode(bytesOf(hex));
    same(meant(decode(encode(theirs(message)))), meant(message));
}));
await test("what NDEFReader.write takes is encoded", () => SHAPES.forEach(([hex]) => {
    const message = decode(bytesOf(hex));
    same(meant(decode(encode(message.toInit()))), meant(message));
}));
await test("NDEFReader.write is given what it takes", () => {
    const inits = (hex) => decode(bytesOf(hex)).toInit().records;
    same(inits("D00000"), [{ recordType: "empty" }]);
    same(inits("D9 01 05 02 54 6964 02 656E 4869"), [{ recordType: "text", id: "id", data: viewOf("4869"), encoding: "utf-8", lang: "en" }]);
    same(inits("D1 01 03 55 01 612E"), [{ recordType: "url", data: "http://www.a." }]);
    same(inits("D3 03 00 613A62"), [{ recordType: "absolute-url", data: "a:b" }]);
    same(inits("DA 03 02 01 612F62 31 0102"), [{ recordType: "mime", id: "1", mediaType: "a/b", data: bytesOf("0102") }]);
    same(inits("D4 05 01 612E623A63 07"), [{ recordType: "a.b:c", data: bytesOf("07") }]);
    same(inits("D1 02 0D 5370 91 01 02 55 00 61 51 03 01 616374 01"),
        [{ recordType: "smart-poster", data: { records: [{ recordType: "url", data: "a" }, { recordType: ":act", data: bytesOf("01") }] } }]);
});
// Whether Web NFC has a name for each type, and its names and ids are text. A mark at the front of a text is none of its characters there.
const hasNames = (records) => records.every((record) => [...record.type, ...record.idBytes].every((byte) => byte < 0x80)
    && (record.tnf !== 4 || record.recordType.includes(":")) && (record.recordType !== "smart-poster" || hasNames(record.toRecords())));
let gone = 0;
await test("the messages of the suite go to Web NFC and back", () => all.filter(({ isAccepted, options }) => isAccepted && !options.opaque).forEach(({ bytes, options }) => {
    const { message } = decodePrefix(bytes, options);
    if (!hasNames(message.records) || message.records.some(({ text }) => text?.startsWith("\ufeff"))) return;
    gone++;
    same(meant(decode(encode(message.toInit(), options), { ...options, standard: true })), meant(message));
}));
await test("most of them do", () => gone > 300);

await test("a message keeps its bytes", () => {
    const given = bytesOf("9101085402656e48656c6c6f510104550161c3bc"), { records: [text, uri] } = decode(given);
    given.fill(0xff);
    text.payload.fill(0xff);
    text.type.fill(0xff);
    decode(bytesOf("d00000"));
    same([text.text, text.lang, uri.uri, hexOf(uri.payload)], ["Hello", "en", "http://www.aü", "0161c3bc"]);
});
await test("values are those of their records, whatever is read between", () => {
    const long = "grüß ".repeat(40), records = [{ recordType: "text", data: "one" }, { recordType: "url", data: "https://two" }, { recordType: "text", data: long },
        { recordType: "text", data: "three", encoding: "utf-16" }, { recordType: "mime", data: "four" }, { recordType: "text", data: "\ufefffive" }];
    const whole = encode({ records }), one = decode(whole).records, other = [...decode(whole).records].reverse();
    const values = (list) => list.map(({ text, uri }) => text ?? uri);
    same(values(one), ["one", "https://two", long, "three", null, "\ufefffive"]);
    same(values(other), values(one).reverse());
    const chunks = decode(bytesOf("b101035402656e36000348656c5600026c6f")).records[0];
    decode(whole);
    same([chunks.text, hexOf(chunks.payload)], ["Hello", "02656e48656c6c6f"]);
});
await test("bytes of other classes are taken", () => {
    class Own extends Uint8Array { subarray() { throw new Error("its own"); } }
    const plain = bytesOf("d101085402656e48656c6c6f"), shared = new Uint8Array(new SharedArrayBuffer(12));
    shared.set(plain);
    for (const bytes of [Own.from(plain), Buffer.from(plain), shared, plain.buffer, new Uint16Array(plain.buffer)]) same(decode(bytes).records[0].text, "Hello");
});
await test("the members of a call's answer don't keep the caller's bytes", () => {
    const record = calls.recordAt(bytesOf("d101085402656e48656c6c6f"), 0), [walked] = calls.records(bytesOf("d101085402656e48656c6c6f"));
    calls.check(bytesOf("d0000000000000000000000000"));
    same([record, walked].map(({ type, payload }) => [hexOf(type), hexOf(payload)]), Array(2).fill(["54", "02656e48656c6c6f"]));
});

// ---- records that are made

const hexOfRecord = (init) => hexOf(encode({ records: [init] }));
await test("records are made of what Web NFC takes", () => {
    const { buffer } = bytesOf("0007 20AC 00").slice(), units = new Uint8Array(buffer, 2, 2);
    same(hexOfRecord({ recordType: "empty" }), "d00000");
    same(hexOfRecord({ recordType: "text", data: "Hi" }), "d101055402656e4869");
    same(hexOfRecord({ recordType: "text", data: "Hi", lang: "de", id: "x", encoding: "utf-8" }), "d901050154780264654869");
    same(["utf-16", "utf-16be"].map((encoding) => hexOfRecord({ recordType: "text", data: units, encoding, lang: "de" })), Array(2).fill("d1010754826465feff20ac"));
    same(["utf-16", "utf-16le", "utf-16be"].map((encoding) => hexOfRecord({ recordType: "text", data: bytesOf("FFFEAC20"), encoding, lang: "" })),
        Array(3).fill("d101055480feff20ac"));
    same(["utf-16", "utf-16le", "utf-16be"].map((encoding) => hexOfRecord({ recordType: "text", data: bytesOf("FEFF20AC"), encoding, lang: "" })),
        Array(3).fill("d101055480feff20ac"));
    same(hexOfRecord({ recordType: "text", data: bytesOf("AC20"), encoding: "utf-16le", lang: "" }), "d101055480feff20ac");
    same(hexOfRecord({ recordType: "text", data: bytesOf("EFBBBF61"), lang: "" }), "d101055400efbbbf61");
    same(hexOfRecord({ recordType: "url", data: "https://a.b" }), "d101045504612e62");
    same(hexOfRecord({ recordType: "url", data: units.fill(0x61) }), "d1010355006161");
    same(hexOfRecord({ recordType: "absolute-url", data: "a:b" }), "d30300613a62");
    same(hexOfRecord({ recordType: "mime", mediaType: "a/b", data: bytesOf("0102").buffer }), "d20302612f620102");
    same(hexOfRecord({ recordType: "mime", data: "" }), `d21800${hexOf(Buffer.from("application/octet-stream"))}`);
    same(hexOfRecord({ recordType: "unknown", data: units }), "d500026161");
    same(hexOfRecord({ recordType: "a.b:c", data: "x" }), "d40501612e623a6378");
    same(hexOfRecord({ recordType: "a.b:c" }), "d40500612e623a63");
    same(hexOfRecord({ recordType: ":act", data: bytesOf("00") }), "d1030161637400");
    same(hexOfRecord({ recordType: "a.b:c", data: { records: [{ recordType: "empty" }] } }), "d40503612e623a63d00000");
    same(hexOfRecord({ recordType: "smart-poster", data: { records: [{ recordType: "url", data: "a" }] } }), "d102065370d10102550061");
    same(hexOfRecord({ recordType: "smart-poster", data: bytesOf("D10102550061").buffer }), "d102065370d10102550061");
    same(hexOfRecord({ tnf: 1, type: bytesOf("48"), id: "i", payload: "x" }), "d9010101486978");
    same(hexOfRecord(new NDEFRecord({ recordType: "text", data: "Hi" })), "d101055402656e4869");
    same(hexOfRecord(new NDEFRecord(new NDEFRecord({ recordType: "text", data: "Hi" }))), "d101055402656e4869");
    same(hexOfRecord({ recordType: "unknown", data: null }), "d50000");
    same(hexOf(encode(new NDEFMessage({ records: [{ recordType: "empty" }, { recordType: "empty" }] }))), "900000500000");
});
await test("what makes no record is a TypeError", () => {
    for (const init of [null, undefined, 3, "text", {}, { recordType: 3 }, { recordType: null }, { recordType: "other" }, { recordType: "text" }, { recordType: "url" },
        { recordType: "mime" }, { recordType: "unknown" }, { recordType: "absolute-url" }, { recordType: "text", data: 3 }, { recordType: "mime", mediaType: 3, data: "" },
        { recordType: "text", data: bytesOf("00"), encoding: "latin1" }, { recordType: "url", data: {} }, { recordType: "empty", data: 3 },
        { recordType: "smart-poster", data: "a" }, { recordType: "smart-poster" }, { recordType: "a:b", data: 3 }, { tnf: "1" }, { tnf: 1, type: 3 },
        { recordType: "text", data: bytesOf("FF") }])
        throws(TypeError, () => new NDEFRecord(init));
    for (const message of [null, undefined, 3, [], {}, { records: [] }, { records: 3 }, { records: "text" }, { records: null }, { records: [null] }])
        for (const call of [(one) => new NDEFMessage(one), encode, links]) throws(TypeError, () => call(message));
    for (const source of ["text", bytesOf("D00000")]) for (const call of [(one) => new NDEFMessage(one), links]) throws(TypeError, () => call(source));
});
await test("an encoding has a name of Web NFC", () => {
    for (const encoding of ["UTF-8", "utf8", "latin1", "", "utf-16BE"])
        for (const data of ["Hi", bytesOf("4869")]) throws(TypeError, () => encode({ records: [{ recordType: "text", encoding, data }] }));
    for (const encoding of ["utf-16", "utf-16be", "utf-16le"]) same(hexOfRecord({ recordType: "text", encoding, data: "H" }), "d101075482656efeff0048");
    same(hexOfRecord({ recordType: "text", encoding: null, data: "H" }), "d101045402656e48");
});
await test("a message is made of what write of Web NFC takes", () => {
    same(hexOf(encode("Hello")), "d101085402656e48656c6c6f");
    const octets = `d21802${hexOf(Buffer.from("application/octet-stream"))}0102`;
    for (const bytes of [bytesOf("0102"), bytesOf("0102").buffer, new DataView(bytesOf("0102").buffer)]) same(hexOf(encode(bytes)), octets);
    const two = function* () { yield { recordType: "empty" }; yield { recordType: "empty" }; };
    same([hexOf(encode({ records: two() })), hexOf(encode({ records: new Set(two()) }))], Array(2).fill("900000500000"));
    same(hexOfRecord({ recordType: "a.b:c", data: { records: two() } }), "d40506612e623a63900000500000");
    same(hexOfRecord({ recordType: "url", data: new URL("https://a.b/c") }), "d101065504612e622f63");
    same(hexOfRecord({ recordType: "absolute-url", data: new URL("a:b") }), "d30300613a62");
});
await test("a record is shown and told in JSON", () => {
    const message = decode(encode({ records: [{ recordType: "text", data: "Hi", id: "i" }, { recordType: "mime", mediaType: "a/b", data: bytesOf("00ff") }] }));
    const records = [{ recordType: "text", id: "i", encoding: "utf-8", lang: "en", text: "Hi", payload: "02656e4869" },
        { recordType: "mime", mediaType: "a/b", payload: "00ff" }];
    same([JSON.stringify(message), structuredClone(message.toJSON())], [JSON.stringify({ records }), { records }]);
    same(inspect(message.records[1]), "NDEFRecord {\n  recordType: 'mime',\n  mediaType: 'a/b',\n  payload: Uint8Array(2) [ 0, 255 ]\n}");
    same(inspect(message).includes("text: 'Hi'"), true);
    const wrong = inspect(decode(bytesOf("D101015402"), { opaque: true }).records[0]);
    same([wrong.startsWith("NDEFRecord {"), wrong.includes("tnf: 1")], [true, true]);
});
await test("a poster is what was checked, whatever becomes of the caller's bytes", () => {
    const { poster } = Ndef.prototype, data = bytesOf("D10102550061");
    Ndef.prototype.poster = function (...given) {
        const answer = poster.apply(this, given);
        data.fill(0xff);
        return answer;
    };
    const record = new NDEFRecord({ recordType: "smart-poster", data });
    Ndef.prototype.poster = poster;
    same(hexOf(record.payload), "d10102550061");
});
await test("what is explained is read by the rules it was checked with", () => {
    const reserved = bytesOf("D101025524 61");
    same(explain(reserved, { standard: true }).records.map(({ uri, value }) => [uri, value]), [["a", { uri: "a" }]]);
    throws(NdefError, () => explain(reserved, { standard: true, records: 1 }).refusal ?? decode(reserved));
});
await test("what can't be written is a RangeError", () => {
    for (const init of [{ recordType: "text", data: "a", lang: "ä" }, { recordType: "text", data: "a", lang: "a".repeat(64) }, { recordType: "url", data: bytesOf("FF") },
        { recordType: "unknown", data: "", id: "a".repeat(256) }, { recordType: "mime", mediaType: "", data: "" }, { recordType: "empty", data: "x" }, { recordType: "empty", id: "x" },
        { recordType: ":" }, { tnf: 6, type: "" }, { tnf: 2 ** 32 }, { tnf: -1 }, { tnf: 5, type: "x" }])
        throws(RangeError, () => new NDEFRecord(init));
});
await test("bytes that are no smart poster are refused", () => {
    const data = bytesOf("D1010354 02656E"), error = throws(NdefError, () => new NDEFRecord({ recordType: "smart-poster", data })), { place, reason } = calls.poster(data);
    same([error.place, error.reason, error.name], [place, reason, "UriMissing"]);
});

// ---- bytes, options and errors

const READERS = { check, decode, decodePrefix, fields, explain };
await test("bytes have any shape, and nothing else is bytes", () => {
    const bytes = bytesOf("D101085402656E48656C6C6F"), buffer = new ArrayBuffer(28);
    new Uint8Array(buffer, 8, 12).set(bytes);
    for (const read of Object.values(READERS)) {
        const wanted = read(bytes);
        for (const shape of [bytes.buffer.slice(0), new DataView(buffer, 8, 12), new Uint16Array(buffer, 8, 6), Buffer.from(bytes)]) same(read(shape), wanted);
        for (const wrong of ["d00000", "", undefined, null, 3, [0xd0, 0, 0], {}, new Map()]) throws(TypeError, () => read(wrong));
        for (const wrong of [null, 3, "records"]) throws(TypeError, () => read(bytes, wrong));
        for (const name of ["payload", "records", "chunks"]) {
            for (const value of [0, -1, 0.5, 2 ** 32, NaN]) throws(RangeError, () => read(bytes, { [name]: value }));
            throws(TypeError, () => read(bytes, { [name]: "1" }));
        }
    }
    for (const read of [fields, explain]) throws(RangeError, () => read(bytes, { opaque: true }));
});
await test("each option is its own", () => {
    same(throws(NdefError, () => decode(bytesOf("900000500000"), { records: 1 })).name, "TooManyRecords");
    same(throws(NdefError, () => decode(bytesOf("B1010154005600 0165"), { chunks: 1 })).name, "TooManyPieces");
    same(throws(NdefError, () => decode(bytesOf("D500020102"), { payload: 1 })).name, "PayloadTooLarge");
    same(throws(NdefError, () => decode(bytesOf("D70000"))).name, "ReservedTnf");
    same([recordOf("D70000", { standard: true }).recordType, recordOf("D1010255FF61", { standard: true }).uri], ["unknown", "a"]);
    same(throws(NdefError, () => decode(bytesOf("D1010154FF"))).name, "TextBit");
});
await test("payloads that weren't checked are refused where they are read", () => {
    const record = recordOf("D1010154FF", { opaque: true });
    same([record.recordType, record.payload, record.toBytes(Ndef.WRITE_FIRST | Ndef.WRITE_LAST)], ["text", bytesOf("FF"), bytesOf("D1010154FF")]);
    for (const name of ["value", "text", "data", "lang", "encoding"]) same(throws(NdefError, () => record[name]).name, "TextBit");
    const poster = decode(bytesOf("D102015370D0"), { opaque: true });
    same(encode(poster, { opaque: true }), bytesOf("D102015370D0"));
    throws(NdefError, () => poster.records[0].value);
    throws(NdefError, () => links(decode(bytesOf("D10201487200"), { opaque: true })));
});
await test("an error says where and why", () => {
    const error = throws(NdefError, () => decode(bytesOf("D1010254 0261")));
    same([error instanceof Error, error.place, error.reason, error.name, error.sentence, error.message],
        [true, 4, 23, "DoesNotFit", calls.reasonSentence(23), `refused at 4: DoesNotFit: ${calls.reasonSentence(23)}`]);
    same([new NDEFRecord({ recordType: "text", data: "a" }), decode(bytesOf("D00000"))].map((made) => Object.prototype.toString.call(made)), ["[object NDEFRecord]", "[object NDEFMessage]"]);
    same([NdefError.prototype.name, String(error).startsWith("NdefError: refused at 4: DoesNotFit: ")], ["NdefError", true]);
});
await test("other bytes after a message", () => {
    const bytes = bytesOf("D0000007");
    same(decodePrefix(bytes).length, 3);
    const { place, reason, name, sentence } = throws(NdefError, () => decode(bytes));
    same([place, reason, name, sentence], [3, 0, "TrailingBytes", "Other bytes follow the message."]);
    same(check(bytes), { length: 3, records: 1 });
});
await test("what may help, for a program", () => {
    // A row is left out where its release is newer than the library; that of 1.0 had another sentence for the terminator, and no kind after STANDARD.
    const [major, minor] = calls.version(), isOld = major === 1 && minor === 0;
    const lines = readFileSync(new URL("../faces/hints.txt", import.meta.url), "utf8").trim().split("\n");
    const rows = lines.filter((line, at) => !line.startsWith("#") && !(isOld && lines[at - 1].startsWith("# since ")));
    const kinds = new Set(), PLAIN = [...(isOld ? [] : [HINT.TERMINATOR]), HINT.CODE, HINT.UNFINISHED];
    const isPlain = ({ kind, length }) => PLAIN.includes(kind) || (kind <= HINT.FILE && length === 0);
    for (const row of rows) {
        const [kind, place, length, hex] = row.split(" "), bytes = bytesOf(hex === "-" ? "" : hex), found = findHint(bytes), sentence = hint(bytes);
        same([row, found?.kind ?? 0, found?.place ?? 0, found?.length ?? 0], [row, ...[kind, place, length].map(Number)]);
        if (found !== null) same([row, found.text === sentence, found.text.includes("--"), /[.?]$/.test(found.text)], [row, isPlain(found), false, true]);
        else same(sentence, null);
        if (found !== null) kinds.add(found.kind);
    }
    same([...kinds].sort((one, other) => one - other), Object.values(HINT).filter((kind) => !isOld || kind <= HINT.STANDARD));
    for (const kind of Object.values(HINT)) same([kind, /[.?]$/.test(hintText({ hint: kind, at: 9, length: 0 }, PROGRAM))], [kind, true]);
    const tag = bytesOf("E1101200 030CD101085402656E48656C6C6FFE"), reserved = bytesOf("D7000161");
    same(findHint(tag).text, "A message of length 12 may begin at byte 6, in an NDEF TLV of a tag: read `bytes.slice(6, 18)`.");
    same(decode(tag.slice(6, 18)).records[0].text, "Hello");
    same(findHint(bytesOf("01D00000").buffer).text.split("; ")[1], "a message begins at byte 1: read `bytes.slice(1)`.");
    same([findHint(reserved).text, findHint(reserved, { standard: true })], ["The standard profile reads this: give `{ standard: true }`.", null]);
    same(findHint(reserved, { opaque: true }), findHint(reserved));
    same([decode(reserved, { standard: true }).records.length, Ndef.HINT], [1, HINT]);
    same(hintText({ hint: 99, at: 0, length: 0 }, PROGRAM), "Only a newer library knows this hint.");
    for (const wrong of ["d00000", null, [1]]) throws(TypeError, () => findHint(wrong));
    throws(TypeError, () => findHint(tag, 1));
});
await test("the payloads of records that were read unchecked are refused where their values are asked for", () => {
    const itemOf = (hex) => calls.read(bytesOf(hex), { flags: Ndef.OPAQUE }).items[0];
    same([calls.textOf(itemOf("D1 01 02 54 42 61")).status, calls.uriOf(itemOf("D1 01 02 55 24 61"), 0).status], [Ndef.REFUSED, Ndef.REFUSED]);
});
await test("console.log shows all of a message where no depth is given", () =>
    same(inspect(decode(bytesOf("D1 01 05 54 02 656E 4869")), { depth: null }).includes("Hi"), true));
await test("a message takes one call of the library, and its texts and URIs none", async () => {
    const { exports } = (await WebAssembly.instantiate(code)).instance, made = [];
    const counting = new Ndef(Object.fromEntries(Object.entries(exports).map(([name, one]) =>
        [name, typeof one === "function" ? (...given) => { made.push(name); return one(...given); } : one])));
    const bytes = encode({ records: [{ recordType: "text", data: "grüß" }, { recordType: "url", data: "https://a" }, { recordType: "url", data: "https://b" }] });
    made.length = 0;
    const { items } = counting.read(bytes), values = items.map((item) => (item.kind === Ndef.KIND.TEXT ? counting.textOf(item) : counting.uriOf(item)).text);
    same([values, made], [["grüß", "https://a", "https://b"], ["ndef_items", "ndef_uri_prefix"]]);
});
await test("a message has more records than there is memory for at first", () => {
    const bytes = bytesOf(`900000${"100000".repeat(4998)}${recordHex("51", "T", "02656E 78")}`);
    const { records } = decode(bytes, { records: 65535 });
    same([records.length, records[0].recordType, records[4999].text, check(bytes, { records: 65535 }).records], [5000, "empty", "x", 5000]);
});
await test("records are read within the usual limits without options", () => same(calls.read(bytesOf("D00000")).items.length, 1));

await test("the library is loaded once, whenever it is needed", async () => { await ready(); await ready(); same(decode(bytesOf("D00000")).records.length, 1); });
await test("the numbers of kinds and reasons are those of the header", () => {
    const header = readFileSync(new URL("../../include/ndef.h", import.meta.url), "utf8");
    same(Ndef.KIND.ERROR, Number(/NDEF_KIND_ERROR = (\d+)/.exec(header)[1]));
});
finish();
