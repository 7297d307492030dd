// node test/web/writing.mjs <LINES: what the package and the calls below it write. The standards say what the bytes are; each value of the
// suite's messages, given as lines on standard input, is written and read again. Prints 'N passed, M failed'.
import { readFileSync } from "node:fs";
import { ACTION, KIND, Ndef, NDEFRecord, NdefError, POWER, decode, decodePrefix, encode, handoverCarrier, handoverRequest, handoverSelect, smartPoster } from "../../out/web/index.js";
import code from "../../out/web/ndef_wasm.mjs";
import { bytesOf, cases, finish, hexOf, recordHex, same, test, throws } from "./tests.mjs";

const calls = await Ndef.load(code), all = cases();
const written = ({ status, bytes }) => (status === Ndef.OK ? hexOf(bytes) : status);
const BAD = Ndef.BAD_ARGUMENT, LONG = "x".repeat(256);
const lower = (hex) => hexOf(bytesOf(hex));

// ---- the calls

await test("records", () => {
    same(written(calls.writeRecord({ tnf: 1, type: "T", id: "i", payload: bytesOf("0102"), flags: Ndef.WRITE_FIRST | Ndef.WRITE_LAST })), "d9010201546901" + "02");
    same(written(calls.writeRecord({ tnf: 5, payload: "abc", chunk: 2 })), lower("35 00 02 6162 16 00 01 63"));
    same(written(calls.writeRecord({ tnf: 5, payload: "a".repeat(100), chunk: 1 })), "35000161" + "36000161".repeat(98) + "16000161");
    same(written(calls.writeRecord({ tnf: 5, payload: "abc", flags: Ndef.WRITE_LONG | Ndef.WRITE_LAST })), lower("45 00 00000003 616263"));
    same([{ tnf: 6 }, { tnf: 5, type: "x" }, { tnf: 1 }, { tnf: 0, payload: "x" }, { tnf: 5, id: LONG }, { tnf: 5, flags: 8 }].map((record) => written(calls.writeRecord(record))), Array(6).fill(BAD));
});
await test("payloads", () => {
    same(["http://www.a", "tel:1", "x", ""].map((uri) => written(calls.writeUri(uri))), ["0161", "0531", "0078", "00"]);
    same(written(calls.writeUri(bytesOf("FF"))), BAD);
    same([written(calls.writeText("en", "é")), written(calls.writeText("", "é", Ndef.AS_UTF16))], ["02656ec3a9", "80feff00e9"]);
    same([["ä", ""], ["x".repeat(64), ""], ["", bytesOf("FF")]].map((given) => written(calls.writeText(...given))), [BAD, BAD, BAD]);
    same(written(calls.writeText("", "", 2)), BAD);
    same([written(calls.writeCarrier(2, "a/b", "x")), written(calls.writeCarrier(8, "")), written(calls.writeCarrier(0, LONG))], ["0203612f6278", BAD, BAD]);
    same([written(calls.writeAction(2)), written(calls.writeAction(256)), written(calls.writeSize(1000)), written(calls.writeCollision(258)), written(calls.writeCollision(65536))],
        ["02", BAD, "000003e8", "0102", BAD]);
    same([written(calls.writeError(2, bytesOf("00000104"))), written(calls.writeError(2, "x")), written(calls.writeError(9)), written(calls.writeError(256))],
        ["0200000104", BAD, "09", BAD]);
    same([written(calls.writeErrorNumber(1, 5)), written(calls.writeErrorNumber(2, 260)), written(calls.writeErrorNumber(4, 1)), written(calls.writeErrorNumber(3, 256))],
        ["0105", "0200000104", BAD, BAD]);
    same([written(calls.writeAlternative(1, ["0", bytesOf("FF"), ""])), written(calls.writeAlternative(4, ["0"])), written(calls.writeAlternative(1, [])), written(calls.writeAlternative(1, [LONG]))],
        [lower("01 01 30 02 01 FF 00"), BAD, BAD, BAD]);
});
await test("handovers and posters in one call", () => {
    const alternatives = [{ power: 1, references: ["b"] }, { power: 3, references: ["w", "x", "y"] }];
    const carriers = (first, last) => recordHex(first, "ac", "01 01 62 00") + recordHex(last, "ac", "03 01 77 02 01 78 01 79");
    same(written(calls.writeRequest({ minor: 2, collision: 258, alternatives })), `12${recordHex("91", "cr", "0102")}${carriers("11", "51")}`);
    same(written(calls.writeRequest({ minor: 0, collision: 0 })), `10${recordHex("D1", "cr", "0000")}`);
    same(written(calls.writeSelect({ minor: 3, alternatives })), `13${carriers("91", "51")}`);
    same(written(calls.writeSelect({ minor: 3, alternatives, error: { reason: 1, data: bytesOf("05") } })), `13${carriers("91", "11")}${recordHex("51", "err", "0105")}`);
    same(written(calls.writeSelect({ minor: 4, error: { reason: 9 } })), `14${recordHex("D1", "err", "09")}`);
    same(written(calls.writeSelect({ minor: 4 })), "14");
    same([{ minor: 16, collision: 0 }, { minor: 2, collision: 65536 }, { minor: 2, collision: 0, alternatives: [{ power: 4, references: ["b"] }] },
        { minor: 2, collision: 0, alternatives: [{ power: 1, references: [] }] }].map((request) => written(calls.writeRequest(request))), Array(4).fill(BAD));
    same([{ minor: 16 }, { minor: 2, error: { reason: 256 } }, { minor: 2, error: { reason: 2, data: "" } }].map((select) => written(calls.writeSelect(select))), Array(3).fill(BAD));
    same(written(calls.writePoster({ uri: "http://a" })), recordHex("D1", "U", "03 61"));
    same(written(calls.writePoster({ uri: "a", titles: [{ language: "en", text: "b" }, { language: "", text: "é", utf16: true }], action: 0, size: 7, mediaType: "c/d",
        icons: [{ mediaType: "image/png", data: bytesOf("0102") }, { mediaType: "video/x", data: "" }] })),
    recordHex("91", "U", "00 61") + recordHex("11", "T", "02 656E 62") + recordHex("11", "T", "80 FEFF 00E9") + recordHex("11", "act", "00") + recordHex("11", "s", "00000007")
        + recordHex("11", "t", "632F64") + recordHex("12", "image/png", "0102") + recordHex("52", "video/x"));
    same(written(calls.writePoster({ uri: "a", mediaType: "" })), recordHex("91", "U", "00 61") + recordHex("51", "t"));
    same([{ uri: bytesOf("FF") }, { uri: "a", action: 256 }, { uri: "a", mediaType: bytesOf("FF") }, { uri: "a", titles: [{ language: "ä", text: "" }] },
        { uri: "a", icons: [{ mediaType: "", data: "" }] }].map((poster) => written(calls.writePoster(poster))), Array(5).fill(BAD));
});
await test("what no character or number is", () => {
    for (const wrong of [undefined, null, 3, {}, ["a"]])
        for (const call of [() => calls.writeUri(wrong), () => calls.writeText("", wrong), () => calls.writeText(wrong, ""), () => calls.writeCarrier(0, wrong), () => calls.writeAlternative(0, [wrong]),
            () => calls.writePoster({ uri: wrong }), () => calls.writeSelect({ minor: 0, error: { reason: 9, data: wrong ?? 3 } })]) throws(TypeError, call);
    for (const wrong of [-1, 0.5, 2 ** 32, NaN])
        for (const call of [() => calls.writeRecord({ tnf: wrong }), () => calls.writeRecord({ tnf: 5, chunk: wrong }), () => calls.writeRecord({ tnf: 5, flags: wrong }), () => calls.writeText("", "", wrong),
            () => calls.writeCarrier(wrong, ""), () => calls.writeAlternative(wrong, ["a"]), () => calls.writeAction(wrong), () => calls.writeSize(wrong), () => calls.writeCollision(wrong),
            () => calls.writeError(wrong), () => calls.writeErrorNumber(1, wrong), () => calls.writeErrorNumber(wrong, 1), () => calls.writeHandover(true, wrong, 0), () => calls.writeHandover(true, 1, wrong),
            () => calls.writePoster({ uri: "", size: wrong }), () => calls.writePoster({ uri: "", action: wrong }), () => calls.writeRequest({ minor: wrong, collision: 0 }),
            () => calls.writeRequest({ minor: 0, collision: wrong }), () => calls.writeRequest({ minor: 0, collision: 0, alternatives: [{ power: wrong, references: ["a"] }] }),
            () => calls.writeSelect({ minor: wrong }), () => calls.writeSelect({ minor: 0, error: { reason: wrong } }), () => calls.normalize(bytesOf("D00000"), wrong)]) throws(RangeError, call);
});
await test("large records", () => {
    const payload = new Uint8Array(3000000).fill(7), { bytes } = calls.writeRecord({ tnf: 5, payload, flags: 3 });
    same([bytes.length, hexOf(bytes.subarray(0, 8)), bytes.subarray(6).every((byte) => byte === 7)], [3000006, "c500002dc6c00707", true]);
});
await test("bytes in parts are checked as all of them are", () => all.filter(({ bytes }) => bytes.length < 300).forEach(({ bytes, options: { standard, opaque, ...limits } }) => {
    const options = { ...limits, flags: (standard ? Ndef.STANDARD : 0) | (opaque ? Ndef.OPAQUE : 0) }, whole = calls.check(bytes, options), half = bytes.length >> 1;
    const state = calls.begin(options), before = state.slice();
    const first = calls.feed(state, bytes.subarray(0, half)), second = calls.feed(state, bytes.subarray(half)), wanted = { ...whole };
    if (whole.reason === 24 && whole.place === bytes.length) wanted.status = Ndef.MORE;
    same(second, wanted);
    if (first.status === Ndef.MORE) same([first.place, first.reason], [half, 24]);
    const [fed, ...rest] = calls.feedAll(before, bytes, options);
    same([fed, rest.length === 0 || whole.status === Ndef.OK], [{ at: 0, ...wanted }, true]);
}));
await test("a state is what begin returned", () => {
    for (const wrong of [undefined, null, {}, new ArrayBuffer(488)]) throws(TypeError, () => calls.feed(wrong, new Uint8Array()));
    throws(RangeError, () => calls.feed(new Uint8Array(3), new Uint8Array()));
    throws(RangeError, () => calls.begin({ records: 0 }));
    throws(TypeError, () => calls.feed(calls.begin(), "d00000"));
    const { status } = calls.feed(new Uint8Array(488), bytesOf("D00000"));
    same([0, 1, 3, 5].includes(status), true);
});
await test("the version is that of the header", () => {
    const header = readFileSync(new URL(`../../${process.env.NDEF_FROM === "dist" ? "dist" : "include"}/ndef.h`, import.meta.url), "utf8");
    same(calls.version(), ["MAJOR", "MINOR", "PATCH"].map((name) => Number(new RegExp(`NDEF_VERSION_${name} (\\d+)`).exec(header)[1])));
});
await test("the parts of a poster", () => {
    const poster = bytesOf(recordHex("91", "U", "00 61") + recordHex("11", "T", "02 656E 62") + recordHex("11", "T", "82 6465 FEFF 00E9") + recordHex("11", "t", "632F64")
        + recordHex("5A", "image/png", "0102", "i"));
    same(calls.posterTitles(poster), [{ languageAt: 11, languageLength: 2, textAt: 13, textLength: 1, utf16: 0 }, { languageAt: 19, languageLength: 2, textAt: 21, textLength: 4, utf16: 1 }]);
    same([calls.posterMediaType(poster), calls.posterIcons(poster)], [{ at: 29, length: 3 }, [{ mediaType: { at: 36, length: 9 }, data: { at: 46, length: 2 } }]]);
    const bare = bytesOf(recordHex("D1", "U", "00 61"));
    same([calls.posterTitles(bare), calls.posterMediaType(bare), calls.posterIcons(bare), calls.posterTitles(bytesOf("00")), calls.posterMediaType(bytesOf("00"))], [[], null, [], [], null]);
});

// ---- values

await test("numbers have names", () => same([POWER, ACTION, KIND === Ndef.KIND], [{ INACTIVE: 0, ACTIVE: 1, ACTIVATING: 2, UNKNOWN: 3 }, { DO: 0, SAVE: 1, OPEN: 2 }, true]));
const carriersOf = (carrier) => ({ collision: 0, carriers: [{ power: 1, reference: "a", ...carrier }] }), NOT_UTF8 = bytesOf("FF");
const titlesOf = (language, text) => ({ uri: "a", titles: [{ language: "en", text: "a" }, { language, text }] });
const UNWRITTEN = {
    "a smart poster": {
        "its URI is not UTF-8": () => smartPoster({ uri: NOT_UTF8 }),
        "the language of a title is too long or not ASCII": () => smartPoster(titlesOf("ä", "")),
        "the text of a title is not UTF-8": () => smartPoster(titlesOf("en", NOT_UTF8)),
        "its action is above 255": () => smartPoster({ uri: "a", action: 256 }),
        "the media type of an icon is empty or too long": () => smartPoster({ uri: "a", icons: [{ mediaType: "", data: "" }] }),
    },
    "a handover request": {
        "its random number is above 65535": () => handoverRequest({ collision: 65536 }),
        "its minor version is above 15": () => handoverRequest({ minor: 16, collision: 0 }),
        "a power state is above 3": () => handoverRequest(carriersOf({ power: 4 })),
        "a reference has more than 255 bytes": () => handoverRequest(carriersOf({ auxiliary: ["b", LONG] })),
        "a carrier has more than 255 auxiliary references": () => handoverRequest(carriersOf({ auxiliary: Array(256).fill("b") })),
        "its major version is not 1": () => handoverRequest({ major: 2, collision: 0 }),
    },
    "a handover select": {
        "its minor version is above 15": () => handoverSelect({ minor: 16 }),
        "the data of its error don't fit its reason": () => handoverSelect({ error: { reason: 1, data: "" } }),
        "its major version is not 1": () => handoverSelect({ major: 0 }),
    },
    "a handover error": { "its number doesn't fit its reason": () => handoverSelect({ error: { reason: 4, number: 1 } }) },
    "a handover carrier": {
        "its format is above 7": () => handoverCarrier({ format: 8, type: "", data: "" }),
        "its type has more than 255 bytes": () => handoverCarrier({ format: 0, type: LONG, data: "" }),
    },
    "a text": {
        "its language is too long": () => new NDEFRecord({ recordType: "text", data: "", lang: "a".repeat(64) }),
        "its language is not ASCII": () => new NDEFRecord({ recordType: "text", data: "", lang: "ä" }),
    },
    "a url": { "it is not UTF-8": () => new NDEFRecord({ recordType: "url", data: NOT_UTF8 }) },
    "a record": {
        "its id has more than 255 bytes": () => smartPoster({ uri: "a" }, LONG),
        "its type has more than 255 bytes": () => new NDEFRecord({ tnf: 2, type: LONG }),
        "there is no such type name format": () => new NDEFRecord({ tnf: 6 }),
        "a record of its type name format has no type": () => new NDEFRecord({ tnf: 5, type: "x" }),
        "a record of its type name format needs a type": () => new NDEFRecord({ tnf: 2 }),
        "an empty record has no id and no payload": () => new NDEFRecord({ recordType: "empty", data: "x" }),
    },
};
await test("what can't be written is a RangeError that says why", () => Object.entries(UNWRITTEN).forEach(([what, causes]) =>
    Object.entries(causes).forEach(([why, call]) => same(throws(RangeError, call).message, `${what} can't be written: ${why}`))));

await test("records are put together as they are", () => {
    const text = new NDEFRecord({ recordType: "text", data: "a" });
    same(hexOf(encode({ records: [text, text, { recordType: "empty" }] })), recordHex("91", "T", "02656E61") + recordHex("11", "T", "02656E61") + "500000");
});

// ---- what decode refuses isn't written

const EMPTY = { recordType: "empty" }, CODE = { tnf: 1, type: "U", payload: bytesOf("24") };
// Records, the index of the one that is refused, where in it, and why. RTD Text 1.0 and RTD URI 1.0 say what their payloads have; the rest are the usual limits.
const UNREAD = [
    [[{ tnf: 1, type: "T" }], 0, 3, "DoesNotFit"],
    [[EMPTY, CODE, EMPTY], 1, 4, "UriCode"],
    [[EMPTY, EMPTY, { tnf: 5, payload: new Uint8Array(2 ** 20 + 1) }], 2, 5, "PayloadTooLarge"],
    [Array(1025).fill(EMPTY), 1023, 0, "TooManyRecords"], // the last that there may be, and its octet says that another follows
    [[smartPoster({ uri: "a" }), { tnf: 1, type: "Sp", payload: bytesOf("D1010255 24 61") }], 1, 9, "UriCode"],
];
await test("what decode refuses isn't written, but where that is asked for", () => UNREAD.forEach(([records, record, place, name]) => {
    const error = throws(NdefError, () => encode({ records })), bytes = encode({ records }, { unchecked: true }), read = throws(NdefError, () => decode(bytes));
    same([error.record, error.place, error.name, read.name, read.reason, read.record], [record, place, name, name, error.reason, null]);
    same(error.message.startsWith(`record ${record}: refused at ${place}: ${error.name}: `), true);
    same(read.place - error.place, encode({ records: [...records.slice(0, record), EMPTY] }, { unchecked: true }).length - 3);
}));
await test("a message is written for who reads it with the same options", () => {
    for (const options of [{ standard: true }, { opaque: true }, { unchecked: true }]) same(hexOf(encode({ records: [CODE] }, options)), "d101015524");
    same(encode({ records: Array(1025).fill(EMPTY) }, { records: 1025 }).length, 3075);
    same(throws(NdefError, () => encode({ records: [EMPTY, EMPTY, EMPTY] }, { records: 2 })).record, 1);
    same(throws(NdefError, () => encode({ records: [{ tnf: 1, type: "Sig" }, { tnf: 5, payload: "ab" }] }, { payload: 1, opaque: true })).name, "PayloadTooLarge");
    for (const wrong of [null, 3, "unchecked"]) throws(TypeError, () => encode("a", wrong));
    throws(RangeError, () => encode("a", { records: 0 }));
});
await test("a record alone is a message, and one within a payload is checked with it", () => {
    const record = new NDEFRecord(CODE), text = { tnf: 1, type: "T" };
    same([throws(NdefError, () => record.toBytes()).record, hexOf(record.toBytes(Ndef.WRITE_FIRST))], [0, "9101015524"]);
    same(hexOf(encode({ records: [{ recordType: "a.b:c", data: { records: [text] } }] })), recordHex("D4", "a.b:c", "D1010054"));
    same(throws(NdefError, () => encode({ records: [{ recordType: "smart-poster", data: { records: [EMPTY, text] } }] })).record, null);
});
await test("an error says what is wanted", () =>
    same(throws(NdefError, () => encode({ records: [EMPTY, { tnf: 1, type: "T" }] })).sentence, "A text (`T`) has at least 1 octet; 0 were given."));
await test("an error says what its reason means where payloads aren't checked", () => {
    const { sentence, reason } = throws(NdefError, () => encode({ records: [EMPTY, EMPTY] }, { records: 1, opaque: true }));
    same(sentence, calls.reasonSentence(reason));
});
finish();
