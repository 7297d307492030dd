// node test/web/parts.mjs: messages that the package writes in parts, and records whose payload comes in parts, as an iterator and as a stream; and
// what is refused, and when.
// Prints 'N passed, M failed'.
import { NDEFMessage, NDEFRecord, Ndef, NdefError, encode, encodeParts, encodeStream } from "../../out/web/index.js";
import code from "../../out/web/ndef_wasm.mjs";
import { below } from "./random.mjs";
import { bytesOf, finish, hexOf, same, test, throws } from "./tests.mjs";

const calls = await Ndef.load(code);

// What an iterator gives, and with what it ends: the text of the error.
function all(parts) {
    const digits = [];
    try {
        for (const part of parts) digits.push(hexOf(part));
    } catch (error) {
        return [digits.join(""), `${error.constructor.name}: ${error.message}`];
    }
    return [digits.join(""), null];
}

// The same of a stream.
async function allOf(stream) {
    const digits = [], reader = stream.getReader();
    try {
        for (;;) {
            const { done, value } = await reader.read();
            if (done) return [digits.join(""), null];
            digits.push(hexOf(value));
        }
    } catch (error) {
        return [digits.join(""), `${error.constructor.name}: ${error.message}`];
    }
}

// The bytes, cut at random places.
function* cut(bytes) {
    for (let at = 0, end; at < bytes.length; at = end) {
        end = at + below(bytes.length - at + 1);
        yield bytes.subarray(at, end);
    }
}

async function* later(parts) { for (const part of parts) yield await Promise.resolve(part); }

function sizesAre(parts, size, whole) {
    const wanted = Array.from({ length: Math.ceil(whole.length / size) }, (_, index) => whole.subarray(size * index, size * (index + 1)));
    same(parts.map(hexOf), wanted.map(hexOf));
}

const TEXT = { recordType: "text", data: "Hello" }, BAD = { tnf: 1, type: "T", payload: bytesOf("42656E") };
const image = (parts, length) => ({ recordType: "mime", mediaType: "image/png", id: "i", parts, length }), HEAD = "da0905" + "01" + hexOf(Buffer.from("image/pngi"));
const of = (...texts) => texts.map((text) => Buffer.from(text));

await test("each size", () => {
    const message = { records: [TEXT, image([new Uint8Array(300)], 300), TEXT] };
    const whole = encode({ records: [TEXT, { ...image(), parts: undefined, data: new Uint8Array(300) }, TEXT] });
    for (const size of [1, 2, 3, 4, 16, 255, whole.length - 1, whole.length, whole.length + 1]) sizesAre([...encodeParts(message, { size })], size, whole);
    const long = { recordType: "unknown", data: new Uint8Array(10000) };
    sizesAre([...encodeParts({ records: [long] })], 4096, encode({ records: [long] }));
    sizesAre([...encodeParts(new NDEFMessage({ records: [TEXT] }), { size: 5 })], 5, encode({ records: [TEXT] }));
    same([all(encodeParts("Hello")), all(encodeParts(bytesOf("0102"))), all(encodeParts({ records: [{ recordType: "empty" }] }))],
        [[hexOf(encode("Hello")), null], [hexOf(encode(bytesOf("0102"))), null], ["d00000", null]]);
});
await test("parts of each kind", async () => {
    const records = () => [[of("abc", "", "de"), 5], [new Set(of("abc", "de")), 5], [cut(bytesOf("6162636465")), 5], [[bytesOf("6162636465").buffer], 5]].map((given) => image(...given));
    for (const record of records()) same(all(encodeParts({ records: [record] }, { size: 3 })), [`${HEAD}6162636465`, null]);
    for (const record of [...records(), image(later(of("abc", "de")), 5), image(new Blob(["abcde"]).stream(), 5)])
        same(await allOf(encodeStream({ records: [record] }, { size: 3 })), [`${HEAD}6162636465`, null]);
    // A stream of a browser that makes no iterator of it.
    const stream = new Blob(["abcde"]).stream(), bare = { getReader: () => stream.getReader() };
    same(await allOf(encodeStream({ records: [image(bare, 5)] }, { size: 3 })), [`${HEAD}6162636465`, null]);
    for (const [init, bytes] of [[{ recordType: "unknown" }, "d5000161"], [{ recordType: "a.b:c" }, `d40501${hexOf(Buffer.from("a.b:c"))}61`], [{ recordType: ":x" }, "d101017861"],
        [{ recordType: "mime" }, `d21801${hexOf(Buffer.from("application/octet-stream"))}61`], [{ tnf: 1, type: "T" }, "d101015461"]])
        same(all(encodeParts({ records: [{ ...init, parts: of("a"), length: 1 }] }, { unchecked: true })), [bytes, null]);
});
await test("parts are taken where they are needed", async () => {
    const taken = [];
    function* parts() { for (const part of of("ab", "", "cd", "ef")) { taken.push(`${part}`); yield part; } }
    const written = encodeParts({ records: [{ recordType: "unknown", parts: parts(), length: 6 }] }, { size: 3 }), next = () => hexOf(written.next().value);
    same([next(), [...taken], next(), [...taken], next(), taken, written.next().done], ["d50006", [], "616263", ["ab", "", "cd"], "646566", ["ab", "", "cd", "ef"], true]);
    taken.length = 0;
    const stream = encodeStream({ records: [{ recordType: "unknown", parts: parts(), length: 6 }] }, { size: 3 }), reader = stream.getReader();
    same(taken, []);
    same([hexOf((await reader.read()).value), taken], ["d50006", []]);
    same([hexOf((await reader.read()).value), taken], ["616263", ["ab", "", "cd"]]);
});
await test("too few parts", async () => {
    const why = "RangeError: the parts have 3 bytes, and the payload 5", messages = () => ({ records: [image(of("abc"), 5)] });
    same(all(encodeParts(messages(), { size: 1 })), [`${HEAD}616263`, why]);
    same(await allOf(encodeStream(messages(), { size: 1 })), [`${HEAD}616263`, why]);
    same(all(encodeParts(messages(), { size: 100 })), ["", why]);
    same(all(encodeParts({ records: [image(of("abc"), 2 ** 32 - 1)] }, { size: 1, unchecked: true }))[1], "RangeError: the parts have 3 bytes, and the payload 4294967295");
    same(all(encodeParts({ records: [image([], 1), TEXT] }, { size: 1 }))[1], "RangeError: the parts have 0 bytes, and the payload 1");
});
await test("too many parts", async () => {
    const why = "RangeError: the parts have more than the 5 bytes of the payload";
    same(all(encodeParts({ records: [image(of("abc", "def"), 5)] }, { size: 1 })), [`${HEAD}616263`, why]);
    same(all(encodeParts({ records: [image(of("abcde", "f"), 5)] }, { size: 1 })), [`${HEAD}6162636465`, why]);
    same(await allOf(encodeStream({ records: [image(of("abcde", "f"), 5)] }, { size: 1 })), [`${HEAD}6162636465`, why]);
    same(all(encodeParts({ records: [image(of("abcde", "", "f"), 5), TEXT] }, { size: 4 }))[1], why);
    same(all(encodeParts({ records: [{ recordType: "unknown", parts: of("a"), length: 0 }] }, { size: 1 })), ["d50000", "RangeError: the parts have more than the 0 bytes of the payload"]);
});
await test("a record that is refused", async () => {
    const sentence = "Bit 6 of the status octet of a text is reserved: it has to be 0.";
    for (const [record, wanted] of [[BAD, sentence], [{ tnf: 1, type: "T", parts: of("\x42en"), length: 3 }, calls.reasonSentence(15)]]) {
        const written = encodeParts({ records: [TEXT, record] }, { size: 4 }), before = Array.from({ length: 4 }, () => hexOf(written.next().value)).join("");
        same(before, hexOf(encode({ records: [TEXT, BAD] }, { unchecked: true }).subarray(0, 16)));
        const error = throws(NdefError, () => written.next());
        same([error.record, error.place, error.reason, error.name, error.sentence], [1, 4, 15, "TextBit", wanted]);
    }
    // What was wanted is known of a record that is at hand and is refused alone.
    const few = { tnf: 1, type: "T" }, refusal = (record) => throws(NdefError, () => [...encodeParts({ records: [TEXT, record] })]);
    same(refusal(few).sentence, "A text (`T`) has at least 1 octet; 0 were given.");
    same(refusal({ ...few, parts: [], length: 0 }).sentence, calls.reasonSentence(refusal(few).reason));
    same((await allOf(encodeStream({ records: [TEXT, BAD] }, { size: 4 })))[1], `NdefError: record 1: refused at 4: TextBit: ${sentence}`);
    same(all(encodeParts({ records: [TEXT, BAD] }, { unchecked: true })), [hexOf(encode({ records: [TEXT, BAD] }, { unchecked: true })), null]);
    const reserved = { records: [{ tnf: 1, type: "U", payload: bytesOf("24") }] };
    same(all(encodeParts(reserved, { standard: true })), ["d101015524", null]);
    same(throws(NdefError, () => [...encodeParts({ records: [TEXT, TEXT] }, { records: 1 })]).record, 0);
});
await test("what makes no record, and no message", async () => {
    for (const message of [{ records: [] }, { records: [null] }, {}, null, { records: [image(5, 5)] }, { records: [image("abc", 3)] }, { records: [image(null, 3)] },
        { records: [{ recordType: "text", parts: of("a"), length: 1 }] }, { records: [{ recordType: "url", parts: of("a"), length: 1 }] }, { records: [image([3], 1)] },
        { records: [image(of("a"))] }, { records: [image(later(of("a")), 1)] }]) throws(TypeError, () => [...encodeParts(message)]);
    for (const message of [{ records: [image(of("a"), -1)] }, { records: [image(of("a"), 2 ** 32)] }, { records: [{ tnf: 2, parts: of("a"), length: 1 }] },
        { records: [{ tnf: 0, parts: of("a"), length: 1 }] }, { records: [{ tnf: 6, parts: of("a"), length: 1 }] }]) throws(RangeError, () => [...encodeParts(message)]);
    for (const size of [0, -1, 0.5, 2 ** 32]) throws(RangeError, () => [...encodeParts("a", { size })]);
    throws(TypeError, () => [...encodeParts("a", { size: "4" })]);
    throws(RangeError, () => [...encodeParts("a", { records: 0 })]);
    for (const message of [{ records: [] }, { records: [image(5, 5)] }]) throws(TypeError, () => encodeStream(message));
    // A record with parts is no other record.
    for (const init of [image(of("a"), 1), { tnf: 5, parts: of("a"), length: 1 }]) throws(TypeError, () => new NDEFRecord(init));
    throws(TypeError, () => encode({ records: [image(of("a"), 1)] }));
});
await test("a reader that goes away ends the parts", async () => {
    const ended = [];
    function* parts(name) { try { for (;;) yield Buffer.from("ab"); } finally { ended.push(name); } }
    for (const part of encodeParts({ records: [image(parts("first"), 1000), image(parts("never begun"), 1)] }, { size: 20 })) { same(part.length, 20); break; }
    same(ended, ["first"]);
    for (const isBare of [false, true]) {
        const source = new ReadableStream({ pull: (controller) => controller.enqueue(Buffer.from("ab")), cancel: (reason) => ended.push(reason) }, { highWaterMark: 0 });
        const reader = encodeStream({ records: [image(isBare ? { getReader: () => source.getReader() } : source, 1000)] }, { size: 20 }).getReader();
        await reader.read();
        await reader.cancel("enough");
    }
    same(ended, ["first", "enough", "enough"]);
    const failing = new ReadableStream({ pull: () => { throw new Error("no more"); } }, { highWaterMark: 0 });
    same(await allOf(encodeStream({ records: [image(failing, 10)] }, { size: 1 })), [HEAD.replace("da0905", "da090a"), "Error: no more"]);
});
await test("the calls of a record in steps", () => {
    const record = { tnf: 5, type: "", id: "" }, { state } = calls.beginRecord({ ...record, length: 3, flags: 3, chunk: 2 });
    same([calls.beginRecord({ tnf: 6, length: 1 }).status, calls.beginRecord({ tnf: 5, length: 2 ** 32 }).status], [Ndef.BAD_ARGUMENT, Ndef.BAD_ARGUMENT]);
    const next = (text, most) => { const { status, bytes, taken } = calls.writeNext(state, record, Buffer.from(text), most); return [status, bytes && hexOf(bytes), taken]; };
    same([next("", 2), next("abc", 2), next("bcd", 9), next("bc", 0), next("bc", 9), next("", 9)],
        [[Ndef.OK, "b500", 0], [Ndef.OK, "0261", 1], [Ndef.BAD_ARGUMENT, undefined, undefined], [Ndef.OK, "", 0], [Ndef.OK, "6256000163", 2], [Ndef.END, undefined, undefined]]);
    throws(TypeError, () => calls.writeNext([], record, bytesOf(""), 9));
    throws(RangeError, () => calls.writeNext(new Uint8Array(3), record, bytesOf(""), 9));
});
finish();
