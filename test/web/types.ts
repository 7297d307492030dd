// What tsc --strict makes of the package's declarations: each line that it has to refuse says so. It is compiled, and not run.
import {
    ACTION, Explained, Field, FoundHint, HINT, KIND, Link, NDEFDecoderStream, NDEFMessage, NDEFRecord, Ndef, NdefError, Options, POWER, Value, check, decode,
    decodePrefix, encode, encodeParts, encodeStream, explain, fields, findHint, handoverCarrier, handoverRequest, handoverSelect, hint, links, ready,
    smartPoster, why,
} from "simbegyor-ndef";
import { Ndef as Calls } from "simbegyor-ndef/calls";
import code from "simbegyor-ndef/wasm";

const bytes = new Uint8Array(3), options: Options = { payload: 1, records: 1, chunks: 1, standard: true, opaque: false };
const message: NDEFMessage = decode(bytes, options), [record]: readonly NDEFRecord[] = message.records;
const { length, records }: { length: number; records: number } = check(bytes.buffer);
const prefix: { message: NDEFMessage; length: number } = decodePrefix(new DataView(bytes.buffer), {});
const text: string | null = record.text, data: DataView | null = record.data, value: Value | null = record.value;
const within: NDEFRecord[] | null = record.toRecords();
const found: Field[] = fields(bytes), explained: Explained = explain(bytes), linked: Link[] = links(message);
const written: Uint8Array = encode({ records: [{ recordType: "text", data: "a", lang: "en" }, record, { tnf: 5, payload: bytes }] });
encode(message);
const pages: Uint8Array[] = [...encodeParts({ records: [record, { recordType: "mime", mediaType: "a/b", parts: [bytes], length: 3 }] }, { size: 16, unchecked: true })];
const sent: ReadableStream<Uint8Array> = encodeStream({ records: [{ tnf: 2, type: "a/b", parts: new Blob([bytes]).stream(), length: 3 }] }, { size: 16, ...options });
encodeStream("Hello").pipeThrough(new NDEFDecoderStream()).getReader();
// @ts-expect-error
encodeParts({ records: [{ recordType: "unknown", parts: new Blob([bytes]).stream(), length: 3 }] });
// @ts-expect-error
encodeParts({ records: [{ recordType: "unknown", parts: [bytes] }] });
// @ts-expect-error
encodeParts({ records: [{ recordType: "text", parts: [bytes], length: 3 }] });
encode(message.toInit(), { records: 3, unchecked: true });
smartPoster({ uri: "a", titles: [{ language: "en", text: "b" }], action: ACTION.SAVE, icons: [{ mediaType: "image/png", data: bytes }] }, "id");
handoverRequest({ collision: 1, carriers: [{ power: POWER.ACTIVE, reference: bytes, auxiliary: ["x"] }] });
handoverSelect({ carriers: [], error: { reason: 1, number: 2 } });
handoverCarrier({ format: 2, type: "a/b", data: "" });
if (value !== null && "collision" in value) handoverRequest(value);
if (value !== null && "titles" in value) smartPoster(value);
new ReadableStream<Uint8Array>().pipeThrough(new NDEFDecoderStream(options)).getReader().read().then(({ value }) => value?.records.length);
const error = new NdefError(0, 1, "ReservedTnf", "a sentence"), place: number = error.place, sentence: string = error.sentence, at: number | null = error.record;
const wanted: string | null = why(bytes, options), helps: string | null = hint(bytes.buffer);
const helpful: FoundHint | null = findHint(bytes, options), isOfTag: boolean = helpful?.kind === HINT.TLV && helpful.place + helpful.length > helpful.text.length;
const isError: Error = error, kind: boolean = record.kind === KIND.TEXT, done: Promise<void> = ready();
Calls.load(code).then((calls) => {
    const answer = calls.text(bytes), other: typeof Ndef = Calls;
    if (answer.status === Ndef.OK) answer.text.trim();
    if (answer.status === Ndef.REFUSED) answer.place.toFixed();
    const record = calls.recordAt(bytes, 0), state = calls.begin();
    if (record.status === Ndef.OK) record.payload.length;
    const begun = calls.beginRecord({ tnf: 5, length: 3 });
    if (begun.status === Ndef.OK) calls.writeNext(begun.state, {}, bytes, 16);
    calls.feedAll(state, bytes).map(({ at, status }) => at + status);
    const poster = calls.writePoster({ uri: "a" });
    return poster.status === Ndef.OK ? [poster.bytes, other] : null;
});

for (const one of message.records) {
    if (one.recordType === "text") one.value.language.trim();
    else if (one.recordType === "smart-poster") one.value.titles.map(({ text }) => text);
    else if (one.recordType === "mime") one.mediaType.trim();
}
encode("Hello");
encode(bytes);
encode({ records: new Set([{ recordType: "url", data: new URL("https://a.b") }]) });
JSON.stringify(message.toJSON().records[0].payload.length);
// @ts-expect-error: a mime record has no value
message.records.map((one) => (one.recordType === "mime" ? one.value.text : ""));
// @ts-expect-error: there is no such encoding
encode({ records: [{ recordType: "text", data: "a", encoding: "latin1" }] });
// @ts-expect-error: there is no such type
encode({ records: [{ recordType: "texts", data: "a" }] });
// @ts-expect-error: a string is no bytes
decode("d00000");
// @ts-expect-error: a list is no bytes
check([0xd0, 0, 0]);
// @ts-expect-error: there is no such option
decode(bytes, { limit: 3 });
// @ts-expect-error: nothing is read unchecked
decode(bytes, { unchecked: true });
// @ts-expect-error: the text may be missing
const missing: string = record.text;
// @ts-expect-error: a record doesn't change
record.recordType = "text";
// @ts-expect-error: a message doesn't change
message.records.push(record);
// @ts-expect-error: a record has a type
encode({ records: [{ data: "a" }] });
// @ts-expect-error: a message is no list
encode([record]);
// @ts-expect-error: a request has a random number
handoverRequest({ carriers: [] });
// @ts-expect-error: a carrier has a reference
handoverSelect({ carriers: [{ power: 1 }] });
// @ts-expect-error: a poster has a URI
smartPoster({ titles: [] });
// @ts-expect-error: a refused answer has no text
Calls.load(code).then((calls) => calls.text(bytes).text);

export { at, done, found, isError, kind, length, linked, missing, place, prefix, records, sentence, text, data, explained, within, written };
