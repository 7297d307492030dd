// node driver.mjs TABLE PACKAGE: makes each call of the table through the public interface of the package for JavaScript, and prints a line for each row.
// What is given is a view within other bytes, and is overwritten before an answer is read; what is answered is changed and read again; and all calls
// are made again in another order: nothing may be another answer then.
import { readFileSync } from "node:fs";

const [table, home] = process.argv.slice(2);
const lib = await import(`${home}/index.js`), { Ndef, NdefError, NDEFRecord, KIND } = lib;
const calls = await Ndef.load((await import(`${home}/ndef_wasm.mjs`)).default);

const NOT = {
    place: "the place counts from the first byte of the stream",
    form: "records in chunks and long ones are written by raw calls, which say of no record why it is refused",
    queue: "a stream that fails drops what is not yet read of it",
    which: "it is a TypeError",
    title: "a program looks through titles", layout: "there are no layouts", handover: "links are those of the first handover",
    utf8: "a media type that is not UTF-8 is read with replacements", opaque: "why, hint and findHint take opaque as if it weren't given",
    within: "a record within a poster or handover has the value of a text, a URI and no other",
    major: "another major version is refused before",
    made: "a record that has no bytes is not made",
};
const missing = (why) => { throw { not: why }; };
let given = [], kind = 0;
// Bytes to be given: an array, a view within other bytes, a Buffer, or a DataView.
function hexed(text) {
    const octets = Buffer.from(text, "hex"), memory = new Uint8Array(octets.length + 7).fill(0xd1);
    memory.set(octets, 3);
    given.push(memory);
    const { buffer } = memory;
    switch (kind % 4) {
        case 0: return new Uint8Array(buffer, 3, octets.length);
        case 1: return Buffer.from(buffer, 3, octets.length);
        case 2: return new DataView(buffer, 3, octets.length);
        default: return new Uint8Array(octets);
    }
}
function spoil() {
    given.forEach((memory) => memory.fill(0xaa));
    given = [];
}
const hex = (given) => Buffer.from(given.buffer ?? given, given.byteOffset ?? 0, given.byteLength).toString("hex");
const named = (name) => (typeof name === "string" ? (name.includes("\ufffd") ? "-utf8" : Buffer.from(name, "utf8").toString("hex")) : hex(name));
// A string, or the bytes, as those have to be that are no UTF-8.
const said = (octets) => (isUtf8(octets) && kind & 1 ? text(octets) : hexed(octets));
// The same of a text in UTF-16, whose bytes are units with the higher byte first where no mark says otherwise.
const units = (octets) => (!isUtf8(octets) ? hexed(octets) : kind & 1 || text(octets).startsWith("\ufeff") ? text(octets) : Buffer.from(text(octets), "utf16le").swap16());
const isUtf8 = (octets) => !text(octets).includes("\ufffd");
const text = (octets) => Buffer.from(octets, "hex").toString("utf8");
const optionsOf = ({ profile, opaque, limits }) => ({ ...limits, standard: profile === "standard", opaque: opaque === true });
const flagsOf = ({ profile, opaque, limits }) => ({ ...limits, flags: (profile === "standard" ? Ndef.STANDARD : 0) | (opaque ? Ndef.OPAQUE : 0) });
const refusalOf = ({ place, name }) => [place, name];

// ---- values

const carrierOf = ({ power, reference, auxiliary }) => [power, named(reference), auxiliary.map(named)];
const VALUES = {
    [KIND.TEXT]: ({ language, text: said, utf16 }) => ({ kind: "text", language: named(language), text: Buffer.from(said, "utf8").toString("hex"), utf16 }),
    [KIND.URI]: ({ uri }) => ({ kind: "uri", uri: Buffer.from(uri, "utf8").toString("hex") }),
    [KIND.SMART_POSTER]: ({ uri, titles, action, size, mediaType, icons }) => ({
        kind: "poster", uri: Buffer.from(uri, "utf8").toString("hex"), titles: titles.map((one) => [named(one.language), Buffer.from(one.text, "utf8").toString("hex"), one.utf16]),
        action, size, media: mediaType === null ? null : named(mediaType), icons: icons.map((one) => [named(one.mediaType), hex(one.data)]),
    }),
    [KIND.REQUEST]: ({ major, minor, collision, carriers }) => ({ kind: "request", version: [major, minor], carriers: carriers.map(carrierOf), collision }),
    [KIND.SELECT]: ({ major, minor, carriers, error }) => ({
        kind: "select", version: [major, minor], carriers: carriers.map(carrierOf), error: error && [error.reason, hex(error.data), error.number],
    }),
    [KIND.CARRIER]: ({ format, type, data }) => ({ kind: "carrier", format, type: named(type), data: hex(data) }),
};

function valueOf(record) {
    spoil();
    const { value, kind } = record;
    return value === null ? null : VALUES[kind](value);
}

function valueOrRefusal(record) {
    try {
        return valueOf(record);
    } catch (error) {
        if (error instanceof NdefError) return { refused: refusalOf(error) };
        throw error;
    }
}

const carrierFor = ([power, reference, auxiliary]) => ({ power, reference: hexed(reference), auxiliary: auxiliary.map(hexed) });
const MAKERS = {
    text: ({ language, text: title, utf16 }) => new NDEFRecord({ recordType: "text", lang: text(language), data: utf16 ? units(title) : said(title), encoding: utf16 ? "utf-16" : "utf-8" }),
    uri: ({ uri }) => new NDEFRecord({ recordType: "url", data: said(uri) }),
    poster: ({ uri, titles, action, size, media, icons }) => lib.smartPoster({
        uri: said(uri), titles: titles.map(([language, title, utf16]) => ({ language: said(language), text: said(title), utf16 })), action, size,
        mediaType: media === null ? null : said(media), icons: icons.map(([mediaType, data]) => ({ mediaType: hexed(mediaType), data: hexed(data) })),
    }),
    request: ({ version: [major, minor], collision, carriers }) => lib.handoverRequest({ major, minor, collision, carriers: carriers.map(carrierFor) }),
    select: ({ version: [major, minor], carriers, error }) => lib.handoverSelect({
        major, minor, carriers: carriers.map(carrierFor), error: error && { reason: error[0], ...(error[2] === null ? { data: hexed(error[1]) } : { number: error[2] }) },
    }),
    carrier: ({ format, type, data }) => lib.handoverCarrier({ format, type: hexed(type), data: hexed(data) }),
};

// ---- operations

// The bytes of the data, which a payload that is none of its type has not.
function dataOf(record) {
    try {
        return record.data === null ? [] : [new Uint8Array(record.data.buffer)];
    } catch {
        return [];
    }
}
function partsOf(record) {
    const read = () => [record.tnf, hex(record.type), hex(record.idBytes), hex(record.payload)];
    spoil();
    const first = read();
    [record.type, record.idBytes, record.payload, ...dataOf(record)].forEach((octets) => octets.fill(0xbb));
    if (String(read()) !== String(first)) throw new Error("an answer that is changed changes the record");
    return first;
}
const recordOf = (record) => [...partsOf(record), record.kind, valueOrRefusal(record)];
const plain = ([tnf, type, id, payload]) => ({ tnf, type: hexed(type), id: hexed(id), payload: hexed(payload ?? "") });

function encoded(records, { form }) {
    if (!form) return null;
    const last = records.length - 1, parts = records.map((record, index) => {
        const flags = (index === 0 ? Ndef.WRITE_FIRST : 0) | (index === last ? Ndef.WRITE_LAST : 0) | (form.long ? Ndef.WRITE_LONG : 0);
        const { status, bytes } = calls.writeRecord({ ...record, flags, chunk: form.chunk ?? 0 });
        if (status !== Ndef.OK) throw new RangeError("no spelling");
        return bytes;
    });
    return Buffer.concat(parts);
}

function orBad(call) {
    try {
        return call();
    } catch (error) {
        if (error instanceof RangeError) return { bad: true };
        throw error;
    }
}

// The argument that an error names.
const NAMES = [[/URI is not/, "uri"], [/of a title/, "titles"], [/a url/, "uri"], [/its language/, "language"], [/its action/, "action"], [/its media type/, "media"], [/of an icon/, "icons"],
    [/version/, "version"], [/power state|reference/, "carriers"], [/random number/, "collision"], [/its error/, "error"], [/its format/, "format"], [/its type/, "type"]];
const nameOf = (error) => NAMES.find(([words]) => words.test(error.message.split("written: ")[1] ?? error.message))?.[1] ?? "-which";

const FAILING = new Error("a source that fails");
const OPERATIONS = {
    check: (row) => lib.check(hexed(row.bytes), optionsOf(row)),
    decode(row) {
        const { message, length } = lib.decodePrefix(hexed(row.bytes), optionsOf(row));
        return { length, records: message.records.map(recordOf) };
    },
    decode_all(row) {
        const bytes = hexed(row.bytes);
        return { length: bytes.byteLength, records: lib.decode(bytes, optionsOf(row)).records.map(recordOf) };
    },
    feed(row) {
        const state = calls.begin(flagsOf(row));
        return { fed: row.parts.map((part) => {
            const { status, place, reason } = calls.feed(state, hexed(part));
            return status === Ndef.REFUSED ? ["refused", place, calls.reasonName(reason)] : [status === Ndef.OK ? "whole" : "more", place];
        }) };
    },
    async stream(row) {
        const source = new ReadableStream({ start(controller) { row.parts.forEach((part) => controller.enqueue(hexed(part))); if (!row.fails) controller.close(); } , pull(controller) { if (row.fails) controller.error(FAILING); } });
        const reader = source.pipeThrough(new lib.NDEFDecoderStream(optionsOf(row))).getReader(), messages = [];
        const shown = () => messages.map(({ records }) => records.map(partsOf));
        try {
            for (let one = await reader.read(); !one.done; one = await reader.read()) messages.push(one.value);
            return { messages: shown(), end: null };
        } catch (error) {
            if (error === FAILING) return { messages: "-queue", end: "source" };
            if (!(error instanceof NdefError)) throw error;
            return { messages: shown(), end: { place: "-place", in_stream: error.place, reason: error.name } };
        }
    },
    fields(row) {
        const bytes = hexed(row.bytes), { refusal, fields, length, records } = lib.explain(bytes, optionsOf(row)), shown = fields.map(({ at, length, depth, name }) => [at, length, depth, name]);
        const whole = refusal === null ? lib.decodePrefix(bytes, optionsOf(row)) : null;
        if (whole && (length !== whole.length || JSON.stringify(records.map(recordOf)) !== JSON.stringify(whole.message.records.map(recordOf)))) throw new Error("other records than those of decode");
        if (refusal === null && JSON.stringify(lib.fields(Buffer.from(row.bytes, "hex"), optionsOf(row))) !== JSON.stringify(fields)) throw new Error("other fields than those of explain");
        return { fields: shown, refused: refusal && refusalOf(refusal) };
    },
    line(row) {
        let records;
        try {
            records = row.records?.map(([tnf, type, id, payload]) => new lib.NDEFRecord({ tnf, type: hexed(type), id: hexed(id), payload: hexed(payload) }));
        } catch {
            missing("made");
        }
        try {
            if (records) lib.encode({ records });
            else lib.decode(hexed(row.bytes));
        } catch (error) {
            return { line: String(error).replace("NdefError: ", "") };
        }
    },
    refusal(row) {
        const bytes = hexed(row.bytes), options = optionsOf(row), found = orBad(() => lib.findHint(bytes, options));
        const part = found?.text && /read `bytes\.slice\(([\d, ]+)\)`/.exec(found.text);
        return { why: orBad(() => lib.why(bytes, options)), hint: orBad(() => lib.hint(bytes, options)), found: found?.text ? [found.kind, found.place, found.length] : found,
            text: found?.text ? [found.text.split(":")[0], part ? part[1].split(", ").map((one) => Math.min(Number(one), bytes.byteLength)) : []] : null };
    },
    warnings(row) {
        const bytes = hexed(row.bytes), { records } = lib.check(bytes), indices = Array.from({ length: records + 1 }, (_, index) => index);
        const fields = lib.fields(bytes).map(({ at, length, name }, index) => [index, calls.fieldWarning(name, Buffer.from(row.bytes, "hex").subarray(at, at + length))]);
        return { fields: fields.filter(([, said]) => said !== null), records: indices.map((index) => [index, calls.recordWarning(bytes, index)]).filter(([, said]) => said !== null) };
    },
    links(row) {
        const { message } = lib.decodePrefix(hexed(row.bytes), optionsOf(row));
        const first = message.records.findIndex(({ kind }) => kind === KIND.REQUEST || kind === KIND.SELECT);
        if (first !== row.index || first < 0) missing("handover");
        let links;
        try {
            links = lib.links(message);
        } catch (error) {
            if (row.opaque && error instanceof NdefError) missing("handover"); // it says why the payload is none
            throw error;
        }
        return { links: links.map((link) => {
            if (link.index !== null && link.record !== message.records[link.index]) throw new Error("another record than that of the index");
            return [...carrierOf(link), link.index];
        }) };
    },
    value_of(row) {
        const record = row.profile ? lib.decode(new NDEFRecord(plain([1, row.type, "", row.payload])).toBytes(3), { opaque: true, standard: true }).records[0]
            : new NDEFRecord(plain([1, row.type, "", row.payload]));
        return { value: valueOf(record) };
    },
    within(row) {
        const [record] = lib.decode(new NDEFRecord(plain([1, row.type, "", row.payload])).toBytes(3), { opaque: true, standard: row.profile === "standard" }).records;
        valueOf(record);
        if (![KIND.SMART_POSTER, KIND.REQUEST, KIND.SELECT].includes(record.kind)) return { within: null };
        const read = () => record.toRecords().map((one) => [...partsOf(one), one.kind, one.kind > KIND.CARRIER ? "-within" : valueOf(one)]), first = read();
        record.toRecords().length = 0;
        if (JSON.stringify(read()) !== JSON.stringify(first)) throw new Error("an answer that is changed changes the record");
        return { within: first };
    },
    reason: ({ number }) => ({ name: calls.reasonName(number), sentence: calls.reasonSentence(number) }),
    title: () => missing("title"),
    layout: () => missing("layout"),
    encode(row) {
        const bytes = encoded(row.records.map(plain), row), records = row.records.map((one) => (kind & 1 ? plain(one) : new NDEFRecord(plain(one))));
        if (!(kind & 1)) spoil();
        if (bytes === null) return { bytes: hex(lib.encode({ records }, { ...optionsOf(row), unchecked: row.unchecked })) };
        if (!row.unchecked) {
            try {
                lib.decode(bytes, optionsOf(row));
            } catch (error) {
                if (error instanceof NdefError) missing("form");
                throw error;
            }
        }
        return { bytes: hex(bytes) };
    },
    parts: (row) => ({ parts: Array.from(lib.encodeParts({ records: row.records.map(plain) }, { ...optionsOf(row), size: row.size }), hex) }),
    record_parts(row) {
        const [tnf, type, id] = row.record, record = { tnf, type: hexed(type), id: hexed(id), parts: row.parts.map(hexed), length: row.length };
        return { bytes: hex(Buffer.concat(Array.from(lib.encodeParts({ records: [record] }, { unchecked: true, size: 16 })))) };
    },
    normalize: (row) => ({ bytes: hex(lib.encode(lib.decodePrefix(hexed(row.bytes), optionsOf(row)).message, optionsOf(row))) }),
    make(row) {
        const record = MAKERS[row.value.kind](row.value), { payload } = record;
        return { payload: hex(payload), value: valueOf(record) };
    },
};

async function answer(row) {
    try {
        return await OPERATIONS[row.op](row);
    } catch (error) {
        if (error.not) return error;
        if (error instanceof NdefError && error.reason === 0) return { trailing: error.place };
        if (error instanceof NdefError && error.record !== null) return { refused: { record: error.record, place: error.place, reason: error.name, sentence: error.sentence } };
        if (error instanceof NdefError) return { refused: refusalOf(error) };
        if (row.op === "make" && (error instanceof RangeError || error instanceof TypeError)) return { bad: nameOf(error) };
        if (error instanceof RangeError || error instanceof TypeError) return { bad: true };
        return { failed: String(error) };
    }
}

const rows = readFileSync(table, "utf8").split("\n").slice(0, -1).map((line) => JSON.parse(line)), answers = [];
async function shown(index, turn) {
    kind = index + turn;
    given = [];
    return JSON.stringify(await answer(rows[index]));
}
for (let index = 0; index < rows.length; index++) answers.push(await shown(index, 0));
for (let index = rows.length - 1; index >= 0; index--)
    if (await shown(index, 1) !== answers[index]) answers[index] = JSON.stringify({ failed: "another answer of other bytes in another order" });
const lines = answers.map((answer, index) => `{"id":${JSON.stringify(rows[index].id)},"answer":${answer}}`);
process.stdout.write([JSON.stringify({ language: "JavaScript", not: NOT }), ...lines].join("\n") + "\n");
