// The records of messages, each with what it says, from the objects of ndef-explain.
import { strictUtf8 } from "./bytes.js";
import { bytesOfHex, byId, element, plural, shortened, toHex } from "./page_elements.js";

const MOST_RECORDS = 500; // that are shown
const MOST_CHARACTERS = 2000; // of a text that is shown
const MOST_BYTES = 32; // of a payload that are shown

// What well-known types are called.
const TITLES = new Map(Object.entries({
    T: "Text", U: "URI", Sp: "Smart poster", Hr: "Handover request", Hs: "Handover select", Hc: "Handover carrier",
}));
// The fields that say something to who doesn't read bytes, those that a value has, and those that the carriers of a handover have.
const FACTS = ["version", "random number", "auxiliary data reference", "error reason", "action", "size", "media type", "carrier type format", "carrier type"];
const VALUES = ["language code", "text", "identifier code", "URI"], OF_CARRIERS = ["carrier power state", "carrier data reference"];

const unquoted = (meaning) => meaning.slice(1, -1);

// The first records of a line, up to a number of them: the fields of each, those of its joined chunks, and what the line says of it as a whole.
function recordsOf(line, most) {
    const all = [];
    for (const field of line.fields) {
        if (field.depth === 0 && field.begins) all.push({ number: Number(field.record), fields: [], carriers: [] });
        all[all.length - 1].fields.push(field);
    }
    const records = all.slice(0, most), handover = records.find((record) => ["Hr", "Hs"].includes(typeOf(record)));
    for (const record of records) {
        const isOf = ({ record: number, number: own }) => (number ?? own) === record.number;
        record.whole = line.records?.find(isOf) ?? {};
        record.remarks = line.remarks?.filter(isOf) ?? [];
        record.joined = line.payloads?.find(isOf)?.fields ?? [];
    }
    if (handover) handover.carriers = line.references ?? [];
    return records;
}

const meaningOf = ({ fields }, name) => fields.find((field) => field.depth === 0 && field.name === name)?.meaning ?? "";
const typeOf = (record) => unquoted(meaningOf(record, "TYPE"));
const formatOf = (record) => /TNF \d (.*)$/.exec(meaningOf(record, "header"))[1];

function titleOf(record) {
    const type = typeOf(record), format = formatOf(record);
    if (format === "well-known" && TITLES.has(type)) return TITLES.get(type);
    const name = format === "absolute URI" ? "Absolute URI" : `${format[0].toUpperCase()}${format.slice(1)}${type ? " type" : ""}`;
    return type ? `${name} ${type}` : name;
}

const fact = (name, meaning) => [element("dt", { text: name }), element("dd", { text: shortened(meaning, MOST_CHARACTERS) })];
const said = (text) => element("p", { kind: "value", text: shortened(text, MOST_CHARACTERS) });
const spoken = ({ language, text }) => [said(text), element("dl", {}, ...fact("language", language || "none"))];

// The value of a text, a URI or a poster, as ndef-explain gives it.
function valueOf(value) {
    if (typeof value === "string") return [said(value)];
    if (value.titles === undefined) return spoken(value);
    return [said(value.uri), ...value.titles.flatMap(spoken)];
}

// A payload that says it is text, as text; nothing if it isn't UTF-8.
function contentOf(record, payload) {
    if (formatOf(record) !== "media" || !/^text\/|[/+]json(;|$)/i.test(typeOf(record))) return [];
    try {
        return [said(strictUtf8(payload))];
    } catch {
        return [];
    }
}

// What the fields of a record say beside its value.
function factsOf(record) {
    const { whole, fields, joined, carriers: { length } } = record, id = meaningOf(record, "ID");
    const isSaid = ({ name }) => FACTS.includes(name) || (whole.value === undefined && VALUES.includes(name)) || (length === 0 && OF_CARRIERS.includes(name));
    const facts = [...fields, ...joined].filter(isSaid).map(({ name, meaning }) => [name, meaning]);
    const carriers = record.carriers.map(({ power, reference, record: to }) => [`carrier "${reference}"`, `${power}, ${to ? `record ${to}` : "no record"}`]);
    return [...facts, ...carriers, ...(id ? [["id", id]] : [])];
}

function payloadOf(record, payload) {
    if (payload.length === 0) return [];
    const chunks = record.fields.filter(({ depth, name }) => depth === 0 && name === "header").length;
    const size = `${plural(payload.length, "byte")}${chunks > 1 ? ` in ${plural(chunks, "chunk")}` : ""}`;
    const more = payload.length > MOST_BYTES ? " …" : "";
    return [element("dt", { text: "payload" }), element("dd", {}, `${size}: `, element("code", { text: toHex(payload.subarray(0, MOST_BYTES)) + more }))];
}

function cardOf(record) {
    const payload = bytesOfHex(record.fields.filter(({ depth, name }) => depth === 0 && name === "PAYLOAD").map(({ octets }) => octets).join(""));
    const facts = [...factsOf(record).flatMap(([name, meaning]) => fact(name, meaning)), ...payloadOf(record, payload)];
    return element("li", { value: record.number },
        element("h3", { text: titleOf(record) }),
        ...(record.whole.value === undefined ? contentOf(record, payload) : valueOf(record.whole.value)),
        ...(facts.length > 0 ? [element("dl", {}, ...facts)] : []),
        ...record.remarks.map(({ sentence }) => element("p", { kind: "remark", text: sentence })));
}

// Shows the records of all lines, up to a number of them, and what is refused where it stands.
export function showRecords(lines) {
    const part = byId("record-part"), isOne = lines.filter(({ fields, follows }) => fields && !follows).length === 1;
    let left = MOST_RECORDS;
    part.replaceChildren();
    const goesOn = lines.some(({ counted }) => counted);
    for (const line of lines.filter(({ fields }) => fields)) {
        const records = left > 0 ? recordsOf(line, left) : [];
        if (records.length > 0 && !line.follows) part.append(element("h2", { text: isOne ? "Records" : `Message ${line.message}, at byte ${line.at}` }));
        if (records.length > 0) part.append(element("ol", {}, ...records.map(cardOf)));
        if (line.refused && goesOn) part.append(element("p", { kind: "why", text: `Refused at byte ${line.refused.at}: ${line.refused.sentence}` }));
        left -= records.length;
    }
    if (left === 0) part.append(element("p", { text: `Only the first ${MOST_RECORDS} records are listed.` }));
}
