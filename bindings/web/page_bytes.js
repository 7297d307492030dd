// The bytes of the input as a grid: the place of each row, its bytes in the colours of their fields, and its characters; and the fields as a table.
import { ascii, byId, element, plural, shortened, twoDigits } from "./page_elements.js";

const MOST_SHOWN = 2048; // bytes that the page shows
const AROUND = 64; // bytes before and after a refused one that isn't among them
const MOST_FIELDS = 500; // fields in the table
const MOST_IN_FIELD = 8; // bytes of a field in the table
const MOST_CHARACTERS = 400; // of a meaning in the table
const LONG = 40; // characters of a meaning that are too many for what is said of a byte

const KINDS = {
    head: "head: flags and lengths", type: "type", id: "id", payload: "payload", language: "language code",
    value: "text, URI or data", rest: "not looked at", refused: "refused",
};

// The colour of each field, by its name; the others have that of a payload.
const COLOURS = {
    "header": "head", "TYPE_LENGTH": "head", "PAYLOAD_LENGTH": "head", "ID_LENGTH": "head", "TYPE": "type", "ID": "id",
    "carrier type": "type", "language code": "language", "text": "value", "URI": "value", "media type": "value",
    "carrier data reference": "value", "auxiliary data reference": "value", "error data": "value", "carrier data": "value",
};

// How many bytes a row has: half as many where the page is narrow.
const narrow = window.matchMedia("(max-width: 40rem)");
const rowLength = () => (narrow.matches ? 8 : 16);
export const onWidth = (call) => narrow.addEventListener("change", call);

// The parts of the input that are shown: its first bytes, and those around the refused one.
function shownRanges(count, place) {
    const ranges = [[0, Math.min(count, MOST_SHOWN)]];
    if (place < count && place >= MOST_SHOWN) ranges.push([Math.max(MOST_SHOWN, place - AROUND), Math.min(count, place + AROUND)]);
    return ranges;
}

// What is known of each shown byte: a field, or that it is refused.
function knownIn(lines, ranges) {
    const known = new Map();
    for (const line of lines.filter(({ fields }) => fields)) {
        for (const field of line.fields)
            for (const [from, to] of ranges)
                for (let at = Math.max(field.at, from); at < Math.min(field.at + field.length, to); at++) known.set(at, field);
        if (line.refused) known.set(line.refused.at, null);
    }
    return known;
}

function kindOf(field) {
    if (field === undefined) return "rest";
    return field === null ? "refused" : COLOURS[field.name] ?? "payload";
}

function detailOf(bytes, field, at) {
    if (at >= bytes.length) return `Byte ${at}: the end of the input`;
    const shown = ascii(bytes[at]), said = `Byte ${at}: ${twoDigits(bytes[at])}${shown === null ? "" : ` "${shown}"`}`;
    if (!field) return `${said}, ${KINDS[kindOf(field)]}`;
    const meaning = field.meaning?.length <= LONG ? ` ${field.meaning}` : "";
    return `${said}, record ${field.record}, ${field.name}${meaning}`;
}

function byteSpan(bytes, field, at) {
    const text = detailOf(bytes, field, at), kind = kindOf(field) + (field?.begins ? " begin" : "");
    const span = element("span", { kind, role: "gridcell", "aria-label": text, tabindex: "-1", "data-at": at });
    span.textContent = at < bytes.length ? twoDigits(bytes[at]) : "end";
    const show = () => { byId("detail").textContent = text; };
    span.addEventListener("mouseenter", show);
    span.addEventListener("focus", show);
    span.addEventListener("click", () => span.focus());
    return span;
}

// A row: where it begins, its bytes and their characters. The characters are said by the labels of the bytes.
function byteRow(bytes, known, from, to) {
    const spans = Array.from({ length: to - from }, (_, index) => byteSpan(bytes, known.get(from + index), from + index));
    const text = Array.from(bytes.subarray(from, to), (byte) => ascii(byte) ?? "\u00b7").join("");
    const place = element("span", { kind: "place", role: "rowheader", text: from, "aria-label": `From byte ${from}` });
    const characters = element("span", { kind: "text", "aria-hidden": "true", text });
    return element("div", { role: "row", kind: "bytes" }, place, ...spans, characters);
}

const gap = (count) => element("p", { kind: "gap", text: `${plural(count, "byte")} not shown` });

// The tab key reaches one byte: the refused one, or else the first.
function reachByKey(box) {
    const first = box.querySelector(".refused") ?? box.querySelector("[data-at]");
    if (first) first.tabIndex = 0;
    byId("detail").textContent = first?.getAttribute("aria-label") ?? "";
}

function showLegend(box) {
    byId("legend").replaceChildren(...Object.entries(KINDS).filter(([kind]) => box.querySelector(`[data-at].${kind}`))
        .map(([kind, said]) => element("li", {}, element("i", { kind }), said)));
}

// Shows the bytes. The refused one may be the end of the input.
export function showBytes(bytes, lines) {
    const box = byId("bytes"), length = rowLength(), place = lines.find(({ refused }) => refused)?.refused.at ?? Infinity;
    const count = bytes.length + (place === bytes.length ? 1 : 0), ranges = shownRanges(count, place), known = knownIn(lines, ranges);
    let end = 0;
    box.style.setProperty("--row", length);
    box.replaceChildren();
    for (const [from, to] of ranges) {
        if (from > end) box.append(gap(from - end));
        for (let at = from; at < to; at += length) box.append(byteRow(bytes, known, at, Math.min(to, at + length)));
        end = to;
    }
    if (end < count) box.append(gap(count - end));
    reachByKey(box);
    showLegend(box);
}

const COLUMNS = ["Byte", "Bytes", "Field", "Meaning"];

// The rows of a field: what it says, and what is strange in it.
function fieldRows({ at, length, depth, name, octets, meaning = "", remark, begins }) {
    const bytes = octets.slice(0, 2 * MOST_IN_FIELD).toUpperCase().match(/../g).join(" ") + (length > MOST_IN_FIELD ? " …" : "");
    const cells = [String(at), element("code", { text: bytes }), name, shortened(meaning, MOST_CHARACTERS)].map((content) => element("td", {}, content));
    const row = element("tr", { kind: `${depth ? "nested" : ""}${begins ? " begin" : ""}`.trim() }, ...cells);
    return remark === undefined ? [row] : [row, element("tr", { kind: "remark" }, element("td", { colspan: `${COLUMNS.length}`, text: remark }))];
}

// The row of the refused byte, whose octet isn't there at the end of the input.
function refusedRow({ at, octet = "", field = "", sentence }) {
    const cells = [String(at), element("code", { text: octet.toUpperCase() }), field, `refused: ${sentence}`];
    return element("tr", { kind: "why" }, ...cells.map((content) => element("td", {}, content)));
}

const titleRow = (text) => element("tr", { kind: "title" }, element("th", { colspan: `${COLUMNS.length}`, text }));

// The rows of a line: its fields, those of payloads in chunks, whose places count from their own first byte, and the refused byte.
function* rowsOf(line) {
    for (const field of line.fields) yield* fieldRows(field);
    if (line.refused) yield refusedRow(line.refused);
    for (const { record, length, fields } of line.payloads ?? []) {
        yield titleRow(`Payload of record ${record}, ${plural(length, "byte")}: its chunks joined, and counted from its first byte`);
        for (const field of fields) yield* fieldRows(field);
    }
}

// Shows the fields as a table, up to a number of them.
export function showFields(lines) {
    const head = element("tr", {}, ...COLUMNS.map((name) => element("th", { scope: "col", text: name }))), body = element("tbody");
    let left = MOST_FIELDS;
    for (const line of lines.filter(({ fields }) => fields)) {
        for (const row of rowsOf(line)) {
            if (left-- > 0) body.append(row);
        }
        if (left <= 0) break;
    }
    const table = element("table", { kind: "fields", "aria-label": "Fields" }, element("thead", {}, head), body);
    byId("field-part").replaceChildren(table, ...(left < 0 ? [element("p", { text: `Only the first ${MOST_FIELDS} rows are shown.` })] : []));
}

// Arrow keys move from byte to byte, by rows of as many bytes as the page shows in one.
export function moveByKeys(event) {
    const spans = [...byId("bytes").querySelectorAll("[data-at]")], now = spans.indexOf(document.activeElement), row = rowLength();
    const step = {
        ArrowLeft: -1, ArrowRight: 1, ArrowUp: -row, ArrowDown: row, PageUp: -8 * row, PageDown: 8 * row,
        Home: -now, End: spans.length - 1 - now,
    }[event.key];
    if (now < 0 || step === undefined) return;
    event.preventDefault();
    const next = spans[now + step];
    if (!next) return;
    spans[now].tabIndex = -1;
    next.tabIndex = 0;
    next.focus();
}
