// The part of the page that writes: a form for each kind of record, the list of the records, the bytes of their message, and on
// which tags it fits.
import { NDEFMessage, NDEFRecord, encode, utf16Of } from "./record.js";
import { handoverRequest, handoverSelect, smartPoster } from "./builders.js";
import { byId, capital, element, plural, toHex, visible } from "./page_elements.js";

const POWER_NAMES = ["inactive", "active", "activating", "unknown"];
const ACTION_NAMES = ["do it", "save it", "open it"];

// The bytes of a tag for messages: its user memory, less the 5 bytes that are in use on an NTAG213 as delivered (its lock control),
// or the last 8 and 16 bytes, which the capability containers of the others leave out.
const TAGS = { NTAG213: 144 - 5, NTAG215: 504 - 8, NTAG216: 888 - 16 };
// What stands before a message on such a tag: 03 and its length, which has one byte up to 254 and else three.
const headOfTag = (length) => (length < 255 ? 2 : 4);

// A field of a form: its label, and what the control is.
const line = (label, value = "") => ({ label, control: "input", value });
const lines = (label, value = "") => ({ label, control: "textarea", value });
const choice = (label, ...names) => ({ label, control: "select", names });
const check = (label) => ({ label, control: "checkbox" });
const ID = line("Id (may be empty)");
const URI = { ...line("URI"), placeholder: "https://" };
const PAYLOAD = { payload: lines("Payload"), layout: choice("The payload is given as", "text", "bytes (hexadecimal or base64)") };
const CARRIERS = lines("Carriers: one a line, each its power state and the id of its record, as “active b”");

function numberOf(text, name) {
    if (/^\d+$/.test(text.trim())) return Number(text);
    throw new RangeError(`${name} is a whole number, not “${text}”`);
}

const optionalNumberOf = (text, name) => (text.trim() === "" ? null : numberOf(text, name));
const linesOf = (text) => text.split("\n").map((one) => one.trim()).filter((one) => one !== "");

// The payload that is given; `read` has the bytes that a text spells.
function payloadOf({ payload, layout }, read) {
    if (layout === "text") return payload;
    const { bytes, wrong } = read(payload);
    if (wrong) throw new TypeError(wrong);
    return bytes;
}

// Titles, one a line: the language, a colon, and the text.
function titlesOf(text) {
    return linesOf(text).map((title) => {
        const colon = title.indexOf(":");
        if (colon < 0) throw new TypeError(`A title begins with its language and a colon, as “en: Hello”: “${title}”`);
        return { language: title.slice(0, colon).trim(), text: title.slice(colon + 1).trim() };
    });
}

// Carriers, one a line: the power state, the id of the record, and those of auxiliary records.
function carriersOf(text) {
    return linesOf(text).map((carrier) => {
        const [state, reference, ...auxiliary] = carrier.split(/\s+/), power = POWER_NAMES.indexOf(state.toLowerCase());
        if (power < 0 || reference === undefined)
            throw new TypeError(`A carrier is ${POWER_NAMES.join(", ")}, and then an id: “${carrier}”`);
        return { power, reference, auxiliary };
    });
}

function posterOf({ uri, titles, action, size, mediaType, id }) {
    const number = ACTION_NAMES.indexOf(action);
    return smartPoster({
        uri, titles: titlesOf(titles), action: number < 0 ? null : number, size: optionalNumberOf(size, "The size"),
        mediaType: mediaType || null,
    }, id);
}

function textOf({ data, lang, utf16, id }) {
    const text = utf16 ? { data: utf16Of(data), encoding: "utf-16be" } : { data };
    return new NDEFRecord({ recordType: "text", lang, id, ...text });
}

function requestOf({ collision, carriers, id }) {
    return handoverRequest({ collision: numberOf(collision, "The random number"), carriers: carriersOf(carriers) }, id);
}

function selectOf({ carriers, reason, number, id }) {
    const error = reason.trim() === "" ? null : { reason: numberOf(reason, "The reason"), number: numberOf(number, "The number") };
    return handoverSelect({ carriers: carriersOf(carriers), error }, id);
}

// The kinds of records: what the form asks for, and the record that it makes.
const KINDS = {
    "Text": {
        fields: { data: lines("Text"), lang: line("Language", "en"), utf16: check("Write it in UTF-16"), id: ID },
        make: textOf,
    },
    "URI": { fields: { data: URI, id: ID }, make: (given) => new NDEFRecord({ recordType: "url", ...given }) },
    "Smart poster": {
        fields: {
            uri: URI, titles: lines("Titles: one a line, each after its language, as “en: Hello”"),
            action: choice("Action", "none", ...ACTION_NAMES), size: line("Bytes of what the URI leads to (may be empty)"),
            mediaType: line("Media type of it (may be empty)"), id: ID,
        },
        make: posterOf,
    },
    "Handover request": {
        fields: { collision: line("Random number", "0"), carriers: CARRIERS, id: ID },
        make: requestOf,
    },
    "Handover select": {
        fields: {
            carriers: CARRIERS, reason: line("Reason of an error (1 to 3, may be empty)"), number: line("Number of the error", "0"), id: ID,
        },
        make: selectOf,
    },
    "Media type": {
        fields: { mediaType: line("Media type", "text/plain"), ...PAYLOAD, id: ID },
        make: (given, read) => new NDEFRecord({ recordType: "mime", mediaType: given.mediaType, id: given.id, data: payloadOf(given, read) }),
    },
    "External type": {
        fields: { type: line("Type", "example.com:type"), ...PAYLOAD, id: ID },
        make: (given, read) => new NDEFRecord({ tnf: 4, type: given.type, id: given.id, payload: payloadOf(given, read) }),
    },
    "Absolute URI": { fields: { type: URI, id: ID }, make: (given) => new NDEFRecord({ tnf: 3, ...given }) },
    "Unknown": {
        fields: { ...PAYLOAD, id: ID },
        make: (given, read) => new NDEFRecord({ recordType: "unknown", id: given.id, data: payloadOf(given, read) }),
    },
    "Another well-known type": {
        fields: { type: line("Type"), ...PAYLOAD, id: ID },
        make: (given, read) => new NDEFRecord({ tnf: 1, type: given.type, id: given.id, payload: payloadOf(given, read) }),
    },
    "Empty": { fields: {}, make: () => new NDEFRecord({ recordType: "empty" }) },
};

function controlOf(name, { control, value, names, placeholder = "" }) {
    const id = `field-${name}`;
    if (control === "select") return element("select", { id }, ...names.map((text) => element("option", { text })));
    if (control === "checkbox") return element("input", { id, type: "checkbox" });
    const made = element(control, control === "textarea" ? { id, rows: 2 } : { id, autocomplete: "off", autocapitalize: "off" });
    Object.assign(made, { value, placeholder });
    return made;
}

function fieldOf(name, field) {
    const control = controlOf(name, field), label = element("label", { for: control.id, text: field.label });
    return element("p", { kind: field.control }, ...(field.control === "checkbox" ? [control, label] : [label, control]));
}

const kindOf = () => KINDS[byId("write-kind").value];

// What stands in the form.
function filled() {
    return Object.fromEntries(Object.entries(kindOf().fields).map(([name, { control }]) => {
        const made = byId(`field-${name}`);
        return [name, control === "checkbox" ? made.checked : made.value];
    }));
}

// A record of the list in a line.
function summary(record) {
    const id = record.id === null ? "" : `, id “${record.id}”`;
    const what = record.text ?? record.uri ?? record.mediaType ?? plural(record.payload.length, "byte");
    return visible(`${record.recordType}${id}: ${what}`);
}

function fitOf(name, buffer, length) {
    const left = buffer - headOfTag(length) - length;
    const text = left < 0 ? `${name}: ${plural(-left, "byte")} too large` : `${name}: fits, ${plural(left, "byte")} left`;
    return element("li", { kind: left < 0 ? "bad" : "good", text });
}

const bytesOfRecords = (records, options) => (records.length === 0 ? new Uint8Array() : encode({ records }, options));

// What is wrong, in a line. Records count from 1 here.
const faultOf = ({ message, record = null, place, sentence }) =>
    capital(record === null ? message : `record ${record + 1} is refused at its byte ${place}: ${sentence}`);

// Gives bytes to be kept as a file.
function save(bytes) {
    const link = element("a", { href: URL.createObjectURL(new Blob([bytes])), download: "message.ndef" });
    link.click();
    setTimeout(() => URL.revokeObjectURL(link.href), 1000);
}

// The composer: the records so far, and what is done with them. `look` shows bytes in the page, `write` writes a message to a tag,
// `read` has the bytes that a text spells.
export class Composer {
    #records = [];
    #options = {}; // with which the records were read
    #read;

    constructor({ look, write, read }) {
        this.#read = read;
        byId("write-kind").append(...Object.keys(KINDS).map((text) => element("option", { text })));
        byId("write-kind").addEventListener("input", () => this.#showForm());
        byId("write-form").addEventListener("submit", (event) => { event.preventDefault(); this.#add(); });
        byId("write-look").addEventListener("click", () => look(this.#bytes()));
        byId("write-clear").addEventListener("click", () => { this.#change([]); byId("write-kind").focus(); });
        byId("write-tag").addEventListener("click", () => write(new NDEFMessage({ records: this.#records })));
        byId("write-copy").addEventListener("click", () => this.#copy());
        byId("write-save").addEventListener("click", () => save(this.#bytes()));
        this.#showForm();
        this.#change([]);
    }

    // Takes the records of a message in place of those that are there; asks before. Options: with which the message was read.
    take(records, options = {}) {
        const count = this.#records.length;
        if (count === 0 || window.confirm(`Replace ${plural(count, "record")} of the new message?`)) this.#try(() => [...records], options);
    }

    get isEmpty() { return this.#records.length === 0; }

    async #copy() {
        byId("write-hex").select();
        try {
            await navigator.clipboard.writeText(byId("write-hex").value);
            byId("written").textContent = "The bytes are copied.";
        } catch (error) {
            byId("written").textContent = `The bytes can't be copied: ${error.message}`;
        }
    }

    #showForm() {
        byId("write-fields").replaceChildren(...Object.entries(kindOf().fields).map(([name, field]) => fieldOf(name, field)));
        byId("write-fault").textContent = "";
    }

    #add() { this.#try(() => [...this.#records, kindOf().make(filled(), this.#read)], this.#options); }

    // Changes the list to what `make` answers, or says why no message has these records.
    #try(make, options) {
        try {
            this.#change(make(), options);
            byId("write-fault").textContent = "";
        } catch (error) {
            byId("write-fault").textContent = faultOf(error);
        }
    }

    #bytes() { return bytesOfRecords(this.#records, this.#options); }

    #change(records, options = this.#options) {
        const bytes = bytesOfRecords(records, options), isEmpty = records.length === 0;
        const items = records.map((record, index) => this.#item(record, index, records.length));
        this.#records = records;
        this.#options = isEmpty ? {} : options;
        byId("write-list").replaceChildren(...items);
        byId("write-hex").value = toHex(bytes);
        const size = `${plural(records.length, "record")}, ${plural(bytes.length, "byte")}`;
        byId("write-size").textContent = isEmpty ? "No records yet." : size;
        const fits = Object.entries(TAGS).map(([name, buffer]) => fitOf(name, buffer, bytes.length));
        byId("write-fit").replaceChildren(...(isEmpty ? [] : fits));
        ["write-look", "write-copy", "write-save", "write-clear", "write-tag"].forEach((id) => { byId(id).disabled = isEmpty; });
    }

    #item(record, index, count) {
        const button = (text, label, change) => {
            const made = element("button", { type: "button", text, "aria-label": `${label} ${index + 1}` });
            made.addEventListener("click", () => this.#move(change, index, label));
            return made;
        };
        const up = button("\u2191", "Move up record", (records) => records.splice(index - 1, 0, ...records.splice(index, 1)));
        const down = button("\u2193", "Move down record", (records) => records.splice(index + 1, 0, ...records.splice(index, 1)));
        up.disabled = index === 0;
        down.disabled = index === count - 1;
        const remove = button("Remove", "Remove record", (records) => records.splice(index, 1));
        return element("li", {}, element("span", { text: summary(record) }), " ", up, down, remove);
    }

    // Changes the list, and moves the focus to a button of the record that stands there then, or to the form.
    #move(change, index, label) {
        const records = [...this.#records];
        change(records);
        this.#change(records);
        const last = records.length - 1, to = { "Move up record": index - 1, "Move down record": index + 1 }[label] ?? Math.min(index, last);
        const buttons = [...byId("write-list").querySelectorAll(`li:nth-child(${to + 1}) button:enabled`)];
        const same = buttons.find((one) => one.getAttribute("aria-label").startsWith(label));
        (same ?? buttons[0] ?? byId("write-kind")).focus();
    }
}
