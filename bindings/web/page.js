// The page: reads the input, asks ndef-explain what it holds, and shows that. It knows no rule of the format: which bytes a text spells, which are
// a record's type, what they say and why one is refused, all of it comes from the program; the library makes new messages.
import { library, provide, ready } from "./library.js";
import { decodePrefix } from "./message.js";
import { encode } from "./record.js";
import code from "./ndef_wasm.mjs";
import { byId, element, plural, toHex, twoDigits } from "./page_elements.js";
import { bytesOf, explain, load, textOfFile } from "./page_explain.js";
import { moveByKeys, onWidth, showBytes, showFields } from "./page_bytes.js";
import { showRecords } from "./page_records.js";
import { choose, listenToTabs } from "./page_tabs.js";
import { Composer } from "./page_write.js";
import { readTag, readsTags, writeTag } from "./page_tag.js";

const SAMPLES = {
    "text": "D1 01 08 54 02 65 6E 48 65 6C 6C 6F",
    "URI": "D1 01 0C 55 01 65 78 61 6D 70 6C 65 2E 63 6F 6D",
    "smart poster": "D1 02 25 53 70 91 01 0C 55 01 65 78 61 6D 70 6C 65 2E 63 6F 6D 11 01 0A 54 02 64 65 47 72 C3 BC C3 9F 65 "
        + "51 03 01 61 63 74 00",
    "two records": "91 01 0C 55 01 65 78 61 6D 70 6C 65 2E 63 6F 6D 51 01 0A 54 02 64 65 47 72 C3 BC C3 9F 65",
    "chunks": "B1 01 03 54 02 65 6E 36 00 03 48 65 6C 56 00 02 6C 6F",
    "handover": "91 02 11 48 72 12 91 02 02 63 72 12 34 51 02 04 61 63 01 01 30 00 5A 03 04 01 61 2F 62 30 01 02 03 04",
    "not UTF-8": "91 01 0C 55 01 65 78 61 6D 70 6C 65 2E 63 6F 6D 51 01 07 54 02 65 6E C3 28 6F 6B",
    "reserved": "D7 00 00",
    "cut off": "D1 01 08 54 02 65 6E 48 65",
};
const LIMITS = ["payload", "records", "chunks"];
const MOST_LINKED = 16384; // bytes that a link has
const MOST_SPELLED = 65536; // bytes of a file that the field for bytes shows; the layout of more takes a second

// ---- what is shown

const refusalOf = ({ at, reason, name, sentence }, where = "") => `Refused at byte ${at}${where}, reason ${reason}, ${name}: ${sentence}`;

function showVerdict(bytes, lines, isCut) {
    const refused = lines.find((line) => line.refused)?.refused, whole = lines.filter(({ records }) => records), verdict = byId("verdict");
    const count = (member) => whole.reduce((sum, line) => sum + member(line), 0);
    const good = [[whole.length, "message"], [count(({ records }) => records.length), "record"], [count(({ length }) => length), "byte"]]
        .map(([number, word]) => plural(number, word)).join(", ");
    const where = refused?.at === bytes.length ? " (the end of the input)" : "";
    verdict.className = refused || isCut ? "bad" : "good";
    if (refused) verdict.textContent = whole.length ? `${good}, then r${refusalOf(refused, where).slice(1)}` : refusalOf(refused, where);
    else verdict.textContent = isCut ? `${good}; the rest is too much for this page: the command ndef-explain reads it.` : good;
    const sound = lines.find(({ counted }) => counted);
    byId("sound").textContent = sound ? `Records that are valid: ${sound.sound} of ${sound.counted}.` : "";
}

// A button in place of the command of a hint, or none: it looks at a part of the bytes, at what their text spells, or by the other profile.
function buttonsOf(bytes, { kind, offset, length, command }) {
    if (command === undefined) return [];
    const button = (text, act) => {
        const made = element("button", { type: "button", text });
        made.addEventListener("click", () => { act(); byId("hex").focus(); });
        return [made];
    };
    if (kind === "standard") return button("Read by the standard profile", () => { byId("profile").value = "standard"; show(); });
    if (offset !== undefined) return button(`Look from byte ${offset}`, () => showTheseBytes(bytes.slice(offset, length && offset + length)));
    const text = textOfFile(bytes);
    return text === null ? [] : button("Read what they spell", () => { take(text); show(); });
}

function showHint(bytes, lines) {
    const found = lines.find(({ hint }) => hint), { there, length } = found?.hint ?? {};
    const text = found ? `${found.hints[0]} ${there === undefined ? "" : `${there} of ${length} bytes are there. `}` : "";
    byId("hint").hidden = !found;
    byId("hint").replaceChildren(text, ...(found ? buttonsOf(bytes, found.hint) : []));
}

// Shows that there is no answer, and why.
function showFault(text) {
    ["bytes", "legend", "field-part", "record-part", "hint"].forEach((id) => byId(id).replaceChildren());
    ["detail", "sound", "form"].forEach((id) => { byId(id).textContent = ""; });
    ["load", "hint", "shown"].forEach((id) => { byId(id).hidden = true; });
    byId("verdict").className = "bad";
    byId("verdict").textContent = text;
}

// The verdict and what the records say come first, then the bytes.
function showMessages(bytes) {
    const { lines, isCut, wrong } = explain(bytes, optionsOf());
    if (wrong || bytes.length === 0) return showFault(wrong ?? "There are no bytes.");
    byId("shown").hidden = false;
    showVerdict(bytes, lines, isCut);
    showHint(bytes, lines);
    byId("load").hidden = lines[0]?.records === undefined;
    showRecords(lines);
    showBytes(bytes, lines);
    showFields(lines);
}

// ---- input

const optionsOf = () => Object.fromEntries([...LIMITS, "profile"].map((id) => [id, byId(id).value]));

// The bytes of a file that the field doesn't show, or null. What is entered there takes their place.
let kept = null;

// The bytes that are looked at and the form in which they were entered, or what is wrong with them.
const given = () => kept ?? bytesOf(byId("hex").value);

// Takes the text of the field for bytes, or bytes that it doesn't show and what is said of them there.
function take(text, bytes = null, said = "") {
    choose("tab-read");
    kept = bytes;
    byId("hex").value = text;
    byId("hex").placeholder = said;
}

function linkTo(bytes) {
    const digits = bytes.length > MOST_LINKED ? "" : Array.from(bytes, twoDigits).join("");
    byId("link").hidden = bytes.length > MOST_LINKED;
    byId("link").setAttribute("href", `#${digits}${byId("profile").value === "standard" ? "&standard" : ""}`);
}

function show() {
    const { bytes, form, wrong } = given();
    if (wrong) return showFault(wrong);
    linkTo(bytes);
    byId("form").textContent = form ? `Read as ${form}.` : "";
    try {
        showMessages(bytes);
    } catch (error) {
        showFault(`The page failed: ${error.message}`);
    }
}

// Shows these bytes, which the field shows too where they aren't too many.
function showTheseBytes(bytes, named = `${bytes.length} bytes`) {
    if (bytes.length <= MOST_SPELLED) take(toHex(bytes));
    else take("", { bytes }, named);
    show();
}

// Takes the bytes and the options after # in the address.
function takeAddress() {
    const [digits, ...words] = location.hash.slice(1).split("&");
    if (!digits) return false;
    const { bytes } = bytesOf(digits);
    take(bytes ? toHex(bytes) : digits);
    byId("profile").value = words.includes("standard") ? "standard" : "strict";
    return true;
}

async function takeFile(file) {
    const bytes = new Uint8Array(await file.arrayBuffer()), text = textOfFile(bytes), named = `${bytes.length} bytes of the file ${file.name}`;
    if (text === null) return showTheseBytes(bytes, named);
    if (bytes.length <= MOST_SPELLED) take(text);
    else take("", bytesOf(text), named);
    show();
}

function listenToFiles() {
    byId("file").addEventListener("change", ({ target }) => { if (target.files[0]) takeFile(target.files[0]); });
    document.addEventListener("dragover", (event) => { event.preventDefault(); document.body.classList.add("drop"); });
    document.addEventListener("dragleave", () => document.body.classList.remove("drop"));
    document.addEventListener("drop", (event) => {
        event.preventDefault();
        document.body.classList.remove("drop");
        if (event.dataTransfer.files[0]) takeFile(event.dataTransfer.files[0]);
    });
}

function listen() {
    byId("hex").addEventListener("input", () => take(byId("hex").value));
    ["hex", "profile", ...LIMITS].forEach((id) => byId(id).addEventListener("input", show));
    Object.entries(SAMPLES).forEach(([name, hex]) => {
        const button = element("button", { type: "button", text: name });
        button.addEventListener("click", () => { take(hex); show(); });
        byId("samples").append(button);
    });
    listenToFiles();
    byId("bytes").addEventListener("keydown", moveByKeys);
    onWidth(show);
    window.addEventListener("hashchange", () => { if (takeAddress()) show(); });
}

function listenToTags(composer) {
    const takeMessage = (message) => {
        showTheseBytes(encode(message, { unchecked: true }));
        if (composer.isEmpty) composer.take(message.records);
    };
    ["scan", "write-tag"].forEach((id) => { byId(id).hidden = !readsTags(); });
    byId("scan").addEventListener("click", () => readTag(takeMessage));
}

// The button that takes the records of the first message into the composer.
function listenToEdit(composer) {
    byId("load").addEventListener("click", () => {
        const { profile, ...limits } = optionsOf(), numbers = Object.entries(limits).map(([name, value]) => [name, Number(value)]);
        const options = { ...Object.fromEntries(numbers), standard: profile === "standard" };
        composer.take(decodePrefix(given().bytes, options).message.records, options);
        choose("tab-write");
        byId("write-kind").focus();
    });
}

provide(code);
await Promise.all([ready(), load()]);
const usual = library().defaultLimits();
LIMITS.forEach((name) => { byId(name).value = usual[name]; });
listenToTabs();
listen();
const composer = new Composer({ look: (bytes) => { showTheseBytes(bytes); byId("hex").focus(); }, write: writeTag, read: bytesOf });
listenToTags(composer);
listenToEdit(composer);
if (!takeAddress()) take(SAMPLES["two records"]);
show();
