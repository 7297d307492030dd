// node test/web/page.mjs <LINES: tests the page in a browser, with a script that runs in it (in_page.js) and with what it has to show: for
// each case of the suite, given as lines on standard input, the verdict of the case, and the fields of its bytes as the library
// has them. Prints 'N passed, M failed'.
import { readFileSync } from "node:fs";
import { fileURLToPath } from "node:url";
import { Ndef } from "../../out/web/ndef.js";
import { Browser } from "./browser.mjs";

const at = (path) => new URL(path, import.meta.url);
const ndef = await Ndef.load(readFileSync(at("../../out/web/ndef.wasm")));
const fromHex = (text) => Uint8Array.from(Buffer.from(text.replace(/[ -]/g, ""), "hex"));
const plural = (count, word) => `${count} ${word}${count === 1 ? "" : "s"}`;
const ascii = (octet) => (octet >= 0x20 && octet <= 0x7e ? String.fromCharCode(octet) : null);
const upper = (octets) => [...octets].map((octet) => octet.toString(16).padStart(2, "0").toUpperCase()).join(" ");

// What colours there are, and the fields that have them.
const COLOURS = {
    head: ["header", "TYPE_LENGTH", "PAYLOAD_LENGTH", "ID_LENGTH"], type: ["TYPE", "carrier type"], id: ["ID"], language: ["language code"],
    value: ["text", "URI", "media type", "carrier data reference", "auxiliary data reference", "error data", "carrier data"],
};
const colourOf = (name) => Object.keys(COLOURS).find((colour) => COLOURS[colour].includes(name)) ?? "payload";
const shown = (bytes, place) => {
    const character = ascii(bytes[place]);
    return `Byte ${place}: ${upper([bytes[place]])}${character === null ? "" : ` "${character}"`}`;
};

// The bytes up to the refused one, each as [how its label begins, what it has, its colour].
function spansOf(bytes, fields, refused) {
    const names = [], records = refused === null ? ndef.records(bytes) : [], last = Math.min(bytes.length, refused === null ? Infinity : refused + 1);
    for (const field of fields) for (let place = field.at; place < field.at + field.length; place++) names[place] = field.name;
    const spans = Array.from(bytes.subarray(0, last), (_, place) => {
        const index = records.findIndex((record) => place < record.end), record = index < 0 ? "" : `, record ${index + 1}`;
        if (place === refused) return [shown(bytes, place), "refused", "refused"];
        return [shown(bytes, place) + record, names[place], colourOf(names[place])];
    });
    return refused === bytes.length ? [...spans, [`Byte ${refused}: the end of the input`, "", "refused"]] : spans;
}

function caseOf(fields, profile) {
    const [, , , , , , limits, hex, answer, records] = fields, bytes = fromHex(hex), words = limits.split(" ");
    const flags = profile === "standard" ? Ndef.STANDARD : 0, options = ndef.defaultLimits();
    for (const name of ["payload", "records", "pieces"]) if (words.includes(name)) options[name === "pieces" ? "chunks" : name] = Number(words[words.indexOf(name) + 1]);
    if (bytes.length === 0) return null; // the page waits for bytes
    const [word, place, number] = answer.split(" "), all = ndef.fields(bytes, { ...options, flags }).fields;
    const common = { hex: upper(bytes), profile, options, rows: all.map(({ at, name }) => [`${at}`, name]) };
    if (word === "accepted") {
        if (Number(place) !== bytes.length) return null; // more bytes follow
        const verdict = `1 message, ${plural(records.split(",").length, "record")}, ${plural(bytes.length, "byte")}`;
        return { ...common, verdict, color: "good", count: bytes.length, spans: spansOf(bytes, all, null) };
    }
    const reason = word === "more" ? 24 : Number(number), end = Number(place) === bytes.length;
    const why = ndef.why(bytes, { ...options, flags }) ?? ndef.reasonSentence(reason);
    const verdict = `Refused at byte ${place}${end ? " (the end of the input)" : ""}, reason ${reason}, ${ndef.reasonName(reason)}: ${why}`;
    return { ...common, verdict, color: "bad", count: bytes.length + (end ? 1 : 0), spans: spansOf(bytes, all, Number(place)) };
}

const cases = [];
for (const line of readFileSync(0, "utf8").split("\n").filter(Boolean)) {
    const fields = line.split("|").map((field) => field.trim());
    if (fields[7].length > 1200) continue;
    if (!fields[4].split(" ").includes("typed")) continue;
    for (const profile of fields[5] === "both" ? ["strict", "standard"] : [fields[5]]) cases.push(caseOf(fields, profile));
}

// A browser that reads and writes tags; tests say how.
const READER = `window.NDEFReader = class extends EventTarget {
    constructor() { super(); window.reader = this; }
    async scan({ signal }) { window.signal = signal; await window.scanned; }
    async write(message) { window.wanted = message; await window.writing; }
};`;

// What the policy of the page has to refuse: a script, a style, a picture, a frame, a base and a request that aren't its own.
const STRANGE = `new Promise((done) => {
    const refused = new Set(), WANTED = 6;
    document.addEventListener("securitypolicyviolation", ({ effectiveDirective }) => {
        if (refused.add(effectiveDirective).size === WANTED) done([...refused].sort().join(" "));
    });
    setTimeout(() => done([...refused].sort().join(" ")), 5000);
    const put = (name, members) => document.body.append(Object.assign(document.createElement(name), members));
    put("script", { textContent: "window.strange = 1" });
    put("style", { textContent: "body { color: red }" });
    put("img", { src: "https://example.org/a.png" });
    put("iframe", { src: "https://example.org/" });
    put("base", { href: "https://example.org/" });
    fetch("https://example.org/").catch(() => {});
})`;

const browser = await Browser.start();
try {
    await browser.send("Page.addScriptToEvaluateOnNewDocument", { source: READER });
    await browser.open(`file://${fileURLToPath(at("../../out/web/index.html"))}`, 'document.getElementById("verdict").textContent !== ""');
    await browser.evaluate(`{ window.CASES = ${JSON.stringify(cases.filter(Boolean))};\n${readFileSync(at("./in_page.js"), "utf8")} }`);
    await browser.until('document.getElementById("report")?.textContent');
    const report = await browser.evaluate('document.getElementById("report").textContent');
    console.log(report.replaceAll(". FAILED", ".\nFAILED").replace(/([0-9]+ passed, [0-9]+ failed)$/, "\n$1").trim());
    process.exitCode = / passed, 0 failed$/.test(report) && browser.faults.length === 0 ? 0 : 1;
    browser.faults.forEach((fault) => console.log(`FAILED: ${fault}`));
    const refused = await browser.evaluate(STRANGE);
    if (refused !== "base-uri connect-src frame-src img-src script-src-elem style-src-elem") {
        console.log(`FAILED: the policy of the page refuses ${refused}`);
        process.exitCode = 1;
    }
} finally {
    await browser.stop();
}
