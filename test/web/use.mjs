// node test/web/use.mjs FOLDER: uses the page in a browser as people do: keys, files, pasted dumps, the form that writes. Looks at
// what a screen reader is given, at colours, widths and requests, and keeps pictures in FOLDER. Prints 'N passed, M failed'.
import { execFileSync } from "node:child_process";
import { mkdtempSync, rmSync, writeFileSync } from "node:fs";
import { tmpdir } from "node:os";
import { join } from "node:path";
import { fileURLToPath } from "node:url";
import { Browser } from "./browser.mjs";

const PAGE = `file://${fileURLToPath(new URL("../../out/web/index.html", import.meta.url))}`;
const READY = 'document.getElementById("verdict").textContent !== ""';
const pictures = process.argv[2];
const READER = `window.NDEFReader = class extends EventTarget {
    async scan() {}
    async write(message, { overwrite, signal }) {
        window.writes = (window.writes ?? 0) + 1;
        if (window.refused) throw new Error(window.refused);
        if (window.full && !overwrite) throw new DOMException("The tag is full.", "NotAllowedError");
        await window.held;
        if (signal.aborted) throw signal.reason;
        window.written = message;
    }
};`;

let passed = 0, failed = 0;
function look(name, got, wanted) {
    if (JSON.stringify(got) === JSON.stringify(wanted)) { passed++; return; }
    failed++;
    console.log(`FAILED: ${name}: ${JSON.stringify(got)} is not ${JSON.stringify(wanted)}`);
}

const browser = await Browser.start(), folder = mkdtempSync(join(tmpdir(), "use-"));
const text = (id) => browser.evaluate(`document.getElementById("${id}").textContent`);
const value = (id) => browser.evaluate(`document.getElementById("${id}").value`);
const focused = () => browser.evaluate('document.activeElement.id || document.activeElement.getAttribute("aria-label") || document.activeElement.textContent');
const focus = (id) => browser.evaluate(`document.getElementById("${id}").focus()`);
const give = (id, given) => browser.evaluate(`{ const one = document.getElementById("${id}"); one.value = ${JSON.stringify(given)};
    one.dispatchEvent(new Event("input")); }`);
const click = (id) => browser.evaluate(`document.getElementById("${id}").click()`);
const press = async (...keys) => { for (const key of keys) await browser.press(key); };
const add = async (kind, fields) => {
    await give("write-kind", kind);
    for (const [name, given] of Object.entries(fields)) {
        if (given === true) await browser.evaluate(`document.getElementById("field-${name}").checked = true`);
        else await give(`field-${name}`, given);
    }
    await browser.evaluate('document.getElementById("write-form").requestSubmit()');
};

// ---- what is pasted, and files

// Memory of tags, laid out as the specifications of the Forum have it: a Type 2 tag that is blank, one with a text before a row of zeros, and one whose
// text is cut short; Type 1 tags, static and dynamic; a Type 2 tag with control TLVs; a file of Type 4; Type 5; and a message alone. Each with the bytes
// of its message, or the end of what is said instead.
const TEXT = "d101085402656e48656c6c6f", ZEROS = "00".repeat(64), PAGES = "04a1b2c3d4e5f60718480000e1101200", BLOCK = "04a1b2c3d4e5f600";
const TAGS = [
    [`${PAGES}0300fe${ZEROS}`, "This tag is empty: it has no bytes for a message. "], [`${PAGES}030c${TEXT}fe${ZEROS}`, TEXT],
    [`${PAGES}030c${TEXT.slice(0, 16)}`, "8 of 12 bytes are there. "], [`${BLOCK}e1100e00030c${TEXT}fe${ZEROS}`, TEXT],
    [`${BLOCK}e1103f000103f230330203f00203030c${TEXT}fe${ZEROS}`, TEXT], [`${PAGES}0103a010440203b01002030c${TEXT}fe${ZEROS}`, TEXT],
    [`000c${TEXT}`, TEXT], [`e1401001030c${TEXT}fe00`, TEXT], [TEXT, TEXT],
];

// What ten tools print of a file, each with what the page says of the form.
function printedOf(file, bytes) {
    const made = (program, ...words) => execFileSync(program, [...words, file], { encoding: "utf8" }), digits = bytes.toString("hex");
    const pairs = digits.match(/../g), xxd = "Read as output of xxd.", hexdump = "Read as output of hexdump.", od = "Read as output of od.";
    return [
        [made("xxd"), xxd], [made("xxd", "-g1", "-u"), xxd], [made("xxd", "-a"), xxd], [made("xxd").replaceAll("\n", "\r\n"), xxd], [made("hexdump", "-C"), hexdump],
        [made("hexdump", "-vC"), hexdump], [made("od", "-tx1"), od], [made("od", "-An", "-tx1", "-v"), ""], [made("xxd", "-p"), ""], [made("xxd", "-i"), ""],
        [pairs.join(":"), ""], [pairs.map((pair) => `0x${pair}`).join(", "), ""], [`{ ${pairs.map((pair) => `0x${pair}`).join(", ")} };`, ""],
        [`[${[...bytes].join(", ")}]`, ""], [made("base64"), "Read as base64."], [bytes.toString("base64url"), "Read as base64."],
    ];
}

const shownBytes = () => browser.evaluate('[...document.querySelectorAll("#bytes [data-at]")].map((one) => one.textContent).filter((one) => one !== "end").join("")');

// Each dump gives the bytes, and the button of the hint the message.
async function dumps() {
    const file = join(folder, "tag.bin");
    for (const [digits, message] of TAGS) {
        const bytes = Buffer.from(digits, "hex");
        writeFileSync(file, bytes);
        for (const [printed, form] of printedOf(file, bytes)) {
            await give("hex", printed);
            look(`bytes pasted as ${JSON.stringify(printed)}`, [await shownBytes(), await text("form")], [digits.toUpperCase(), form]);
            if (message === digits) continue;
            if (message !== TEXT) {
                look("what is said instead", [(await text("hint")).endsWith(message), await browser.evaluate('document.querySelectorAll("#hint button").length')], [true, 0]);
                continue;
            }
            await browser.evaluate('document.querySelector("#hint button").click()');
            look("its message", [await shownBytes(), await browser.evaluate('document.querySelector("#record-part .value").textContent')], [message.toUpperCase(), "Hello"]);
        }
    }
    for (const [wrong, said] of [["0QEI", "Bad digit at 1."], ["D1 0G D1 0G", "Bad digit at 3."], ["QUJD*EFG", "Bad digit at 0."], ["D1010754026", "Odd number of digits."],
        [execFileSync("hexdump", [file], { encoding: "utf8" }), "Words, not bytes: use hexdump -C or od -tx1."]]) {
        await give("hex", wrong);
        look(`${wrong} isn't taken`, [await text("verdict"), await text("form"), await text("field-part")], [said, "", ""]);
    }
    return { file, hex: TEXT.toUpperCase().match(/../g).join(" ") };
}

async function files({ file, hex }) {
    const { root } = await browser.send("DOM.getDocument"), { nodeId } = await browser.send("DOM.querySelector", { nodeId: root.nodeId, selector: "#file" });
    await give("hex", "");
    await browser.send("DOM.setFileInputFiles", { nodeId, files: [file] });
    await browser.until('document.getElementById("hex").value !== ""');
    look("a file that is chosen", await value("hex"), hex);
    const dump = join(folder, "tag.txt"), printed = execFileSync("xxd", [file], { encoding: "utf8" });
    writeFileSync(dump, printed);
    const data = { items: [], files: [dump], dragOperationsMask: 1 };
    for (const type of ["dragEnter", "dragOver", "drop"]) await browser.send("Input.dispatchDragEvent", { type, x: 20, y: 300, data });
    await browser.until('document.getElementById("form").textContent !== ""');
    look("a dump that is dropped", [await value("hex"), await text("form")], [printed, "Read as output of xxd."]);
}

// ---- what is written. NDEF 1.0 and the record types say what the bytes are.

const KINDS = [
    ["Text", { data: "Hi", lang: "de", id: "a" }, "D9 01 05 01 54 61 02 64 65 48 69"],
    ["Text", { data: "€", lang: "", utf16: true }, "D1 01 05 54 80 FE FF 20 AC"],
    ["URI", { data: "https://www.a.b/" }, "D1 01 05 55 02 61 2E 62 2F"],
    ["Smart poster", { uri: "tel:1", titles: "en: A\nde: B", action: "save it", size: "16", mediaType: "a/b" },
        "D1 02 2C 53 70 91 01 02 55 05 31 11 01 04 54 02 65 6E 41 11 01 04 54 02 64 65 42 11 03 01 61 63 74 01 11 01 04 73 00 00 00 10 51 01 03 74 61 2F 62"],
    ["Handover request", { collision: "258", carriers: "active b\nunknown w x" },
        "D1 02 1C 48 72 12 91 02 02 63 72 01 02 11 02 04 61 63 01 01 62 00 51 02 06 61 63 03 01 77 01 01 78"],
    ["Handover select", { carriers: "Inactive b", reason: "2", number: "260" }, "D1 02 15 48 73 12 91 02 04 61 63 00 01 62 00 51 03 05 65 72 72 02 00 00 01 04"],
    ["Handover select", { carriers: "", reason: "" }, "D1 02 01 48 73 12"],
    ["Media type", { mediaType: "a/b", payload: "x€" }, "D2 03 04 61 2F 62 78 E2 82 AC"],
    ["Media type", { mediaType: "a/b", payload: "00 ff", layout: "bytes (hexadecimal or base64)", id: "0" }, "DA 03 02 01 61 2F 62 30 00 FF"],
    ["External type", { type: "a.b:c", payload: "" }, "D4 05 00 61 2E 62 3A 63"],
    ["Absolute URI", { type: "a:b" }, "D3 03 00 61 3A 62"],
    ["Unknown", { payload: "1" }, "D5 00 01 31"],
    ["Another well-known type", { type: "Sig", payload: "0102", layout: "bytes (hexadecimal or base64)" }, "D1 03 02 53 69 67 01 02"],
    ["Empty", {}, "D0 00 00"],
];
const FAULTS = [
    ["Text", { data: "a", lang: "ä" }, "A text can't be written: its language is not ASCII"],
    ["Smart poster", { uri: "a", titles: "Hello" }, "A title begins with its language and a colon, as “en: Hello”: “Hello”"],
    ["Smart poster", { uri: "a", size: "x" }, "The size is a whole number, not “x”"],
    ["Handover select", { carriers: "on b" }, "A carrier is inactive, active, activating, unknown, and then an id: “on b”"],
    ["Handover request", { collision: "65536", carriers: "" },
        "A handover request can't be written: its random number is above 65535"],
    ["Media type", { mediaType: "", payload: "" }, "A record can't be written: a record of its type name format needs a type"],
    ["Unknown", { payload: "0g", layout: "bytes (hexadecimal or base64)" }, "Bad digit at 1."],
    ["Text", { data: "a", lang: "en", id: "x".repeat(256) }, "A record can't be written: its id has more than 255 bytes"],
];

async function writes() {
    for (const [kind, fields, wanted] of KINDS) {
        await click("write-clear");
        await add(kind, fields);
        look(`${kind} ${JSON.stringify(fields)}`, [await value("write-hex"), await text("write-fault")], [wanted, ""]);
        look(`the size of ${kind}`, await text("write-size"), `1 record, ${wanted.split(" ").length} bytes`);
        look(`ids with ${kind}`, await browser.evaluate('[...document.querySelectorAll("[id]")].filter((one) => document.getElementById(one.id) !== one).length'), 0);
        await click("write-look");
        look(`${kind} is a message`, [await value("hex"), await browser.evaluate('document.getElementById("verdict").className')], [wanted, "good"]);
    }
    for (const [kind, fields, wanted] of FAULTS) {
        await click("write-clear");
        await add(kind, fields);
        look(`${kind} ${JSON.stringify(fields)}`, [await text("write-fault"), await value("write-hex")], [wanted, ""]);
    }
}

// Type 2 tags: 03, the length in one byte or in three, and the message; NXP says what an NTAG213, 215 and 216 are delivered with.
// A URI that is copied from elsewhere has its scheme.
async function pasted() {
    await click("tab-write");
    await click("write-clear");
    for (const [kind, field] of [["URI", "data"], ["Smart poster", "uri"], ["Absolute URI", "type"]]) {
        await give("write-kind", kind);
        await focus(`field-${field}`);
        await browser.send("Input.insertText", { text: "https://www.a.b/" });
        look(`a URI is pasted into ${kind}`, await value(`field-${field}`), "https://www.a.b/");
    }
}

async function fits() {
    const fitOf = async (length) => {
        await click("write-clear");
        await add("Unknown", { payload: "x".repeat(length - (length > 258 ? 6 : 3)) });
        return [await text("write-size"), ...await browser.evaluate('[...document.querySelectorAll("#write-fit li")].map((one) => `${one.className} ${one.textContent}`)')];
    };
    look("137 bytes", await fitOf(137), ["1 record, 137 bytes", "good NTAG213: fits, 0 bytes left", "good NTAG215: fits, 357 bytes left", "good NTAG216: fits, 733 bytes left"]);
    look("138 bytes", (await fitOf(138))[1], "bad NTAG213: 1 byte too large");
    look("254 bytes", (await fitOf(254)).slice(2), ["good NTAG215: fits, 240 bytes left", "good NTAG216: fits, 616 bytes left"]);
    look("255 bytes", (await fitOf(255)).slice(2), ["good NTAG215: fits, 237 bytes left", "good NTAG216: fits, 613 bytes left"]);
    look("492 bytes", (await fitOf(492))[2], "good NTAG215: fits, 0 bytes left");
    look("493 bytes", (await fitOf(493))[2], "bad NTAG215: 1 byte too large");
    look("868 bytes", (await fitOf(868))[3], "good NTAG216: fits, 0 bytes left");
    look("870 bytes", (await fitOf(870))[3], "bad NTAG216: 2 bytes too large");
}

async function lists() {
    const listed = () => browser.evaluate('[...document.querySelectorAll("#write-list li span")].map((one) => one.textContent)');
    await click("tab-write");
    await click("write-clear");
    look("nothing yet", [await text("write-size"), await browser.evaluate('["write-look", "write-clear", "write-tag"].every((id) => document.getElementById(id).disabled)')],
        ["No records yet.", true]);
    await add("Text", { data: "a", lang: "en", id: "x" });
    await add("URI", { data: "b" });
    await add("Empty", {});
    look("three records", [await listed(), await text("write-size")], [["text, id “x”: a", "url: b", "empty: 0 bytes"], "3 records, 19 bytes"]);
    const button = (label) => browser.evaluate(`document.querySelector('[aria-label="${label}"]').focus()`).then(() => press("Enter"));
    await button("Move down record 1");
    look("one is moved down", [await listed(), await focused()], [["url: b", "text, id “x”: a", "empty: 0 bytes"], "Move down record 2"]);
    await button("Move up record 2");
    look("and up", [await listed(), await focused()], [["text, id “x”: a", "url: b", "empty: 0 bytes"], "Move down record 1"]);
    await button("Remove record 2");
    look("one is removed", [await listed(), await focused()], [["text, id “x”: a", "empty: 0 bytes"], "Remove record 2"]);
    await button("Remove record 2");
    await button("Remove record 1");
    look("all are removed", [await listed(), await focused(), await value("write-hex")], [[], "write-kind", ""]);
}

async function tags() {
    await click("write-clear");
    await add("URI", { data: "https://a.b", id: "i" });
    await add("Media type", { mediaType: "a/b", payload: "x" });
    await click("write-tag");
    await browser.until('document.getElementById("written").textContent === "The tag is written."');
    look("what is written to a tag", await browser.evaluate('window.written.records.map(({ data, ...rest }) => ({ ...rest, data: String(data) }))'),
        [{ recordType: "url", id: "i", data: "https://a.b" }, { recordType: "mime", mediaType: "a/b", data: "120" }]);
    await browser.evaluate('window.writes = 0; window.held = new Promise((done) => { window.release = done; }); 0');
    await click("write-tag");
    await click("write-tag");
    look("a second click writes nothing", [await browser.evaluate("window.writes"), await browser.evaluate('document.getElementById("write-stop").hidden')], [1, false]);
    await click("write-stop");
    await browser.evaluate("window.release()");
    await browser.until('document.getElementById("written").textContent === "Nothing is written."');
    await browser.evaluate('window.held = null; window.full = true; window.asked = []; window.confirm = (text) => { window.asked.push(text); return window.asked.length > 1; }');
    await click("write-tag");
    await browser.until('document.getElementById("written").textContent === "The tag isn\'t written: The tag is full."');
    await browser.evaluate("window.written = null");
    await click("write-tag");
    await browser.until('document.getElementById("written").textContent === "The tag is written."');
    look("a tag is overwritten where that is wanted", await browser.evaluate("[window.asked, window.written !== null]"),
        [Array(2).fill("The tag is full.\nOverwrite what the tag holds?"), true]);
    await browser.evaluate('window.full = false; window.refused = "no tag"');
    await click("write-tag");
    await browser.until('document.getElementById("written").textContent.includes("no tag")');
    look("a tag that can't be written", await text("written"), "The tag isn't written: no tag");
}

// What the page shows goes into the composer, and its records are replaced where that is wanted alone; a record whose payload is none isn't added.
async function loads() {
    const listed = () => browser.evaluate('[...document.querySelectorAll("#write-list li span")].map((one) => one.textContent)');
    await browser.evaluate('window.refused = undefined; window.asked = []; window.confirm = (text) => { window.asked.push(text); return false; }');
    await click("write-clear");
    await add("Another well-known type", { type: "T", payload: "x" });
    look("a text that is none", [(await text("write-fault")).startsWith("Record 1 is refused at its byte 4: "), await listed()], [true, []]);
    await add("Text", { data: "a\u202eb" });
    look("another after it", [await text("write-fault"), await listed()], ["", ["text: a\\u{202e}b"]]);
    await give("hex", "91 01 02 55 00 61 50 00 00");
    await click("load");
    look("records stay", [await listed(), await browser.evaluate("window.asked")], [["text: a\\u{202e}b"], ["Replace 1 record of the new message?"]]);
    await browser.evaluate("window.confirm = () => true");
    await click("load");
    look("records are taken", [await listed(), await focused(), await value("write-hex")], [["url: a", "empty: 0 bytes"], "write-kind", "91 01 02 55 00 61 50 00 00"]);
    await give("hex", "D1");
    look("what is refused isn't taken", await browser.evaluate('document.getElementById("load").hidden'), true);
    await browser.evaluate('navigator.clipboard.writeText = async (text) => { window.copied = text; }');
    await click("write-copy");
    await browser.until('document.getElementById("written").textContent === "The bytes are copied."');
    look("the bytes are copied", await browser.evaluate("window.copied"), "91 01 02 55 00 61 50 00 00");
    await browser.evaluate('HTMLAnchorElement.prototype.click = function () { window.saved = this.download; window.blob = this.href.slice(0, 5); }');
    await click("write-save");
    look("the bytes are kept", await browser.evaluate("[window.saved, window.blob]"), ["message.ndef", "blob:"]);
    await give("profile", "standard");
    await give("hex", "91 01 02 55 24 61 50 00 00");
    await click("load");
    await add("Empty", {});
    look("records that were read by the standards", [await value("write-hex"), await text("write-fault")], ["91 01 02 55 24 61 10 00 00 50 00 00", ""]);
}

// ---- keys, what is read aloud, colours and widths

const ORDER = ["tab-read", "hex", "file", "scan", "link", "text", "URI", "smart poster", "two records", "chunks", "handover", "not UTF-8", "reserved", "cut off",
    "Profile and limits", "load", "Byte 0: 91, record 1, header MB SR TNF 1 well-known"];
const ORDER_OF_WRITING = ["tab-write", "write-kind", "field-data", "field-lang", "field-utf16", "field-id", "Add this record", "write-hex"];

async function keys() {
    await browser.open(PAGE, READY);
    const orderOf = async (count) => { const order = []; while (order.length < count) { await press("Tab"); order.push(await focused()); } return order; };
    look("the order of the tab key", await orderOf(ORDER.length), ORDER);
    await browser.evaluate('document.querySelector("#bytes [data-at]").focus()');
    await press("ArrowRight", "ArrowDown", "End", "Home", "PageDown", "ArrowRight");
    look("arrow keys in the bytes", await text("detail"), "Byte 1: 01, record 1, TYPE_LENGTH 1");
    await focus("tab-read");
    await press("ArrowRight");
    look("the order where it writes", ["tab-write", ...await orderOf(ORDER_OF_WRITING.length - 1)], ORDER_OF_WRITING);
    await focus("field-data");
    await browser.type("Hi");
    await focus("field-id");
    await press("Enter");
    look("the enter key adds a record", await value("write-hex"), "D1 01 05 54 02 65 6E 48 69");
    await click("tab-read");
    await browser.evaluate('document.querySelector("summary").focus()');
    await press("Enter");
    look("the enter key opens the options", await browser.evaluate('document.querySelector("details").open'), true);
}

async function read() {
    await browser.open(`${PAGE}#D70000`, READY);
    await browser.evaluate('document.querySelectorAll("details").forEach((one) => { one.open = true; })');
    const { nodes } = await browser.send("Accessibility.getFullAXTree"), shown = nodes.filter(({ ignored }) => !ignored);
    const of = (role) => shown.filter((node) => node.role.value === role).map((node) => node.name?.value ?? "");
    const roles = ["button", "textbox", "combobox", "checkbox", "spinbutton", "link", "gridcell", "rowheader", "grid", "table", "list", "region", "alert", "tab", "tabpanel"];
    look("controls without a name", roles.filter((role) => of(role).includes("") && role !== "alert" && role !== "list"), []);
    look("the headings", of("heading"), ["NDEF", "Bytes", "Fields"]);
    look("the parts", [of("tab"), of("tabpanel"), of("region")], [["Read", "Write"], ["Read"], ["Input", "Answer", "Tag", "Records", "Bytes", "Fields"]]);
    look("the bytes", of("gridcell"), ["Byte 0: D7, refused", "Byte 1: 00, not looked at", "Byte 2: 00, not looked at"]);
    look("what is said where it changes", shown.filter((node) => node.properties?.some(({ name, value: { value } }) => name === "live" && value !== "off"))
        .map((node) => node.role.value).sort(), ["paragraph", "region", "status"]);
    look("the language and the title", await browser.evaluate('[document.documentElement.lang, document.title]'), ["en", "NDEF: read and write messages of NFC tags"]);
}

// The least contrast of text with what is behind it, as WCAG 2 defines it.
const CONTRAST = `(() => {
    const parse = (colour) => colour.match(/[0-9.]+/g).map(Number);
    const light = (colour) => parse(colour).slice(0, 3).map((part) => part / 255).map((part) => (part <= 0.03928 ? part / 12.92 : ((part + 0.055) / 1.055) ** 2.4))
        .reduce((sum, part, index) => sum + part * [0.2126, 0.7152, 0.0722][index], 0);
    const backgroundOf = (one) => { for (; one; one = one.parentElement) { const colour = getComputedStyle(one).backgroundColor; if (parse(colour)[3] !== 0) return colour; } };
    const faint = [];
    for (const one of document.body.querySelectorAll("*")) {
        const own = [...one.childNodes].some((node) => node.nodeType === 3 && node.textContent.trim()) || one.matches("textarea, input, select");
        if (!own || one.disabled || one.matches("script, style") || !one.checkVisibility()) continue;
        const [high, low] = [light(getComputedStyle(one).color), light(backgroundOf(one) ?? "rgb(255, 255, 255)")].sort((a, b) => b - a);
        if ((high + 0.05) / (low + 0.05) < 4.5) faint.push(one.outerHTML.slice(0, 80));
    }
    return faint;
})()`;

// Where the system has colours of its own, the fields keep theirs.
async function forced() {
    await browser.send("Emulation.setEmulatedMedia", { features: [{ name: "forced-colors", value: "active" }] });
    await browser.open(`${PAGE}#D101085402656E48656C6C6F`, READY);
    const colours = await browser.evaluate('[...new Set([...document.querySelectorAll("#bytes [data-at]")].map((one) => getComputedStyle(one).backgroundColor))].length');
    look("fields have colours where colours are forced", colours > 3, true);
    await browser.send("Emulation.setEmulatedMedia", { features: [] });
}

async function looks() {
    const bytes = "91021148721291020263721234510204616301013000110108540265 6E48656C6C6F5101075402656EC3286F6B".replaceAll(" ", "");
    for (const [name, width, colours] of [["page", 1280, "light"], ["page-dark", 1280, "dark"], ["page-narrow", 390, "light"], ["page-narrow-dark", 390, "dark"], ["page-least", 320, "light"]]) {
        await browser.size(width, 900);
        await browser.colours(colours);
        await browser.open(`${PAGE}#${bytes}`, READY);
        await browser.evaluate('document.querySelectorAll("details").forEach((one) => { one.open = true; })');
        await add("Text", { data: "A text of some length, which a narrow page has to break: Donaudampfschifffahrtsgesellschaft", lang: "de" });
        await add("Handover select", { carriers: "active b" });
        await click("tab-write");
        look(`${name} where it writes`, [await browser.evaluate("document.documentElement.scrollWidth"), await browser.evaluate(CONTRAST)], [width, []]);
        await browser.picture(join(pictures, `${name}-write.png`));
        await click("tab-read");
        look(`${name} is as wide as its window`, await browser.evaluate("document.documentElement.scrollWidth"), width);
        look(`the text of ${name} is seen`, await browser.evaluate(CONTRAST), []);
        look(`rows of ${name}`, await browser.evaluate('document.querySelector("#bytes [role=row]").querySelectorAll("[data-at]").length'), width < 640 ? 8 : 16);
        look(`characters of ${name}`, (await browser.evaluate('document.querySelector("#bytes .text").textContent')).slice(0, 8), "···Hr···");
        await browser.size(width, await browser.evaluate("document.documentElement.scrollHeight"));
        await browser.picture(join(pictures, `${name}.png`));
    }
}

try {
    await browser.send("Page.addScriptToEvaluateOnNewDocument", { source: READER });
    await browser.size(1100, 900);
    await browser.open(PAGE, READY);
    await files(await dumps());
    for (const test of [writes, pasted, fits, lists, tags, loads, keys, read, forced, looks]) await test();
    look("requests", [...new Set(browser.requests.map((url) => url.split("#")[0]))], [PAGE]);
    look("faults", browser.faults, []);
} finally {
    await browser.stop();
    rmSync(folder, { recursive: true });
}
console.log(`${passed} passed, ${failed} failed`);
process.exit(failed || !passed ? 1 : 0);
