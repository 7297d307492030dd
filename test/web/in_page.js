// What stands in the page and is shown there, tested within the page itself by test/web/page.mjs, which sets CASES before this
// script. The last paragraph of the page has the failures then, and 'N passed, M failed'.
const find = (id) => document.getElementById(id);
const textOf = (id) => find(id).textContent;
const LIMITS = ["payload", "records", "chunks"];
const USUAL = { payload: 1048576, records: 1024, chunks: 4096 };
const TOO_LONG = "The page reads at most 1048576 bytes; the command ndef-explain reads more.";
const TEXT = "D1 01 08 54 02 65 6E 48 65 6C 6C 6F";

let passed = 0, failed = 0;
const report = document.createElement("p");
function look(name, got, wanted) {
    if (JSON.stringify(got) === JSON.stringify(wanted)) { passed++; return; }
    if (failed++ < 10) report.append(`FAILED: ${name}: ${JSON.stringify(got)} is not ${JSON.stringify(wanted)}. `);
}

// Types bytes, with a profile and limits.
function enter(hex, { profile = "strict", options = USUAL } = {}) {
    find("profile").value = profile;
    LIMITS.forEach((name) => { find(name).value = options[name]; });
    find("hex").value = hex;
    find("hex").dispatchEvent(new Event("input"));
}

const textsOf = (chosen, within = document) => [...within.querySelectorAll(chosen)].map((one) => one.textContent);
const spans = () => [...document.querySelectorAll("#bytes [data-at]")];
// What each record says: its title, its values, and what is said of it.
const cards = () => [...document.querySelectorAll("#record-part li")].map((card) => {
    const [names, meanings] = ["dt", "dd"].map((name) => textsOf(name, card));
    return [...textsOf("h3, .value", card), ...names.map((name, index) => `${name}: ${meanings[index]}`)];
});
const cardsOf = (hex, options) => { enter(hex, options); return cards(); };
const fields = () => [...document.querySelectorAll("#field-part tbody tr")].map((row) => [row.className, ...[...row.children].map((cell) => cell.textContent)]);
const colours = () => textsOf("#legend li");
const labels = () => spans().map((span) => span.getAttribute("aria-label"));

function isSpan(span, [begins, name, colour], place) {
    const label = span.getAttribute("aria-label");
    return label.startsWith(begins) && label.includes(name) && span.classList[0] === colour && span.dataset.at === String(place);
}

function showsCases() {
    CASES.forEach((one) => {
        enter(one.hex, one);
        const name = `${one.hex} ${one.profile}`, shown = spans(), wrong = one.spans.findIndex((wanted, place) => !shown[place] || !isSpan(shown[place], wanted, place));
        look(name, [textOf("verdict"), find("verdict").className], [one.verdict, one.color]);
        if (one.rows) look(name, fields().filter(([kind, , , field]) => kind !== "remark" && field).slice(0, one.rows.length).map(([, at, , field]) => [at, field]), one.rows);
        look(name, [shown.length, shown[wrong]?.outerHTML], [one.count, undefined]);
    });
}

// RTD Text, RTD URI, RTD Smart Poster and Connection Handover 1.2 say what these hold.
function showsValues() {
    look("a text", cardsOf(TEXT), [["Text", "Hello", "language: en"]]);
    look("a text without a language, in UTF-16", cardsOf("D1010554 80 FEFF 0061"), [["Text", "a", "language: none"]]);
    look("lines of a text", cardsOf("D1010954 02 656E 61 0D0A 62 0D 63"), [["Text", "a\nb\nc", "language: en"]]);
    look("a mark of direction in a text", cardsOf("D1010754 02 656E 61 E280AE")[0][1], "a\\u{202e}");
    look("a URI", cardsOf("D1010255 0161"), [["URI", "http://www.a"]]);
    look("a poster", cardsOf("D1021553 70 9101025500 61 1101045402656E41 510301616374 02"), [["Smart poster", "a", "A", "language: en", "action: 2 open"]]);
    look("a poster with an icon", cardsOf("D1020D5370 910102550061 52030161 2F6278"), [["Smart poster", "a"]]);
    look("a size", cardsOf("D1020E5370 910102550061 51010473 00010203"), [["Smart poster", "a", "size: 66051"]]);
    look("a carrier", cardsOf("D102064863 0203612F6201"), [["Handover carrier", "carrier type format: 2 media", 'carrier type: "a/b"']]);
    look("a request", cardsOf("91021148721291020263721234510204616301013000 5A030401612F623001020304"), [
        ["Handover request", "version: 1.2", "random number: 4660", 'carrier "0": active, record 2'], ["Media type a/b", 'id: "0"', "payload: 4 bytes: 01 02 03 04"],
    ]);
    look("a carrier of no record", cardsOf("D1020A4873 12 D102046163 01 01 30 00"), [["Handover select", "version: 1.2", 'carrier "0": active, no record']]);
    look("an error", cardsOf("D1020C4873 14 D10305657272 02 00000104"), [["Handover select", "version: 1.4", "error reason: 2 permanent memory"]]);
    look("other types", cardsOf("91010178 54 140300613A62 130300613A62 150000 500000").map(([title]) => title),
        ["Well-known type x", "External type a:b", "Absolute URI a:b", "Unknown", "Empty"]);
}

function showsPayloads() {
    const long = Array.from({ length: 33 }, () => "41").join(" ");
    look("a payload of 33 bytes", cardsOf(`D5 00 21 ${long}`), [["Unknown", `payload: 33 bytes: ${long.slice(3)} …`]]);
    look("a payload of 32 bytes", cardsOf(`D5 00 20 ${long.slice(3)}`), [["Unknown", `payload: 32 bytes: ${long.slice(3)}`]]);
    look("two chunks", [cardsOf("B5 00 01 41 56 00 01 42"), colours()], [[["Unknown", "payload: 2 bytes in 2 chunks: 41 42"]], ["head: flags and lengths", "payload"]]);
    look("a text in chunks", cardsOf("B1010154 02 36 0003 656E48 56 0001 69"), [["Text", "Hi", "language: en", "payload: 5 bytes in 3 chunks: 02 65 6E 48 69"]]);
    look("text of media types", ["D20A02 746578742F706C61696E 6869", "D21004 6170706C69636174696F6E2F6A736F6E 7B0D0A7D", "D20A01 746578742F706C61696E FF"].map((hex) => cardsOf(hex)[0][1]),
        ["hi", "{\n}", "payload: 1 byte: FF"]);
    look("bytes that are no characters", cardsOf("DA 03 01 02 61 2F 7F 69 0A 00")[0], ["Media type a/\\x7f", 'id: "i\\x0a"', "payload: 1 byte: 00"]);
    enter("D102065370 D10102550061");
    look("nested bytes", labels().slice(4), [
        'Byte 4: 70 "p", record 1, TYPE "Sp"', "Byte 5: D1, record 1.1, header MB ME SR TNF 1 well-known", "Byte 6: 01, record 1.1, TYPE_LENGTH 1",
        "Byte 7: 02, record 1.1, PAYLOAD_LENGTH 2", 'Byte 8: 55 "U", record 1.1, TYPE "U"', "Byte 9: 00, record 1.1, identifier code 0 no prefix",
        'Byte 10: 61 "a", record 1.1, URI "a"',
    ]);
    const begins = () => spans().filter((span) => span.classList.contains("begin")).map((span) => span.dataset.at);
    const names = () => labels().map((label) => /record ([0-9.]+)/.exec(label)[1]).join(" ");
    enter("D1020B4872 12 910202637212 34 500000");
    look("where the records of a handover begin", [begins(), names()], [["0", "6", "13"], "1 1 1 1 1 1 1.1 1.1 1.1 1.1 1.1 1.1 1.1 1.2 1.2 1.2"]);
    enter("91020653 70 D10102550061 51020653 70 D10102550062".replaceAll(" ", ""));
    look("where those of two posters begin", [begins(), names()], [["0", "5", "11", "16"], "1 1 1 1 1 1.1 1.1 1.1 1.1 1.1 1.1 2 2 2 2 2 2.1 2.1 2.1 2.1 2.1 2.1"]);
    enter("B102015370 91 56000C 0102550061 51030161637401");
    look("a poster in chunks", [begins(), new Set(names().split(" ")).size, cards()[0].slice(0, 3)], [["0"], 1, ["Smart poster", "a", "action: 1 save"]]);
}

// The grid of the bytes, and the table of the fields; docs/EXPLAIN.md says what each means.
function showsRows() {
    const grid = () => [...document.querySelectorAll("#bytes [role=row]")].map((row) => [row.children[0].textContent, row.querySelector(".text").textContent]);
    enter(`D1 01 0C 55 01 ${"61 ".repeat(11)}`);
    look("a whole row", grid(), [["0", "···U·aaaaaaaaaaa"]]);
    enter(`D1 01 0D 55 01 ${"61 ".repeat(12)}`);
    look("a row and a byte", grid(), [["0", "···U·aaaaaaaaaaa"], ["16", "a"]]);
    look("the columns", textsOf("#field-part thead th"), ["Byte", "Bytes", "Field", "Meaning"]);
    enter("D00000 D102075370 D1010355 04 6162");
    look("each meaning, with places in the input", fields(), [
        ["begin", "0", "D0", "header", "MB ME SR TNF 0 empty"], ["", "1", "00", "TYPE_LENGTH", "0"], ["", "2", "00", "PAYLOAD_LENGTH", "0"],
        ["begin", "3", "D1", "header", "MB ME SR TNF 1 well-known"], ["", "4", "02", "TYPE_LENGTH", "2"], ["", "5", "07", "PAYLOAD_LENGTH", "7"],
        ["", "6", "53 70", "TYPE", '"Sp"'], ["nested begin", "8", "D1", "header", "MB ME SR TNF 1 well-known"], ["nested", "9", "01", "TYPE_LENGTH", "1"],
        ["nested", "10", "03", "PAYLOAD_LENGTH", "3"], ["nested", "11", "55", "TYPE", '"U"'], ["nested", "12", "04", "identifier code", '4 "https://"'],
        ["nested", "13", "61 62", "URI", '"ab"'],
    ]);
    enter("B1010154 02 36 0003 656E0A 56 0001 69");
    look("the fields of joined chunks", fields().slice(-5), [["", "14", "69", "PAYLOAD", ""],
        ["title", "Payload of record 1, 5 bytes: its chunks joined, and counted from its first byte"], ["", "0", "02", "status", "UTF-8, language code of 2"],
        ["", "1", "65 6E", "language code", '"en"'], ["", "3", "0A 69", "text", '"\\x0ai"']]);
    enter(`D5 00 08 ${"61 ".repeat(8)}`);
    look("a field of 8 bytes", fields().at(-1), ["", "3", "61 ".repeat(8).trim(), "PAYLOAD", ""]);
    enter(`D5 00 09 ${"61 ".repeat(9)}`);
    look("a field of 9 bytes", fields().at(-1), ["", "3", `${"61 ".repeat(8)}…`, "PAYLOAD", ""]);
    enter(`C101 00000200 54 02 656E${"61".repeat(509)}`);
    look("a long text", [cards()[0][1].length, fields().at(-1)[4].length, labels().at(-1)], [509, 402, 'Byte 518: 61 "a", record 1, text']);
    enter(`C101 00000A00 54 02 656E${"61".repeat(2557)}`);
    look("a longer one", cards()[0][1], `${"a".repeat(2000)} …`);
    enter("D1010154 FF");
    look("the refused byte", fields().at(-1), ["why", "4", "FF", "status", "refused: Bit 6 of the status octet of a text is reserved: it has to be 0."]);
    enter("D00000".repeat(200));
    look("at most 500 fields", [fields().length, textsOf("#field-part p")], [500, ["Only the first 500 rows are shown."]]);
}

// The remarks on records and on fields, each with the record or the field that it follows; docs/EXPLAIN.md has them.
function showsRemarks() {
    const onRecords = () => [...document.querySelectorAll("#record-part .remark")].map((remark) => [remark.closest("li").value, remark.textContent]);
    const onFields = () => [...document.querySelectorAll("#field-part .remark")].map((row) => [row.previousSibling.children[2].textContent, row.textContent]);
    const remarksOn = (hex) => { enter(hex); return [onRecords(), onFields()]; };
    const again = "Another record has the same id.", long = "The payload length 0 fits one octet (SR): the message could be 3 bytes shorter.";
    look("remarks on two of three records", remarksOn("9D000001 61 1D000001 62 5D000001 61"), [[[1, again], [3, again]], []]);
    look("a remark on a field of the second message", remarksOn("D00000 C00000000000"), [[], [["PAYLOAD_LENGTH", long]]]);
    look("remarks on neither where the message is refused", remarksOn("9D000001 61 0D0000000000 01 61 D7"), [[], []]);
}

// What may help where bytes are refused, and the button that does it. The kinds and the places are those of test/faces/hints.txt.
function showsHints() {
    const hintsOn = (hex) => { enter(hex); return textsOf("#hint:not([hidden])"); };
    const pressed = () => {
        document.querySelector("#hint button").click();
        return [find("hex").value, textOf("verdict"), find("hint").hidden];
    };
    look("no hint for a message, nor for bytes after one", [hintsOn(TEXT), find("hint").hidden, hintsOn(`${TEXT} 01 D00000`)], [[], true, []]);
    look("a tag's memory", hintsOn("E1101200 030CD101085402656E48656C6C6FFE"), ["A message of length 12 may begin at byte 6, in an NDEF TLV of a tag. Look from byte 6"]);
    look("its message", pressed(), [TEXT, "1 message, 1 record, 12 bytes", true]);
    look("a message after another byte", hintsOn("01 D00000"),
        ["The bytes may begin with what surrounds a message on a tag; a message begins at byte 1. Look from byte 1"]);
    look("that message", pressed(), ["D0 00 00", "1 message, 1 record, 3 bytes", true]);
    look("an empty tag", hintsOn("E1101200 0300FE"), ["This tag is empty: it has no bytes for a message. "]);
    look("digits as bytes", hintsOn("44 30 20 30 30 30 30"), ["These are digits, not the bytes that they spell; `--hex` reads them. Read what they spell"]);
    look("those bytes", pressed(), ["D0 0000", "1 message, 1 record, 3 bytes", true]);
    look("base64 as bytes", hintsOn([..."0QEIVAJlbkhlbGxv"].map((letter) => letter.charCodeAt(0).toString(16)).join("")),
        ["This may be base64, not the bytes that it spells; `base64 -d` gives them. Read what they spell"]);
    look("the bytes of base64", [...pressed().slice(1), textOf("form")], ["1 message, 1 record, 12 bytes", true, "Read as base64."]);
    look("reserved values", hintsOn("D7000161"), ["The standard profile reads this (`--profile standard`, in C NDEF_STANDARD). Read by the standard profile"]);
    look("read by the standard", [...pressed().slice(1), find("profile").value], ["1 message, 1 record, 4 bytes", true, "standard"]);
    look("what was wanted, and no hint", [hintsOn("D10106543F6162636465"), textOf("verdict")],
        [[], "Refused at byte 4, reason 23, DoesNotFit: The language code has 63 octets; 5 are left in the payload."]);
}

function showsMessages() {
    enter("D00000 D00000 D10101540 0");
    look("three messages", textOf("verdict"), "3 messages, 3 records, 11 bytes");
    look("their titles", textsOf("#record-part h2"), ["Message 1, at byte 0", "Message 2, at byte 3", "Message 3, at byte 6"]);
    look("the third one's bytes", labels()[7], "Byte 7: 01, record 1, TYPE_LENGTH 1");
    enter(TEXT);
    look("one title", textsOf("#record-part h2"), ["Records"]);
    enter("D00000 D70000");
    look("a refused second", [textOf("verdict"), spans()[3].className, spans()[4].className, textOf("detail"), textsOf("#record-part .why")], [
        "1 message, 1 record, 3 bytes, then refused at byte 3, reason 1, ReservedTnf: The type name format 7 is reserved.", "refused", "rest", "Byte 3: D7, refused", [],
    ]);
    enter("910103 54 42656E 510104 55 01612E62");
    look("what follows a refused payload", [cards(), textsOf("#record-part h2, #record-part .why"), textOf("sound"), [...document.querySelectorAll("#record-part li")].map(({ value }) => value)], [
        [["Text"], ["URI", 'identifier code: 1 "http://www."', 'URI: "a.b"']],
        ["Records", "Refused at byte 4: Bit 6 of the status octet of a text is reserved: it has to be 0."], "Records that are valid: 1 of 2.", [1, 2],
    ]);
    look("its bytes", labels().slice(4, 8), ['Byte 4: 42 "B", refused', 'Byte 5: 65 "e", not looked at', 'Byte 6: 6E "n", not looked at', 'Byte 7: 51 "Q", record 2, header ME SR TNF 1 well-known']);
    const many = "D00000".repeat(1000);
    enter(`${many}D7`);
    look("what isn't shown", textsOf(".gap"), ["888 bytes not shown"]);
    look("the refused byte far down", [spans().length, document.querySelector(".refused").dataset.at], [2048 + 65, "3000"]);
    look("the first byte before it that is shown", labels()[2048], "Byte 2936: 00, record 1, PAYLOAD_LENGTH 0");
    enter(many);
    look("the end that isn't shown", [textsOf(".gap"), spans().length, textOf("verdict")], [["952 bytes not shown"], 2048, "1000 messages, 1000 records, 3000 bytes"]);
    look("five hundred records", [cards().length, textsOf("#record-part > p")], [500, ["Only the first 500 records are listed."]]);
    enter("D00000".repeat(25000));
    look("too much to show", [/^[0-9]+ messages, [0-9]+ records, [0-9]+ bytes; the rest is too much for this page: the command ndef-explain reads it\.$/.test(textOf("verdict")), find("verdict").className,
        spans().length], [true, "bad", 2048]);
    enter(`900000${"100000".repeat(29998)}500000`, { options: { ...USUAL, records: 65535 } });
    look("a message that is too much to show", [textOf("verdict"), cards(), spans().length],
        ["0 messages, 0 records, 0 bytes; the rest is too much for this page: the command ndef-explain reads it.", [], 2048]);
    enter("");
    look("no bytes", [textOf("verdict"), find("verdict").className, find("shown").hidden], ["There are no bytes.", "bad", true]);
}

function takesDigits() {
    ["d1-01:08,54,02 65\n6E 48 65 6C 6C 6F", "0xD1 0x01 0X08 54 02 65 6E 48 65 6C 6C 6F", "209 1 8 84 2 101 110 72 101 108 108 111", "d1\u00a001 08 54 02 65 6e 48 65 6c 6c 6f"].forEach((hex) => {
        enter(hex);
        look(hex, textOf("verdict"), "1 message, 1 record, 12 bytes");
    });
    enter("D1 0G");
    look("no digit", [textOf("verdict"), find("verdict").className, spans().length, cards().length, colours(), textOf("detail"), find("shown").hidden],
        ["Bad digit at 3.", "bad", 0, 0, [], "", true]);
    enter("D1 0");
    look("an odd number", textOf("verdict"), "Odd number of digits.");
    LIMITS.forEach((name) => {
        enter("D00000", { options: { ...USUAL, [name]: 0 } });
        look(`no ${name}`, textOf("verdict"), "A limit is out of range.");
        find(name).value = 1;
        find(name).dispatchEvent(new Event("input"));
        look(`one of ${name}`, textOf("verdict"), "1 message, 1 record, 3 bytes");
    });
    [["strict", ""], ["standard", "&standard"]].forEach(([profile, words]) => {
        enter(TEXT, { profile });
        look(`the link${words}`, find("link").getAttribute("href"), `#${TEXT.replaceAll(" ", "")}${words}`);
    });
    find("profile").value = "strict";
    find("profile").dispatchEvent(new Event("input"));
    look("another profile", find("link").getAttribute("href"), `#${TEXT.replaceAll(" ", "")}`);
    enter("D00000".repeat(174763));
    look("an input that is too long", textOf("verdict"), TOO_LONG);
}

function press(key) {
    const event = new KeyboardEvent("keydown", { key, bubbles: true, cancelable: true });
    document.activeElement.dispatchEvent(event);
    return [Number(document.activeElement.dataset.at), event.defaultPrevented];
}

function moves() {
    enter("90000010000010000010000010000010000010000010000010000010000010000010000010000010000050000 0");
    const all = spans(), row = find("bytes").querySelector("[role=row]").querySelectorAll("[data-at]").length;
    look("the first byte is reached by the tab key", all.map((span) => span.tabIndex).filter((index) => index === 0).length, 1);
    all[0].focus();
    look("the detail of the first", textOf("detail"), "Byte 0: 90, record 1, header MB SR TNF 0 empty");
    look("to the right and left", [press("ArrowRight"), press("ArrowRight"), press("ArrowLeft")], [[1, true], [2, true], [1, true]]);
    look("down and up", [press("ArrowDown"), press("ArrowUp")], [[1 + row, true], [1, true]]);
    look("to the ends", [press("End"), press("ArrowRight"), press("Home"), press("ArrowLeft")], [[all.length - 1, true], [all.length - 1, true], [0, true], [0, true]]);
    look("no other key", press("x"), [0, false]);
    press("ArrowRight");
    look("the tab key follows", [all[0].tabIndex, all[1].tabIndex, textOf("detail")], [-1, 0, "Byte 1: 00, record 1, TYPE_LENGTH 0"]);
    all[3].dispatchEvent(new MouseEvent("mouseenter"));
    look("the mouse shows a byte", textOf("detail"), "Byte 3: 10, record 2, header SR TNF 0 empty");
    all[5].click();
    look("a click moves there", document.activeElement.dataset.at, "5");
}

// Read and Write: which part is shown, and which tab the tab key reaches.
function hasTabs() {
    const state = () => ["read", "write"].map((name) => [find(`tab-${name}`).getAttribute("aria-selected"), find(`tab-${name}`).tabIndex, find(name).hidden]);
    const reads = [["true", 0, false], ["false", -1, true]], writes = [["false", -1, true], ["true", 0, false]];
    const pressed = (key) => { press(key); return [document.activeElement.id, state()]; };
    look("the page reads at first", state(), reads);
    find("tab-write").click();
    look("it writes", state(), writes);
    find("tab-write").focus();
    look("arrows, Home and End", ["ArrowRight", "ArrowLeft", "Home", "End", "ArrowLeft", "x"].map(pressed),
        [["tab-read", reads], ["tab-write", writes], ["tab-read", reads], ["tab-write", writes], ["tab-read", reads], ["tab-read", reads]]);
    look("their panels", [...document.querySelectorAll("[role=tabpanel]")].map((panel) => find(panel.getAttribute("aria-labelledby")).textContent), ["Read", "Write"]);
}

// The samples, by their names: what the standards say of their bytes, and what their records hold.
const LINK = "http://www.example.com", GREETING = ["Text", "Grüße", "language: de"];
const SAMPLES = {
    "text": ["1 message, 1 record, 12 bytes", ["Text", "Hello", "language: en"]],
    "URI": ["1 message, 1 record, 16 bytes", ["URI", LINK]],
    "smart poster": ["1 message, 1 record, 42 bytes", ["Smart poster", LINK, "Grüße", "language: de", "action: 0 do"]],
    "two records": ["1 message, 2 records, 30 bytes", ["URI", LINK], GREETING],
    "chunks": ["1 message, 1 record, 18 bytes", ["Text", "Hello", "language: en", "payload: 8 bytes in 3 chunks: 02 65 6E 48 65 6C 6C 6F"]],
    "handover": [
        "1 message, 2 records, 34 bytes", ["Handover request", "version: 1.2", "random number: 4660", 'carrier "0": active, record 2'],
        ["Media type a/b", 'id: "0"', "payload: 4 bytes: 01 02 03 04"],
    ],
    "not UTF-8": ["Refused at byte 24, reason 17, Utf8: The text is not UTF-8."],
    "reserved": ["Refused at byte 0, reason 1, ReservedTnf: The type name format 7 is reserved."],
    "cut off": ["Refused at byte 9 (the end of the input), reason 24, EndOfInput: 3 octets of the payload are missing."],
};

function hasSamples() {
    const buttons = [...document.querySelectorAll("#samples button")];
    look("the samples", buttons.map((button) => button.textContent), Object.keys(SAMPLES));
    enter("");
    buttons.forEach((button) => {
        const [verdict, ...held] = SAMPLES[button.textContent] ?? [];
        button.click();
        look(`the sample ${button.textContent}`, textOf("verdict"), verdict);
        if (held.length) look(`what the sample ${button.textContent} holds`, cards(), held);
    });
}

const later = (holds) => new Promise((done) => {
    const wait = (left) => (holds() || left === 0 ? done() : setTimeout(wait, 5, left - 1));
    wait(200);
});

async function takesFiles() {
    const given = new DataTransfer(), file = (...bytes) => new File([Uint8Array.from(bytes)], "tag");
    enter("");
    given.items.add(file(0xd0, 0, 0));
    find("file").files = given.files;
    find("file").dispatchEvent(new Event("change"));
    await later(() => find("hex").value !== "");
    look("a file", [find("hex").value, textOf("verdict")], ["D0 00 00", "1 message, 1 record, 3 bytes"]);
    const other = new DataTransfer(), over = new DragEvent("dragover", { cancelable: true });
    other.items.add(file(0xd5, 0, 1, 7));
    document.dispatchEvent(over);
    look("something above the page", [over.defaultPrevented, document.body.classList.contains("drop")], [true, true]);
    document.dispatchEvent(new DragEvent("dragleave"));
    look("it is gone", document.body.classList.contains("drop"), false);
    document.dispatchEvent(new DragEvent("dragover", { cancelable: true }));
    const drop = new DragEvent("drop", { dataTransfer: other, cancelable: true });
    document.dispatchEvent(drop);
    await later(() => find("hex").value !== "D0 00 00");
    look("a file that is dropped", [find("hex").value, textOf("verdict"), document.body.classList.contains("drop"), drop.defaultPrevented],
        ["D5 00 01 07", "1 message, 1 record, 4 bytes", false, true]);
    await takesLargeFile(file(0xc5, 0, 0, 1, 0, 0, ...new Array(65536).fill(7)));
    for (const [given, wanted] of [[new File(["d0\t00\r\n00"], "text"), ["d0\t00\n00", "1 message, 1 record, 3 bytes"]], [new File([new Uint8Array(1048577)], "long"), ["", TOO_LONG]]]) {
        const held = new DataTransfer();
        held.items.add(given);
        document.dispatchEvent(new DragEvent("drop", { dataTransfer: held, cancelable: true }));
        await later(() => find("hex").value === wanted[0] && textOf("verdict") === wanted[1]);
        look(`the file ${given.name}`, [find("hex").value, textOf("verdict")], wanted);
    }
}

// The bytes of a large file aren't spelled out, and are looked at until others are entered.
async function takesLargeFile(large) {
    const given = new DataTransfer(), shown = () => [find("hex").value, find("hex").placeholder, textOf("verdict"), find("link").hidden];
    given.items.add(large);
    document.dispatchEvent(new DragEvent("drop", { dataTransfer: given, cancelable: true }));
    await later(() => find("hex").placeholder !== "");
    const wanted = ["", "65542 bytes of the file tag", "1 message, 1 record, 65542 bytes", true];
    look("a large file", shown(), wanted);
    find("payload").dispatchEvent(new Event("input"));
    look("another limit", shown(), wanted);
    enter("D00000");
    look("bytes after it", shown(), ["D00000", "", "1 message, 1 record, 3 bytes", false]);
}

async function takesAddresses() {
    const open = async (hash) => {
        const before = find("hex").value;
        location.hash = hash;
        await later(() => find("hex").value !== before);
        return [find("hex").value, find("profile").value, textOf("verdict")];
    };
    look("an address", await open("D70000&standard"), ["D7 00 00", "standard", "1 message, 1 record, 3 bytes"]);
    look("another", await open("D1010154FF"), ["D1 01 01 54 FF", "strict", "Refused at byte 4, reason 15, TextBit: Bit 6 of the status octet of a text is reserved: it has to be 0."]);
    find("tab-write").click();
    look("one with a wrong digit", await open("D0zz"), ["D0zz", "strict", "Bad digit at 2."]);
    look("an address is read", find("read").hidden, false);
}

async function readsTags() {
    let fail;
    look("the button is there", find("scan").hidden, false);
    window.scanned = Promise.resolve();
    find("scan").click();
    await later(() => textOf("tag-part") !== "");
    look("a tag is waited for", textOf("tag-part"), "Hold a tag to the device.");
    const data = new DataView(Uint8Array.of(9, 0x48, 0x69, 9).buffer, 1, 2), records = [{ recordType: "text", data, lang: "de", encoding: "utf-8", mediaType: null, id: null }, { recordType: "mime", mediaType: "a/b", id: "i", data: null }];
    window.reader.dispatchEvent(Object.assign(new Event("reading"), { serialNumber: "04:1", message: { records } }));
    look("what the browser reads", [...document.querySelectorAll("#tag-part li, #tag-part h2")].map((item) => item.textContent),
        ["Tag 04:1", "text  : 48 69", "mime a/b i: "]);
    look("as bytes", find("hex").value, "91 01 05 54 02 64 65 48 69 5A 03 00 01 61 2F 62 69");
    window.reader.dispatchEvent(Object.assign(new Event("reading"), { serialNumber: "04:2", message: { records: [{ recordType: "other" }] } }));
    look("what this page has no name for", textOf("tag-part"), 'Tag 04:2What the browser read. There is no record type "other".other  : ');
    look("bytes stay", find("hex").value.length, 50);
    window.reader.dispatchEvent(new Event("readingerror"));
    look("a tag that fails", textOf("tag-part"), "The tag can't be read.");
    window.reader.dispatchEvent(Object.assign(new Event("reading"), { serialNumber: "04:3", message: { records: [] } }));
    look("an empty tag", textOf("tag-part"), "Tag 04:3The tag is empty: it holds no records.");
    window.reader.dispatchEvent(Object.assign(new Event("reading"), { serialNumber: "04:3", message: { records: [{ recordType: ":T", data: null }] } }));
    look("a tag with a text of no bytes", [find("hex").value, find("verdict").className], ["D1 01 00 54", "bad"]);
    const { reader, signal } = window;
    find("scan").click();
    look("a second click makes no second reader", [window.reader === reader, signal.aborted, find("scan-stop").hidden], [true, false, false]);
    find("scan-stop").click();
    look("reading is stopped", [signal.aborted, find("scan-stop").hidden, textOf("tag-part")], [true, true, "No more tags are read."]);
    reader.dispatchEvent(Object.assign(new Event("reading"), { serialNumber: "04:4", message: { records } }));
    look("a stopped reader reads nothing", textOf("tag-part"), "No more tags are read.");
    window.scanned = new Promise((_, refuse) => { fail = refuse; });
    find("scan").click();
    fail(new Error("not allowed"));
    await later(() => textOf("tag-part").startsWith("No tag"));
    look("no tag", textOf("tag-part"), "No tag can be read: not allowed");
}

async function run() {
    await later(() => textOf("verdict") !== "");
    if (textOf("verdict") === "") return;
    look("what is shown first", [textOf("verdict"), LIMITS.map((name) => Number(find(name).value))], [SAMPLES["two records"][0], Object.values(USUAL)]);
    [showsCases, showsValues, showsPayloads, showsRows, showsRemarks, showsHints, showsMessages, takesDigits, moves, hasTabs, hasSamples].forEach((test) => test());
    await takesFiles();
    await takesAddresses();
    await readsTags();
    report.append(`${passed} passed, ${failed} failed`);
    report.id = "report";
    document.body.append(report);
}

run().catch((error) => { report.append(`FAILED: ${error.stack} 0 passed, 1 failed`); report.id = "report"; document.body.append(report); });
