// node test/web/page_lines.mjs: opens the page from disk with bytes in its address, and looks for lines of text in it, one after
// another, or for how bytes are read aloud. Prints 'N passed, M failed'.
import { fileURLToPath } from "node:url";
import { Browser } from "./browser.mjs";

const PAGE = `file://${fileURLToPath(new URL("../../out/web/index.html", import.meta.url))}`;
const READY = 'document.getElementById("verdict").textContent !== ""';

// What is opened: a name, the bytes with the words after them, and the lines.
const LINES = [
    ["a text", "D101085402656E48656C6C6F", "1 message, 1 record, 12 bytes", "Text", "Hello", "language", "en", "Byte 0: D1, record 1, header MB ME SR TNF 1 well-known", "status",
        "UTF-8, language code of 2"],
    ["a handover and its link", "910211487212910202637212345102046163010130005A030401612F623001020304", "1 message, 2 records, 34 bytes",
        "Handover request", "version", "1.2", "random number", "4660", 'carrier "0"', "active, record 2", "Media type a/b"],
    ["what is wrong with digits", "D1010754026", "Odd number of digits."],
    ["what is refused by the strict profile", "D70000", "Refused at byte 0, reason 1, ReservedTnf: The type name format 7 is reserved.",
        "The standard profile reads this (`--profile standard`, in C NDEF_STANDARD). Read by the standard profile", "Byte 0: D7, refused"],
    ["the same by the standard", "D70000&standard", "1 message, 1 record, 3 bytes", "Reserved"],
    ["where the input is cut off", "D101085402656E48", "Refused at byte 8 (the end of the input), reason 24, EndOfInput: 4 octets of the payload are missing.",
        "Byte 8: the end of the input"],
    ["what is valid in a broken message", "D00000D00000 91010255006191010255006251010154FF".replaceAll(" ", ""),
        "2 messages, 2 records, 6 bytes, then refused at byte 12, reason 3, BeginAgain: MB is set again, though the message has begun.",
        "Message 1, at byte 0", "Message 2, at byte 3", "Message 3, at byte 6", '"a"'],
    ["all messages", "D00000".repeat(200), "200 messages, 200 records, 600 bytes", "Message 200, at byte 597"],
    ["a type that JavaScript knows as a name", "D109015F5F70726F746F5F5F00", "1 message, 1 record, 13 bytes", "Well-known type __proto__"],
    ["digits with 0x", "0xD0,0x00,0x00", "1 message, 1 record, 3 bytes"],
    ["a text in UTF-16", "D101075482656EFEFF0061", "a", "en", "UTF-16, language code of 2", "byte order mark"],
    ["marks of direction as escapes", "D101085402656E61E280AE62", "a\\u{202e}b"],
    ["a URI with one", "D101075500413AE280AE62", "A:\\u{202e}b"],
    ["the text of a payload of JSON", "D21009" + "6170706C69636174696F6E2F6A736F6E" + "7B2261223A20317D0A", '{"a": 1}'],
    ["a poster, its action and its size", "D1021553709101025500611103016163740151010473000003E8", "Smart poster", "a", "action", "1 save", "size", "1000"],
    ["the action do it", "D1020D537091010255006151030161637400", "0 do"],
    ["the action open it", "D1020D537091010255006151030161637402", "2 open"],
    ["each power state", "D10225487312910204616300013000110204616301013000110204616302013000510204616303013000", "1.2",
        "inactive, no record", "active, no record", "activating, no record", "unknown, no record", "0 inactive", "1 active", "2 activating", "3 unknown"],
    ["the error of a select", "D10209487312D103026572720105", "1.2", "1 temporary memory"],
    ["each type name format", "90000011010078120300612F62130300613A62140300613A62550000", "Empty", "Well-known type x", "Media type a/b", "Absolute URI a:b",
        "External type a:b", "Unknown", "MB SR TNF 0 empty", "SR TNF 1 well-known", "SR TNF 2 media", "SR TNF 3 absolute URI", "SR TNF 4 external", "ME SR TNF 5 unknown"],
    ["chunks", "B10101540056000178", "x", "2 bytes in 2 chunks: 00 78", "MB CF SR TNF 1 well-known", "ME SR TNF 6 unchanged"],
];
// The same of labels, in any order.
const LABELS = [
    ["the fields of nested records", "D102065370D10102550061", 'Byte 4: 70 "p", record 1, TYPE "Sp"', "Byte 5: D1, record 1.1, header MB ME SR TNF 1 well-known",
        "Byte 9: 00, record 1.1, identifier code 0 no prefix", 'Byte 10: 61 "a", record 1.1, URI "a"'],
    ["bytes that aren't looked at", "D70000", "Byte 0: D7, refused", "Byte 1: 00, not looked at"],
];

let passed = 0, failed = 0;
function count(name, missing) {
    if (missing === undefined) passed++;
    else { failed++; console.log(`FAILED: the page shows ${name}: no ${JSON.stringify(missing)}`); }
}

const browser = await Browser.start();
try {
    for (const [name, hash, ...lines] of LINES) {
        await browser.open(`${PAGE}#${hash}`, READY);
        const rest = (await browser.evaluate('document.body.innerText.split(/[\\n\\t]/).map((line) => line.trim())')).values();
        count(name, lines.find((line) => { for (const next of rest) if (next === line) return false; return true; }));
    }
    for (const [name, hash, ...labels] of LABELS) {
        await browser.open(`${PAGE}#${hash}`, READY);
        const found = await browser.evaluate('[...document.querySelectorAll("[aria-label]")].map((one) => one.getAttribute("aria-label"))');
        count(name, labels.find((label) => !found.includes(label)));
    }
    await browser.open(PAGE, READY);
    const hidden = await browser.evaluate('["scan", "write-tag"].map((id) => getComputedStyle(document.getElementById(id)).display).join()');
    count("no buttons for tags where the browser reads none", hidden === "none,none" ? undefined : hidden);
    browser.faults.forEach((fault) => count("no fault", fault));
} finally {
    await browser.stop();
}
console.log(`${passed} passed, ${failed} failed`);
process.exit(failed || !passed ? 1 : 0);
