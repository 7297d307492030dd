// What ndef-explain says, which runs within the page: the bytes that a text spells, and what each byte of messages is.
import { Program } from "./page_program.js";
import packed from "./commands_wasm.mjs";
import { capital } from "./page_elements.js";

const MOST_READ = 1048576, MOST_SAID = 8388608; // bytes of an input, and of an answer
const TOO_LONG = `The page reads at most ${MOST_READ} bytes; the command ndef-explain reads more.`;
const FORMS = {
    xxd: "output of xxd", hexdump: "output of hexdump", od: "output of od", flipper: "a file of a Flipper", proxmark: "output of a Proxmark",
};
const LEAST_BASE64 = 8; // characters that are taken for base64, since shorter ones are rather mistyped digits
const BAD_WORDS = 2; // the status for limits that are out of range

let program = null;

// Loads ndef-explain, once, before the calls below.
export async function load() { program = await Program.load(packed); }

function joined(parts) {
    const whole = new Uint8Array(parts.reduce((length, part) => length + part.length, 0));
    parts.reduce((at, part) => { whole.set(part, at); return at + part.length; }, 0);
    return whole;
}

// Runs ndef-explain with some words. Answers its status, what it wrote, and whether that was cut.
function run(words, input) {
    const parts = [];
    let length = 0, isCut = false;
    const status = program.run(["ndef-explain", ...words], input, (part) => {
        isCut = length + part.length > MOST_SAID;
        if (!isCut) parts.push(part.slice());
        length += part.length;
        return !isCut;
    });
    return { status, said: joined(parts), isCut };
}

const textOf = (octets) => new TextDecoder().decode(octets);

// The lines of an answer in JSON. Each part of it has whole lines.
const linesOf = ({ said }) => textOf(said).split("\n").filter((line) => line !== "").map((line) => JSON.parse(line));

const hintOn = (octets) => linesOf(run(["--json"], octets))[0]?.hint?.kind;

// The bytes of base64, of its alphabet for URLs too, with or without = at its end; or null.
function ofBase64(text) {
    const letters = text.replace(/\s*\r?\n\s*/g, "").trim().replaceAll("-", "+").replaceAll("_", "/"), bare = letters.replace(/={0,2}$/, "");
    if (letters.length < LEAST_BASE64 || !/^[A-Za-z0-9+/]+$/.test(bare)) return null;
    if (bare.length % 4 === 1 || (bare !== letters && letters.length % 4)) return null;
    // Digits alone are rather hexadecimal ones, of which one is missing.
    if (!/[^0-9a-f]/i.test(bare)) return null;
    return Uint8Array.from(atob(bare), (letter) => letter.charCodeAt(0));
}

// The bytes that a text spells and the form in which it has them, if that isn't digits; or what is wrong with it. What is copied from a page may have
// other blanks than those of ASCII.
export function bytesOf(text) {
    const octets = new TextEncoder().encode(text.replace(/[^\S\t\r\n]/g, " "));
    if (octets.length > MOST_READ) return { wrong: TOO_LONG };
    const { status, said } = run(["--hex", "--raw"], octets);
    if (status === 0) return { bytes: said, form: FORMS[hintOn(octets)] ?? "" };
    const [why] = textOf(run(["--hex"], octets).said).split("\n"), bytes = ofBase64(text);
    return bytes ? { bytes, form: "base64" } : { wrong: `${capital(why.replace("hex: ", ""))}.` };
}

// The text of a file that spells bytes, or null if it has the bytes themselves.
export function textOfFile(bytes) {
    const isText = bytes.every((byte) => (byte >= 0x20 && byte < 0x7f) || byte === 9 || byte === 10 || byte === 13);
    return isText && bytes.length > 0 && bytesOf(textOf(bytes)).bytes ? textOf(bytes) : null;
}

// The fields of a line, each with the number of its record: 2, or 2.1 within the payload of record 2. A header with the format `unchanged` begins no record.
function numbered({ fields, follows = 0 }) {
    let outer = follows, inner = 0;
    return fields.map((field) => {
        const begins = field.name === "header" && !field.meaning.endsWith(" unchanged");
        if (field.depth === 0 && begins) inner = 0;
        if (begins) field.depth === 0 ? outer++ : inner++;
        return { ...field, begins, record: field.depth === 0 ? `${outer}` : `${outer}.${inner}` };
    });
}

// What bytes are, in the objects of docs/explain.schema.json with numbered fields, and whether more would follow; or what is wrong.
export function explain(bytes, { payload, records, chunks, profile }) {
    if (bytes.length > MOST_READ) return { wrong: TOO_LONG };
    const answer = run(["--json", "--payload", `${payload}`, "--records", `${records}`, "--pieces", `${chunks}`, "--profile", profile], bytes);
    if (answer.status === BAD_WORDS) return { wrong: "A limit is out of range." };
    const lines = linesOf(answer), fault = lines.find((line) => line.fault)?.fault;
    if (fault) return { wrong: `${capital(fault)}.` };
    return { lines: lines.map((line) => (line.fields ? { ...line, fields: numbered(line) } : line)), isCut: answer.isCut };
}
