// Random messages, the same in each run: records of every type that the standards define, with ids and in chunks; whole ones, and
// others with one change.
let state = 2463534242;

// A number below a bound (xorshift).
export function below(bound) {
    state ^= state << 13;
    state ^= state >>> 17;
    state ^= state << 5;
    return (state >>> 0) % bound;
}

const oneOf = (...values) => values[below(values.length)];
const octets = (most) => Array.from({ length: below(most + 1) }, () => below(256));
const digits = (most) => Array.from({ length: below(most + 1) }, () => 0x30 + below(4));
const utf8 = (text) => [...Buffer.from(text, "utf8")];
const text = () => Array.from({ length: below(10) }, () => oneOf("a", "Z", " ", "é", "€", "😀", "\ufeff")).join("");

// A record or a chunk, as NDEF 1.0, 3.2 lays it out: its flags, its type, its id if it has one, and its payload.
function piece(flags, type, id, payload, isShort) {
    const short = isShort && payload.length < 256, size = payload.length;
    return [
        flags | (short ? 0x10 : 0) | (id ? 8 : 0), type.length, ...(short ? [size] : [size >>> 24, (size >>> 16) & 255, (size >>> 8) & 255, size & 255]),
        ...(id ? [id.length] : []), ...utf8(type), ...(id ?? []), ...payload,
    ];
}

// A message of records, each [type name format, type, payload]. Some have ids, which are digits, and some are in chunks.
function messageOf(records, mayChunk) {
    return records.flatMap(([tnf, type, payload], index) => {
        const begins = index ? 0 : 0x80, ends = index + 1 === records.length ? 0x40 : 0;
        const id = tnf !== 0 && below(2) ? digits(2) : null, isShort = below(4) > 0;
        if (!mayChunk || tnf === 0 || below(3)) return piece(begins | ends | tnf, type, id, payload, isShort);
        let at = below(payload.length + 1);
        const made = piece(begins | 0x20 | tnf, type, id, payload.slice(0, at), isShort);
        for (let chunks = below(4); chunks; chunks--) {
            const size = below(payload.length - at + 1);
            made.push(...piece(0x26, "", null, payload.slice(at, at + size), isShort));
            at += size;
        }
        return [...made, ...piece(ends | 6, "", null, payload.slice(at), isShort)];
    });
}

function randomText() {
    const language = oneOf("", "en", "EN", "de-AT"), head = [language.length, ...utf8(language)];
    if (below(3)) return [...head, ...utf8(text())];
    head[0] |= 0x80;
    const order = below(3), unit = order === 2 ? [0xac, 0x20] : [0x20, 0xac];
    return [...head, ...[[], [0xfe, 0xff], [0xff, 0xfe]][order], ...Array.from({ length: below(5) }, () => unit).flat()];
}

const randomUri = () => [below(0x28), ...utf8(text())];

function randomCarrier() {
    const reference = () => { const name = digits(3); return [name.length, ...name]; };
    const count = below(4);
    return [below(256), ...reference(), count, ...Array.from({ length: count }, reference).flat(), ...octets(2)];
}

// A record that stands within a poster or a handover.
const INNER = [
    () => [1, "T", randomText()], () => [1, "T", randomText()], () => [1, "act", [below(5)]], () => [1, "s", [below(256), 0, below(256), 1]],
    () => [1, "t", utf8(text())], () => [1, "ac", randomCarrier()], () => [1, "ac", randomCarrier()], () => [1, "cr", octets(3)],
    () => [1, "err", oneOf([1, 7], [2, 0, 0, 1, 0], [3, 9], [4], [200, 1, 2], [1, 7, 7])], () => [2, "image/png", octets(5)], () => [2, "video/mp4", octets(5)],
];

function nested(first) {
    const records = Array.from({ length: below(6) }, () => oneOf(...INNER)());
    records.splice(first[1] === "U" ? below(records.length + 1) : 0, 0, first);
    return messageOf(records, false);
}

// A record of a message.
const OUTER = [
    () => [1, "T", randomText()], () => [1, "T", randomText()], () => [1, "U", randomUri()],
    () => [1, "Sp", nested([1, "U", randomUri()])], () => [1, "Sp", nested([1, "U", randomUri()])],
    () => [1, "Hr", [0x10 + below(16), ...nested([1, "cr", [below(256), below(256)]])]],
    () => [1, "Hs", below(4) ? [0x13, ...nested([1, "ac", randomCarrier()])] : [0x13]], () => [1, "Hc", [below(256), 2, ...octets(6)]],
    () => oneOf([0, "", []], [5, "", [1, 2]], [7, "", [3]], [1, "x", [4]], [3, "a:b", []], [4, "a:b", [5]]),
    () => [2, "text/plain", octets(below(9) ? 20 : 400)], () => [2, "text/plain", octets(20)],
];

// A message, most of them whole; others with one byte changed, cut off or put in.
export function randomMessage() {
    const made = messageOf(Array.from({ length: 1 + below(5) }, () => oneOf(...OUTER)()), true), at = below(made.length);
    switch (below(8)) {
        case 0: made[at] = below(256); break;
        case 1: made[at] ^= 1 << below(8); break;
        case 2: made.length = at; break;
        case 3: made.splice(at, 0, below(256)); break;
        case 4: made.push(...octets(4)); break;
        default: break;
    }
    return Uint8Array.from(made);
}

// The usual limits, or small ones.
export function randomLimits() {
    const options = {};
    if (below(6) === 0) options.payload = 1 + below(20);
    if (below(6) === 0) options.records = 1 + below(3);
    if (below(6) === 0) options.chunks = 1 + below(3);
    return options;
}
