// What may help where bytes are refused, in words for who reads them: a program's or the page's. The numbers are those of the library.
import { HINT } from "./interface.js";

const AROUND = {
    [HINT.TLV]: "in an NDEF TLV of a tag",
    [HINT.ATTRIBUTES]: "after the attribute block of a Type 3 Tag",
    [HINT.FILE]: "after its length, as in a file of a Type 4 Tag",
};
const TEXTS = {
    [HINT.TERMINATOR]: "FE (hexadecimal) ends the TLV blocks of a tag.",
    [HINT.DIGITS]: "These are hexadecimal digits, not the bytes that they spell: decode them first.",
    [HINT.XXD]: "This is a dump by xxd, not the bytes that it spells: decode its digits first.",
    [HINT.HEXDUMP]: "This is a dump by hexdump, not the bytes that it spells: decode its digits first.",
    [HINT.OD]: "This is a dump by od, not the bytes that it spells: decode its digits first.",
    [HINT.WORDS]: "This dump by od or hexdump may show numbers of two bytes, not bytes: decode a dump of single bytes.",
    [HINT.FLIPPER]: "This is a file of a Flipper, not the bytes: decode the digits of its pages first.",
    [HINT.PROXMARK]: "This is what a Proxmark prints, not the bytes: decode the digits of its blocks first.",
    [HINT.CODE]: "68 (hexadecimal) is the letter h: was the identifier code left out?",
    [HINT.UNFINISHED]: "This Type 3 Tag is being written: its attribute block says that the message is not whole yet.",
};

// The words of a program: how it takes a part of its bytes, decodes base64, and reads by the standard profile.
export const PROGRAM = {
    part: (...places) => `: read \`bytes.slice(${places.join(", ")})\``,
    base64: ", as `atob` does",
    standard: "give `{ standard: true }`",
};

// Where the bytes lie that a hint says to look at: from a place, and with a length up to another. Null where it says no such place.
export function placesOf({ hint, at, length }) {
    if (hint === HINT.MESSAGE) return [at];
    return length > 0 ? [at, at + length] : null;
}

// The sentence for a hint, as findHint of ndef.js gives it, in these words.
export function hintText(found, words) {
    const { hint, at, length } = found, places = placesOf(found), around = AROUND[hint];
    if (around !== undefined) {
        if (places === null) return "This tag is empty: it has no bytes for a message.";
        return `A message of length ${length} may begin at byte ${at}, ${around}${words.part(...places)}.`;
    }
    if (hint === HINT.MESSAGE)
        return `The bytes may begin with what surrounds a message on a tag; a message begins at byte ${at}${words.part(...places)}.`;
    if (hint === HINT.INTERRUPTED)
        return `A message may begin at byte ${at}, in an NDEF TLV of a tag, but reserved areas may lie before its end: use a reader that skips them.`;
    if (hint === HINT.BASE64) return `This may be base64, not the bytes that it spells: decode it first${words.base64}.`;
    return hint === HINT.STANDARD ? `The standard profile reads this: ${words.standard}.` : TEXTS[hint] ?? "Only a newer library knows this hint.";
}
