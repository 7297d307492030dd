// A record of a message as the library reads it.
import { utf8 } from "./bytes.js";
import { LAYOUT } from "./interface.js";
import { wordsOf } from "./memory.js";

const WORD = wordsOf(LAYOUT.item);
// How the value of an item lies in its message, as include/ndef.h numbers it. A value of another form is asked for.
export const FORM = { UTF8: 1, URI: 3 };

// Where the parts of a record lie, and the bytes of its message. Its type, id and payload are views of these bytes, made where they are asked for;
// nobody may change them.
export class Item {
    // Reads the ndef_item that begins with a word of the memory. Flags: those with which the message was checked.
    constructor(bytes, flags, words, first) {
        this.bytes = bytes;
        this.flags = flags;
        this.joined = null; // the payload of a record in chunks
        this.tnf = words[first + WORD.tnf];
        this.kind = words[first + WORD.kind];
        this.typeAt = words[first + WORD.typeAt];
        this.typeLength = words[first + WORD.typeLength];
        this.idLength = words[first + WORD.idLength];
        this.payloadAt = words[first + WORD.payloadAt];
        this.payloadLength = words[first + WORD.payloadLength];
        this.form = words[first + WORD.form];
        this.prefix = words[first + WORD.number];
        this.languageAt = words[first + WORD.languageAt];
        this.languageLength = words[first + WORD.languageLength];
        this.textAt = words[first + WORD.textAt];
        this.textLength = words[first + WORD.textLength];
    }

    get type() { return this.bytes.subarray(this.typeAt, this.typeAt + this.typeLength); }
    get id() { return this.bytes.subarray(this.payloadAt - this.idLength, this.payloadAt); }
    get payload() { return this.joined ?? this.bytes.subarray(this.payloadAt, this.payloadAt + this.payloadLength); }

    // The language of a text, and a text or the rest of a URI, in a form that is known.
    get language() { return utf8(this.bytes, this.languageAt, this.languageAt + this.languageLength); }
    get text() { return utf8(this.bytes, this.textAt, this.textAt + this.textLength); }
}
