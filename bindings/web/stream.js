// Messages of bytes that arrive in parts. A stream is a pair of a readable and a writable one: a TransformStream drops the messages before a
// refused byte that nobody has read yet.
import { joined, octets } from "./bytes.js";
import { Ndef } from "./ndef.js";
import { NdefError, library, optionsOf } from "./library.js";
import { messageOf } from "./message.js";

// The messages in bytes that arrive. It keeps the bytes of the message that goes on, and has each byte checked once.
class Arriving {
    #options;
    #state;
    #kept = []; // the parts of the message that goes on
    #length = 0; // their bytes
    #start = 0; // where this message begins, counted from the first byte that arrived

    constructor(options) {
        this.#options = optionsOf(options);
        this.#state = library().begin(this.#options);
    }

    // What ends in these bytes: messages, and then the error for the first refused one.
    take(bytes) {
        const given = octets(bytes), found = [];
        for (const { at, status, place, reason } of library().feedAll(this.#state, given, this.#options)) {
            if (status === Ndef.REFUSED) return [...found, { error: NdefError.of({ place: this.#start + place, reason }) }];
            const end = status === Ndef.OK ? at + place - this.#length : given.length;
            this.#keep(given.slice(at, end));
            if (status === Ndef.OK) found.push({ message: this.#message() });
        }
        return found;
    }

    // The error where the bytes end within a message.
    end() {
        const [{ place, reason }] = library().feedAll(this.#state, new Uint8Array(), this.#options);
        return this.#length === 0 ? [] : [{ error: NdefError.of({ place: this.#start + place, reason }) }];
    }

    #keep(bytes) {
        this.#kept.push(bytes);
        this.#length += bytes.length;
    }

    #message() {
        const message = messageOf(joined(this.#kept), this.#options.flags);
        this.#start += this.#length;
        this.#kept = [];
        this.#length = 0;
        return message;
    }
}

// A transform stream of bytes into messages (NDEFMessage), for pipeThrough. Where bytes are refused, the messages before them
// are read first, and then reading fails with the NdefError; its place counts from the first byte of the stream. Options: as
// `decode` takes them.
export class NDEFDecoderStream {
    constructor(options) {
        const arriving = new Arriving(options), put = (controller, found) => found.forEach((item) => controller.enqueue(item));
        const inner = new TransformStream({
            transform: (bytes, controller) => put(controller, arriving.take(bytes)),
            flush: (controller) => put(controller, arriving.end()),
        });
        const reader = inner.readable.getReader();
        this.writable = inner.writable;
        this.readable = new ReadableStream({
            async pull(controller) {
                const { done, value } = await reader.read();
                if (done) controller.close();
                else if (value.message) controller.enqueue(value.message);
                else {
                    controller.error(value.error);
                    await reader.cancel(value.error);
                }
            },
            cancel: (reason) => reader.cancel(reason),
        }, { highWaterMark: 0 });
    }
}
