// Tags, by Web NFC. It gives and takes records, and not the bytes of a message: the library makes bytes of what it gives.
import { NDEFMessage } from "./record.js";
import { byId, capital, element, toHex, visible } from "./page_elements.js";

export const readsTags = () => "NDEFReader" in window;

// Work with a tag, of which one of each kind goes on at a time; a button stops it.
class Going {
    constructor(stop) {
        this.stop = byId(stop);
        this.stop.addEventListener("click", () => this.end());
        this.control = null;
    }

    // The signal that ends the work; null where it goes on already.
    begin() {
        if (this.control !== null) return null;
        this.control = new AbortController();
        this.stop.hidden = false;
        return this.control.signal;
    }

    end() {
        this.control?.abort();
        this.control = null;
        this.stop.hidden = true;
    }
}

let reading = null, writing = null;

function itemOf({ recordType, mediaType, id, data }) {
    const bytes = data ? new Uint8Array(data.buffer, data.byteOffset, data.byteLength) : new Uint8Array();
    return element("li", { text: visible(`${recordType} ${mediaType ?? ""} ${id ?? ""}: ${toHex(bytes)}`) });
}

// Shows the records that the browser has read, and gives the message to `take`.
function showTag(say, take, serialNumber, records) {
    const list = element("ul", {}, ...Array.from(records, itemOf)), title = element("h2", { text: `Tag ${serialNumber}` });
    if (records.length === 0) return say(title, element("p", { text: "The tag is empty: it holds no records." }));
    try {
        take(new NDEFMessage({ records: Array.from(records) }));
        const text = "What the browser read. It gives records and not bytes: those that are shown are how this page writes them.";
        return say(title, element("p", { text }), list);
    } catch (error) {
        return say(title, element("p", { text: `What the browser read. ${capital(error.message)}.` }), list);
    }
}

// Waits for tags until that is stopped, and gives the message of each to `take`.
export async function readTag(take) {
    reading ??= new Going("scan-stop");
    const signal = reading.begin();
    if (signal === null) return;
    const say = (...shown) => { if (!signal.aborted) byId("tag-part").replaceChildren(...shown); }, line = (text) => say(element("p", { text }));
    signal.addEventListener("abort", () => byId("tag-part").replaceChildren(element("p", { text: "No more tags are read." })));
    try {
        const reader = new NDEFReader();
        reader.addEventListener("readingerror", () => line("The tag can't be read."));
        reader.addEventListener("reading", ({ serialNumber, message }) => { if (!signal.aborted) showTag(say, take, serialNumber, message.records); });
        await reader.scan({ signal });
        line("Hold a tag to the device.");
    } catch (error) {
        if (signal.aborted) return;
        reading.end();
        byId("tag-part").replaceChildren(element("p", { text: `No tag can be read: ${error.message}` }));
    }
}

// Writes to a tag that is empty; where it isn't, the page asks first.
async function writeOrAsk(init, signal) {
    try {
        await new NDEFReader().write(init, { overwrite: false, signal });
    } catch (error) {
        if (error.name !== "NotAllowedError" || !window.confirm(`${error.message}\nOverwrite what the tag holds?`)) throw error;
        byId("written").textContent = "Hold the tag to the device again.";
        await new NDEFReader().write(init, { overwrite: true, signal });
    }
}

// Writes a message to the next tag that is held to the device.
export async function writeTag(message) {
    writing ??= new Going("write-stop");
    const signal = writing.begin(), say = (text) => { byId("written").textContent = text; };
    if (signal === null) return;
    say("Hold a tag to the device.");
    try {
        await writeOrAsk(message.toInit(), signal);
        say("The tag is written.");
    } catch (error) {
        say(signal.aborted ? "Nothing is written." : `The tag isn't written: ${error.message}`);
    }
    writing.end();
}
