// The library for C as an ES module: bytes in, plain objects out. ndef.wasm is that library compiled for WebAssembly; it imports nothing. This
// file lays bytes and structs into its memory, as include/ndef.h describes them, and reads the answers. It knows no rule of the format.
//
//     const ndef = await Ndef.load(await (await fetch("ndef.wasm")).arrayBuffer());
//     ndef.check(Uint8Array.of(0xd0, 0, 0));   // { status: 0, place: 3, records: 1, reason: 0 }
//
// An answer has the `status` of the call. If that is Ndef.REFUSED, it has `place` and `reason`; if it is Ndef.OK, what each method below
// lists. Places and lengths count bytes. Bytes are an ArrayBuffer or a view of one, of which its own bytes count. Anything else is a TypeError,
// as is a limit, a flag or a place that is no number. Numbers out of range are a RangeError. Characters are a string, or bytes in UTF-8.
import { Arena, characters, joined, octets, utf8, whole } from "./bytes.js";
import { taking, wide } from "./numbers.js";
import { CALLS, FLAG, HINT, KIND, LAYOUT, STATUS } from "./interface.js";
import { FORM, Item } from "./item.js";
import { Memory, countBelow, structOf, wordsOf } from "./memory.js";

const OUT = 64, WHY = 256, COUNT = 320, STATE = 512; // where the structs of an answer lie in the memory for them; the limits lie at 0
const NAME = 80, SENTENCE = 192; // memory for a name or the sentence of a reason, which has at most 70 bytes, and for a sentence about some bytes
const U32_MOST = 2 ** 32 - 1;
const MAJOR = 1; // the first number of the version of the library for which this file is made
const ROWS = 1024; // items for which there is memory at first: as many as a message has records within the usual limits

const KINDS = KIND, HINTS = HINT, [RECORD, TEXT, CHECKED, ITEM, WRITER] = ["record", "text_parts", "checked", "item", "writer"].map((name) => wordsOf(LAYOUT[name]));
// Of each word of an item the word of a record that is the same, or null.
const ITEM_SIZE = LAYOUT.item.size, SOURCES = Object.keys(ITEM).map((name) => RECORD[name] ?? null);

// The value, or null where the member before it says that there is none.
const optional = (has, value) => (has === 1 ? value : null);

// 1 and the number where there is one, else 0 and 0.
function optionalNumber(value, name) {
    return value === null || value === undefined ? [0, 0] : [1, whole(value, U32_MOST, name)];
}

export class Ndef {
    // What the calls answer, and the flags that they take.
    static OK = STATUS.OK;
    static REFUSED = STATUS.REFUSED;
    static BUFFER_TOO_SMALL = STATUS.BUFFER_TOO_SMALL;
    static BAD_ARGUMENT = STATUS.BAD_ARGUMENT;
    static END = STATUS.END;
    static MORE = STATUS.MORE;
    static STANDARD = FLAG.STANDARD;
    static OPAQUE = FLAG.OPAQUE;

    // The flags of writeRecord, and the one of writeText, as include/ndef.h has them.
    static WRITE_FIRST = 1;
    static WRITE_LAST = 2;
    static WRITE_LONG = 4;
    static AS_UTF16 = 1;

    // What the payload of a record is, each with its number: OTHER, TEXT, URI, SMART_POSTER, REQUEST, SELECT, CARRIER; and ACTION, SIZE,
    // MEDIA_TYPE, ALTERNATIVE, COLLISION and ERROR, which stand in smart posters and handovers alone. Older bundlers fail where the constant has the same name.
    static "KIND" = KINDS; // in quotes, since rollup 3 renames a field with the name of an import

    // What a hint is about, each with its number: TLV, ATTRIBUTES and FILE, of a tag that has bytes for a message; MESSAGE, TERMINATOR,
    // DIGITS, XXD, HEXDUMP, WORDS, FLIPPER, PROXMARK, BASE64, CODE, STANDARD, INTERRUPTED, UNFINISHED, OD.
    static "HINT" = HINTS;

    // Loads the library. `code` is the content of ndef.wasm.
    static async load(code) {
        const { instance } = await WebAssembly.instantiate(code, {});
        return new Ndef(instance.exports);
    }

    // Loads the library at once. Some browsers refuse that in a page for modules of this size: use `load` there.
    static loadNow(code) {
        return new Ndef(new WebAssembly.Instance(new WebAssembly.Module(code), {}).exports);
    }

    #direct; // the calls as WebAssembly has them
    #memory; // the same with what is laid there and read
    #usual;
    #status; // of the last call for a record
    #fieldNames = new Map();
    #reasons = new Map();
    #sentences = new Map();
    #prefixes = new Map();

    constructor(exported) {
        this.memory = exported.memory;
        this.#direct = exported;
        this.calls = Object.fromEntries(Object.entries(CALLS).map(([name, types]) => [name, taking(exported[name], types)]));
        const version = this.version();
        if (version[0] !== MAJOR) throw new Error(`ndef.js needs the library of version ${MAJOR}.0.0, or a later ${MAJOR}; this is ${version.join(".")}`);
        this.base = (Number(exported.__heap_base.value) + 15) & ~15;
        this.#memory = new Memory(exported.memory, this.base);
        this.#usual = this.defaultLimits();
    }

    // Checks that the bytes begin with a message; `place` is its length then. Options: payload, records, chunks (the limits)
    // and flags (Ndef.STANDARD, Ndef.OPAQUE).
    check(bytes, options) {
        const given = octets(bytes), [at] = this.#memory.lay([given]);
        this.#layLimits(options);
        return this.#check(at, given.length);
    }

    // What check answers, and of a message its records as `items`: one call of the library.
    read(bytes, options) {
        const given = octets(bytes), { length } = given, at = this.#memory.front, array = (at + length + 15) & ~15, copy = this.#memory.layAndCopy(given);
        this.#layLimits(options);
        for (let rows = ROWS; ;) {
            this.#memory.reach(array + ITEM_SIZE * rows);
            const answer = this.#checked(this.#inRange(this.#direct.ndef_items(at, wide(length), this.base, this.base + OUT, array, wide(rows))), OUT);
            if (answer.status !== STATUS.BUFFER_TOO_SMALL) {
                answer.items = answer.status === STATUS.OK
                    ? this.#itemsAt(array, answer.records, copy ?? this.#memory.bytes(at, answer.place), options?.flags ?? 0) : null;
                return answer;
            }
            rows = answer.records;
        }
    }

    // The records of the message with which the bytes begin, as `records` walks them, without a copy of each of their parts.
    items(bytes, flags = 0, within = KIND.OTHER) {
        const given = octets(bytes), { length } = given, at = this.#memory.layOne(given), array = (at + length + 15) & ~15;
        const count = this.#walk(at, wide(length), whole(within, U32_MOST, "within"), array);
        return this.#itemsAt(array, count, this.#memory.bytes(at, length), flags);
    }

    // The text of an item that is a Text record: what `text` answers of its payload, without places.
    textOf(item) {
        if (item.form !== FORM.UTF8) return this.text(item.payload);
        return { status: STATUS.OK, language: item.language, text: item.text, utf16: false };
    }

    // The URI of an item that is a URI record: what `uri` answers of its payload.
    uriOf(item, flags) {
        if (item.form !== FORM.URI) return this.uri(item.payload, flags);
        return { status: STATUS.OK, text: this.#once(this.#prefixes, this.calls.ndef_uri_prefix, item.prefix) + item.text };
    }

    // Checks the messages one after another, up to the end of the bytes or to the first that is refused: what check answers
    // of each, with the place `at` which it begins. `place` counts from there. Looks at each byte once.
    checkAll(bytes, options) {
        return this.checkFrom(bytes, 0, Infinity, options);
    }

    // Of these answers those from the message at a place on, up to a number. The next one begins where the last of them ends.
    checkFrom(bytes, place, most, options) {
        const given = octets(bytes), first = this.#memory.layOne(given), answers = [];
        this.#layLimits(options);
        let at = whole(place, given.length, "place"), answer;
        do {
            answer = this.#check(first + at, given.length - at);
            answer.at = at;
            answers.push(answer);
            at += answer.place;
        } while (answer.status === STATUS.OK && at < given.length && answers.length < most);
        return answers;
    }

    // The state of a check of bytes that arrive in parts, for `feed`. Options: as check takes them.
    begin(options) {
        this.#layLimits(options);
        this.#inRange(this.calls.ndef_begin(this.base, this.base + STATE));
        return this.#memory.bytes(this.base + STATE, LAYOUT.checker.size);
    }

    // Checks the next bytes, and changes the state: what check answers of all that were fed, or Ndef.MORE where the message
    // goes on.
    feed(state, bytes) {
        const given = octets(bytes), [at] = this.#memory.lay([given]);
        this.#layState(state);
        const status = this.calls.ndef_feed(this.base + STATE, at, given.length, this.base + OUT);
        state.set(this.#memory.bytes(this.base + STATE, state.length));
        return this.#checked(status, OUT);
    }

    // Checks the next bytes of messages that follow one another: what `feed` answers of each message that ends in them or is
    // refused, and of the last one, which may go on; each with `at`, where its first byte of these lies. The state is that
    // of the last one then. Looks at each byte once. Options: those with which the state was begun.
    feedAll(state, bytes, options) {
        const given = octets(bytes), [first] = this.#memory.lay([given]), answers = [], begun = this.base + STATE;
        this.#layLimits(options);
        this.#layState(state);
        let at = 0, before = this.#fed(begun, first, 0), answer;
        do {
            answer = { at, ...this.#fed(begun, first + at, given.length - at) };
            answers.push(answer);
            if (answer.status !== Ndef.OK) break;
            at += answer.place - before.place;
            this.calls.ndef_begin(this.base, begun);
            before = { place: 0 };
        } while (at < given.length);
        state.set(this.#memory.bytes(begun, state.length));
        return answers;
    }

    // The fields of the message with which the bytes begin, or of those before a refused byte, in order: what check answers, and
    // `fields`, each { at, length, depth, name }; depth is 1 in a message within a payload. Options: as check takes them, but
    // Ndef.OPAQUE.
    fields(bytes, options) {
        return this.#fields(bytes, options, (count) => [0, count]);
    }

    // What `fields` answers, with the first fields alone, up to a number.
    firstFields(bytes, most, options) {
        whole(most, Number.MAX_SAFE_INTEGER, "most");
        return this.#fields(bytes, options, (count) => [0, Math.min(count, most)]);
    }

    // What `fields` answers, with the fields alone that reach from one place up to another: from the last one that begins before
    // `from` or there, up to the last one that begins before `to`.
    fieldsWithin(bytes, from, to, options) {
        [from, to].forEach((place) => whole(place, Number.MAX_SAFE_INTEGER, "place"));
        return this.#fields(bytes, options, (count, beginOf) => {
            const after = countBelow(count, (index) => beginOf(index) <= from);
            return [Math.max(after - 1, 0), countBelow(count, (index) => beginOf(index) < to)];
        });
    }

    // The name of a field, or null.
    fieldName(name) {
        return this.#once(this.#fieldNames, this.calls.ndef_field_name, whole(name, U32_MOST, "name"));
    }

    // The limits that check takes where none are given: { payload, records, chunks, flags }.
    defaultLimits() {
        this.#memory.lay([]);
        this.calls.ndef_default_limits(this.base);
        return this.#memory.struct("limits", 0);
    }

    // The name of a reason, or null.
    reasonName(reason) {
        return this.#once(this.#reasons, this.calls.ndef_reason_name, whole(reason, U32_MOST, "reason"));
    }

    // What a reason means, in a sentence of English, or null.
    reasonSentence(reason) {
        return this.#once(this.#sentences, this.calls.ndef_reason_sentence, whole(reason, U32_MOST, "reason"));
    }

    // What was wanted where the bytes are refused, in a sentence of English; null where they begin with a message, and where
    // payloads aren't checked. Options: as check takes them.
    why(bytes, options) {
        return this.#sentenceOf(this.calls.ndef_refusal_message, bytes, options);
    }

    // What may help where the bytes are refused, in a sentence of English, or null.
    hint(bytes, options) {
        return this.#sentenceOf(this.calls.ndef_hint, bytes, options);
    }

    // The same by numbers, or null: { hint, at, length }, one of Ndef.HINT, where a message may begin, and how many bytes a tag has for it;
    // 0 where the hint names none.
    findHint(bytes, options) {
        const given = octets(bytes), [at] = this.#memory.lay([given]);
        this.#layLimits(options);
        const status = this.#inRangeOrOpaque(this.calls.ndef_find_hint(at, given.length, this.base, this.base + OUT), options);
        return status === Ndef.OK ? this.#memory.struct("found", OUT) : null;
    }

    // What is strange in a field of a message that check accepts, in a sentence of English, or null: by the name that `fields` gives of
    // it, and its bytes.
    fieldWarning(name, bytes) {
        const number = this.#fieldNumber(name), given = octets(bytes), [at, buffer] = this.#memory.lay([given, SENTENCE]);
        return this.#said(this.calls.ndef_field_warning(number, at, given.length, buffer, SENTENCE, this.base + COUNT), buffer);
    }

    // What is strange in the record with an index, counted from 0, of the message with which the bytes begin, beside its other
    // records, or null; also where there is no such record. Messages of more than 64 records aren't looked through.
    recordWarning(bytes, index) {
        const which = whole(index, Number.MAX_SAFE_INTEGER, "index"), given = octets(bytes), [at, buffer] = this.#memory.lay([given, SENTENCE]);
        return this.#said(this.calls.ndef_record_warning(at, given.length, which, buffer, SENTENCE, this.base + COUNT), buffer);
    }

    // The name of a status, or null.
    statusName(status) {
        return this.#named(this.calls.ndef_status_name, whole(status, U32_MOST, "status"));
    }

    // The record at a place: its places and lengths, its type, id and payload as bytes, and of which `kind` its payload is, one
    // of Ndef.KIND. It copies all bytes: to walk a message, take `records`. For the message within a payload `within` is the
    // kind of that payload.
    recordAt(bytes, place, within = Ndef.KIND.OTHER) {
        whole(place, Number.MAX_SAFE_INTEGER, "place");
        const given = octets(bytes), kind = whole(within, U32_MOST, "within");
        return this.#record(this.#memory.layOne(given), given.length, place, kind) ?? { status: this.#status };
    }

    // The records of the message with which the bytes begin, up to the last one, or to where no record begins.
    records(bytes, within = Ndef.KIND.OTHER) {
        return this.#records(bytes, 0, Infinity, within);
    }

    // Of these records those from the one at a place on, up to a number. The next ones begin where the last of them ends.
    recordsFrom(bytes, place, most, within = Ndef.KIND.OTHER) {
        whole(most, Number.MAX_SAFE_INTEGER, "most");
        return this.#records(bytes, whole(place, Number.MAX_SAFE_INTEGER, "place"), most, within);
    }

    // The URI of a URI record, as { text }.
    uri(payload, flags = 0) {
        const given = octets(payload), how = whole(flags, U32_MOST, "flags");
        return this.#spelled(given, (at, buffer, size) => this.calls.ndef_uri(
            at, given.length, how, buffer, size, this.base + COUNT, this.base + WHY));
    }

    // The text of a Text record: { languageAt, languageLength, textAt, textLength, utf16, language, text }.
    text(payload) {
        const given = octets(payload);
        return this.#textAt(this.#memory.layOne(given), given.length, () => given);
    }

    // A smart poster: { uriAt, uriLength, uri, action, size }; action and size are null where it has none.
    poster(payload, flags = 0) {
        const given = octets(payload);
        const poster = this.#read(given, this.calls.ndef_poster, () => {
            const { uriAt, uriLength, hasAction, action, hasSize, size } = this.#memory.struct("poster_parts", OUT);
            return { uriAt, uriLength, action: optional(hasAction, action), size: optional(hasSize, size) };
        }, flags);
        if (poster.status !== Ndef.OK) return poster;
        return { ...poster, uri: this.uri(given.subarray(poster.uriAt, poster.uriAt + poster.uriLength), flags).text };
    }

    // A handover request: { carriers, major, minor, collision }.
    request(payload, flags = 0) {
        return this.#read(octets(payload), this.calls.ndef_request, () => this.#memory.struct("request_parts", OUT), flags);
    }

    // A handover select: { carriers, detailAt, detailLength, major, minor, error }; error is null where it has none.
    select(payload, flags = 0) {
        return this.#read(octets(payload), this.calls.ndef_select, () => {
            const { hasError, error, ...parts } = this.#memory.struct("select_parts", OUT);
            return { ...parts, error: optional(hasError, error) };
        }, flags);
    }

    // A handover carrier: { typeAt, typeLength, dataAt, dataLength, format }.
    carrier(payload) {
        return this.#read(octets(payload), this.calls.ndef_carrier, () => this.#memory.struct("carrier_parts", OUT));
    }

    // An alternative carrier: { power, references }, each reference as { at, length }.
    alternative(payload) {
        const given = octets(payload);
        const alternative = this.#read(given, this.calls.ndef_alternative, () => ({ power: this.#memory.struct("alternative_parts", OUT).power }));
        if (alternative.status !== Ndef.OK) return alternative;
        const references = this.#array([given], "part", ([at], array, count) =>
            this.calls.ndef_references(at, given.length, array, count, this.base + COUNT));
        return { ...alternative, references };
    }

    // A handover error: { dataAt, dataLength, errorReason, number }; number is null where the data hold none.
    error(payload) {
        return this.#read(octets(payload), this.calls.ndef_error, () => {
            const { dataAt, dataLength, reason, hasNumber, number } = this.#memory.struct("error_parts", OUT);
            return { dataAt, dataLength, errorReason: reason, number: optional(hasNumber, number) };
        });
    }

    // The links of a message by the payload of its handover record: { carrierAt, carrierLength, recordIndex, recordAt } each;
    // index and place are null where a link refers to no record. No links where the payload is no handover.
    links(bytes, payload) {
        const given = octets(bytes), handover = octets(payload);
        const links = this.#array([given, handover], "link", ([at, from], array, count) => this.calls.ndef_links(
            at, given.length, from, handover.length, array, count, this.base + COUNT));
        return links.map(({ carrierAt, carrierLength, recordIndex, recordAt, hasRecord }) => ({
            carrierAt, carrierLength, recordIndex: optional(hasRecord, recordIndex), recordAt: optional(hasRecord, recordAt),
        }));
    }

    // Where the parts of each title of a smart poster lie: { languageAt, languageLength, textAt, textLength, utf16 }.
    posterTitles(payload) {
        const given = octets(payload);
        return this.#array([given], "text_parts", ([at], array, count) =>
            this.calls.ndef_poster_titles(at, given.length, array, count, this.base + COUNT));
    }

    // Where the media type of a smart poster lies: { at, length }, or null where it has none.
    posterMediaType(payload) {
        const given = octets(payload), [at] = this.#memory.lay([given]);
        return this.calls.ndef_poster_media_type(at, given.length, this.base + OUT) === Ndef.OK ? this.#memory.struct("part", OUT) : null;
    }

    // The icons of a smart poster: { mediaType, data }, each { at, length }.
    posterIcons(payload) {
        const given = octets(payload);
        return this.#array([given], "icon", ([at], array, count) =>
            this.calls.ndef_poster_icons(at, given.length, array, count, this.base + COUNT));
    }

    // The version of the library: [major, minor, patch].
    version() {
        const number = this.calls.ndef_version();
        return [number >>> 16, (number >>> 8) & 255, number & 255];
    }

    // ---- what is written
    //
    // An answer has the `status`, and the `bytes` where that is Ndef.OK. It is Ndef.BAD_ARGUMENT where include/ndef.h says that
    // of the call. A member that is left out is empty, or 0.

    // A record: its type, id and payload, each as characters; its tnf; flags (Ndef.WRITE_FIRST, Ndef.WRITE_LAST,
    // Ndef.WRITE_LONG); and the bytes of each `chunk` but the last, or 0.
    writeRecord({ tnf, type = "", id = "", payload = "", flags = 0, chunk = 0 }) {
        return this.#written([type, id, payload, this.#writing(tnf, flags, chunk)], ([types, ids, payloads, writing], sizes, ...buffer) =>
            this.calls.ndef_write_record(types, sizes[0], ids, sizes[1], payloads, sizes[2], writing, ...buffer));
    }

    // Begins such a record to write it in steps; `length` are the bytes of its payload. An answer has the `state` for writeNext.
    beginRecord({ tnf, type = "", id = "", length, flags = 0, chunk = 0 }) {
        const [typeLength, idLength] = [type, id].map((given) => characters(given).length), payloadLength = whole(length, Number.MAX_SAFE_INTEGER, "length");
        const [writing] = this.#memory.lay([this.#writing(tnf, flags, chunk)]);
        const status = this.calls.ndef_writer_begin(this.base + STATE, typeLength, idLength, payloadLength, writing);
        return status === Ndef.OK ? { status, state: this.#memory.bytes(this.base + STATE, LAYOUT.writer.size) } : { status };
    }

    // Writes the next bytes of a record with this type and id, at most a number, and changes the state. The payload goes on with the part, of
    // which `taken` bytes are written. The status is Ndef.END where the record is whole, and there are no bytes then.
    writeNext(state, { type = "", id = "" }, part, most) {
        const given = [characters(type), characters(id), octets(part)], [typeLength, idLength, length] = given.map((bytes) => bytes.length);
        const size = whole(most, U32_MOST, "most"), [typeAt, idAt, at, buffer] = this.#memory.lay([...given, size]);
        this.#layState(state, "writer");
        const taken = () => this.#memory.words[((this.base + STATE) >> 2) + WRITER.taken], before = taken();
        const status = this.calls.ndef_writer_next(this.base + STATE, typeAt, typeLength, idAt, idLength, at, length, buffer, size, this.base + COUNT);
        if (status !== Ndef.OK) return { status };
        state.set(this.#memory.bytes(this.base + STATE, state.length));
        return { status, bytes: this.#memory.bytes(buffer, this.#memory.u64(COUNT)), taken: taken() - before };
    }

    // The payload of a URI record.
    writeUri(uri) {
        return this.#written([uri], ([at], [size], ...buffer) => this.calls.ndef_write_uri(at, size, ...buffer));
    }

    // The payload of a Text record. Flags: Ndef.AS_UTF16.
    writeText(language, text, flags = 0) {
        const how = whole(flags, U32_MOST, "flags");
        return this.#written([language, text], ([languages, texts], sizes, ...buffer) =>
            this.calls.ndef_write_text(languages, sizes[0], texts, sizes[1], how, ...buffer));
    }

    // The payload of a handover carrier.
    writeCarrier(format, type, data = "") {
        const number = whole(format, U32_MOST, "format");
        return this.#written([type, data], ([types, datas], sizes, ...buffer) =>
            this.calls.ndef_write_carrier(number, types, sizes[0], datas, sizes[1], ...buffer));
    }

    // The payload of an alternative carrier. References: a list of characters, the carrier data reference first.
    writeAlternative(power, references) {
        const arena = new Arena(), parts = references.map((reference) => arena.put(reference)), number = whole(power, U32_MOST, "power");
        return this.#written([arena.bytes, this.#parts(parts)], ([at, array], [size], ...buffer) =>
            this.calls.ndef_write_alternative(number, at, size, array, parts.length, ...buffer));
    }

    // The payload of an action, of a size and of a collision resolution.
    writeAction(action) { return this.#writtenOf(this.calls.ndef_write_action, whole(action, U32_MOST, "action")); }
    writeSize(size) { return this.#writtenOf(this.calls.ndef_write_size, whole(size, U32_MOST, "size")); }
    writeCollision(number) { return this.#writtenOf(this.calls.ndef_write_collision, whole(number, U32_MOST, "number")); }

    // The payload of a handover error, with its data; or with a number as its data.
    writeError(reason, data = "") {
        const number = whole(reason, U32_MOST, "reason");
        return this.#written([data], ([at], [size], ...buffer) => this.calls.ndef_write_error(number, at, size, ...buffer));
    }
    writeErrorNumber(reason, number) {
        const given = [whole(reason, U32_MOST, "reason"), whole(number, U32_MOST, "number")];
        return this.#writtenOf(this.calls.ndef_write_error_number, ...given);
    }

    // The payload of a handover request, or of a select, of its version and the bytes of its message.
    writeHandover(isSelect, major, minor, message = "") {
        const version = [isSelect ? 1 : 0, whole(major, U32_MOST, "major"), whole(minor, U32_MOST, "minor")];
        return this.#written([message], ([at], [size], ...buffer) => this.calls.ndef_write_handover(...version, at, size, ...buffer));
    }

    // The payload of a smart poster: its uri, titles ({ language, text, utf16 } each), action, size, mediaType and icons
    // ({ mediaType, data } each). What is null or left out isn't there.
    writePoster({ uri, titles = [], action = null, size = null, mediaType = null, icons = [] }) {
        const arena = new Arena(), [hasAction, actionNumber] = optionalNumber(action, "action");
        const [hasSize, sizeNumber] = optionalNumber(size, "size"), hasMediaType = mediaType === null ? 0 : 1;
        const how = structOf(LAYOUT.poster_writing, {
            uri: arena.put(uri), mediaType: hasMediaType ? arena.put(mediaType) : undefined, hasMediaType, hasAction,
            action: actionNumber, hasSize, size: sizeNumber,
        });
        const titleArray = joined(titles.map(({ language, text, utf16 = false }) =>
            structOf(LAYOUT.title_writing, { language: arena.put(language), text: arena.put(text), utf16: utf16 ? 1 : 0 })));
        const iconArray = joined(icons.map((icon) =>
            structOf(LAYOUT.icon_writing, { mediaType: arena.put(icon.mediaType), data: arena.put(icon.data) })));
        return this.#written([arena.bytes, how, titleArray, iconArray], ([at, writing, title, icon], [length], ...buffer) =>
            this.calls.ndef_write_poster(at, length, writing, title, titles.length, icon, icons.length, ...buffer));
    }

    // The payload of a handover request: its minor version, its random number, and its alternatives, each
    // { power, references } as writeAlternative takes them.
    writeRequest({ minor, collision, alternatives = [] }) {
        const arena = new Arena(), { references, carriers, count } = this.#alternatives(arena, alternatives);
        const version = whole(minor, U32_MOST, "minor"), number = whole(collision, U32_MOST, "collision");
        return this.#written([arena.bytes, references, carriers], ([at, parts, array], [length], ...buffer) =>
            this.calls.ndef_write_request(version, number, at, length, parts, count, array, alternatives.length, ...buffer));
    }

    // The payload of a handover select: its minor version, its alternatives, and its error ({ reason, data }) or null.
    writeSelect({ minor, alternatives = [], error = null }) {
        const arena = new Arena(), { references, carriers, count } = this.#alternatives(arena, alternatives);
        const [hasError, reason] = optionalNumber(error?.reason, "reason");
        const how = structOf(LAYOUT.select_writing, {
            data: hasError ? arena.put(error.data ?? "") : undefined, minor: whole(minor, U32_MOST, "minor"), hasError, reason,
        });
        return this.#written([arena.bytes, how, references, carriers], ([at, writing, parts, array], [length], ...buffer) =>
            this.calls.ndef_write_select(writing, at, length, parts, count, array, alternatives.length, ...buffer));
    }

    // The message with which the bytes begin, each record in one chunk and in its shortest form. Flags: Ndef.WRITE_LONG.
    normalize(bytes, flags = 0) {
        const how = whole(flags, U32_MOST, "flags");
        return this.#written([octets(bytes)], ([at], [size], ...buffer) => this.calls.ndef_normalize(at, size, how, ...buffer));
    }

    // What `fields` answers, with a part of the fields. `choose` is given their number and a function for the place at which
    // the one with an index begins, and answers the first index of the part and the one after its last.
    #fields(bytes, options, choose) {
        const given = octets(bytes), call = (at, array, count) => this.#inRange(this.calls.ndef_fields(
            at, given.length, this.base, array, count, this.base + COUNT, this.base + WHY));
        const [first] = this.#memory.lay([given]), { size, members } = LAYOUT.field;
        this.#layLimits(options);
        call(first, first, 0);
        const count = this.#memory.u64(COUNT), [at, array] = this.#memory.lay([given, size * count]);
        const status = call(at, array, count), begun = array - this.base + members.at[0];
        const [from, to] = choose(count, (index) => this.#memory.u64(begun + size * index));
        const fields = this.#memory.structs("field", array - this.base + size * from, Math.max(to - from, 0));
        fields.forEach((field) => { field.name = this.fieldName(field.name); });
        return { ...this.#checked(status, WHY), fields };
    }

    // What a call writes to a buffer. The call is given where the inputs lie, their lengths, the buffer, its size, and where the
    // number of the bytes goes. The buffer is made again where it was too small.
    #written(inputs, call) {
        const given = inputs.map(characters), sizes = given.map(({ length }) => length);
        for (let size = 64 + 2 * sizes.reduce((sum, length) => sum + length, 0); ;) {
            const places = this.#memory.lay([...given, size]), buffer = places.pop();
            const status = call(places, sizes, buffer, size, this.base + COUNT);
            if (status === Ndef.OK) return { status, bytes: this.#memory.bytes(buffer, this.#memory.u64(COUNT)) };
            if (status !== Ndef.BUFFER_TOO_SMALL) return { status };
            size = this.#memory.u64(COUNT);
        }
    }

    #writtenOf(call, ...numbers) {
        return this.#written([], (places, sizes, ...buffer) => call(...numbers, ...buffer));
    }

    // How a record is written, as the bytes of a struct.
    #writing(tnf, flags, chunk) {
        return structOf(LAYOUT.writing, { tnf: whole(tnf, U32_MOST, "tnf"), flags: whole(flags, U32_MOST, "flags"), chunk: whole(chunk, U32_MOST, "chunk") });
    }

    #parts(parts) { return joined(parts.map(([at, length]) => structOf(LAYOUT.part, { at, length }))); }

    // The references of alternative carriers, and the carriers, each as the bytes of an array.
    #alternatives(arena, alternatives) {
        const parts = [], carriers = alternatives.map(({ power, references }) => {
            const first = parts.length;
            references.forEach((reference) => parts.push(arena.put(reference)));
            return structOf(LAYOUT.alternative_writing, { first, references: references.length, power: whole(power, U32_MOST, "power") });
        });
        return { references: this.#parts(parts), carriers: joined(carriers), count: parts.length };
    }

    // Lays the state of a check, or of what else a struct is.
    #layState(state, name = "checker") {
        const { size } = LAYOUT[name];
        if (!(state instanceof Uint8Array)) throw new TypeError("a state is what `begin` returned, or `beginRecord`");
        if (state.length !== size) throw new RangeError(`a state has ${size} bytes, and this has ${state.length}`);
        this.#memory.put(state, this.base + STATE);
    }

    #fed(begun, at, length) {
        const status = this.calls.ndef_feed(begun, at, length, this.base + OUT);
        return this.#checked(status, OUT);
    }

    // Checks bytes that lie at an address, within the limits that were laid.
    #check(at, length) {
        const status = this.#inRange(this.calls.ndef_check(at, length, this.base, this.base + OUT));
        return this.#checked(status, OUT);
    }

    // The status, unless the library says that a limit or a flag is out of range.
    #inRange(status) {
        if (status !== Ndef.BAD_ARGUMENT) return status;
        throw new RangeError(`a limit or a flag is out of range: ${JSON.stringify(this.#memory.struct("limits", 0))}`);
    }

    // The same where the library looks into payloads alone, so that NDEF_OPAQUE is refused too, of which nothing is said.
    #inRangeOrOpaque(status, options) { return options?.flags & Ndef.OPAQUE ? status : this.#inRange(status); }

    // Lays the limits, the usual ones where an option is left out.
    #layLimits(options = {}) {
        if (options === null || typeof options !== "object") throw new TypeError("options are an object");
        const words = this.#memory.words, o = this.base >> 2, usual = this.#usual, { payload, records, chunks, flags } = options;
        words[o] = payload === undefined ? usual.payload : whole(payload, U32_MOST, "payload");
        words[o + 1] = records === undefined ? usual.records : whole(records, U32_MOST, "records");
        words[o + 2] = chunks === undefined ? usual.chunks : whole(chunks, U32_MOST, "chunks");
        words[o + 3] = flags === undefined ? usual.flags : whole(flags, U32_MOST, "flags");
    }

    // The name that a call writes for a number, or null; it is asked for once.
    #once(names, call, number) {
        if (!names.has(number)) names.set(number, this.#named(call, number));
        return names.get(number);
    }

    // The name that a call writes for a number, or null.
    #named(call, number) {
        const [buffer] = this.#memory.lay([NAME]);
        return call(number, buffer, NAME, this.base + COUNT) === Ndef.OK ? this.#memory.text(buffer, this.#memory.u64(COUNT)) : null;
    }

    // The sentence that a call writes for bytes, or null.
    #sentenceOf(call, bytes, options) {
        const given = octets(bytes), [at, buffer] = this.#memory.lay([given, SENTENCE]);
        this.#layLimits(options);
        return this.#said(this.#inRangeOrOpaque(call(at, given.length, this.base, buffer, SENTENCE, this.base + COUNT), options), buffer);
    }

    // What a call wrote to a buffer, or null where it wrote nothing.
    #said(status, buffer) { return status === Ndef.OK ? this.#memory.text(buffer, this.#memory.u64(COUNT)) : null; }

    // The number of the field with a name.
    #fieldNumber(name) {
        for (let number = 1, found; (found = this.fieldName(number)) !== null; number++) if (found === name) return number;
        throw new RangeError(`no field has the name ${name}`);
    }

    #records(bytes, from, most, within) {
        const given = octets(bytes), kind = whole(within, U32_MOST, "within"), at = this.#memory.layOne(given), records = [];
        for (let place = from, last = false; !last && records.length < most;) {
            const record = this.#record(at, given.length, place, kind);
            if (record === null) break;
            records.push(record);
            ({ end: place, last } = record);
        }
        return records;
    }

    // Reads the record at a place of bytes that lie at an address, into the memory. Answers its kind, or -1 where there is none.
    #seek(at, size, place, within) {
        const out = this.base + OUT;
        this.#status = this.#direct.ndef_record_at(at, size, wide(place), out);
        return this.#status === STATUS.OK ? this.#direct.ndef_kind(at, size, out, within) : -1;
    }

    // The record at a place of bytes that lie at an address, with copies of its parts, or null.
    #record(at, length, place, within) {
        const kind = this.#seek(at, wide(length), place, within);
        if (kind < 0) return null;
        const { words } = this.#memory, o = (this.base + OUT) >> 2, typeAt = words[o + RECORD.typeAt], typeLength = words[o + RECORD.typeLength];
        const idAt = words[o + RECORD.idAt], idLength = words[o + RECORD.idLength], payloadAt = words[o + RECORD.payloadAt];
        const payloadLength = words[o + RECORD.payloadLength], chunks = words[o + RECORD.chunks];
        return {
            status: STATUS.OK, tnf: words[o + RECORD.tnf], last: words[o + RECORD.last] === 1, kind, at: words[o + RECORD.at], end: words[o + RECORD.end],
            typeAt, typeLength, idAt, idLength, payloadAt, partLength: words[o + RECORD.partLength], payloadLength, chunks,
            type: this.#memory.bytes(at + typeAt, typeLength), id: this.#memory.bytes(at + idAt, idLength),
            payload: chunks > 1 ? this.#joined(at, length, place, at + length) : this.#memory.bytes(at + payloadAt, payloadLength),
        };
    }

    // Writes an item for each record of bytes that lie at an address, without a form, to an array after them. Answers their number.
    #walk(at, size, within, array) {
        let count = 0;
        for (let place = 0, last = 0; last === 0; count++) {
            const kind = this.#seek(at, size, place, within);
            if (kind < 0) break;
            this.#memory.reach(array + ITEM_SIZE * (count + 1));
            const { words } = this.#memory, first = (array + ITEM_SIZE * count) >> 2, o = (this.base + OUT) >> 2;
            for (let index = 0; index < SOURCES.length; index++) words[first + index] = SOURCES[index] === null ? 0 : words[o + SOURCES[index]];
            words[first + ITEM.kind] = kind;
            place = words[o + RECORD.end];
            last = words[o + RECORD.last];
        }
        return count;
    }

    // The items of an array that lies after the bytes of their message, of which `bytes` is a copy.
    #itemsAt(array, count, bytes, flags) {
        const { words } = this.#memory, items = new Array(count);
        let chunked = null;
        for (let index = 0, first = array >> 2; index < count; index++, first += ITEM_SIZE / 4) {
            items[index] = new Item(bytes, flags, words, first);
            if (words[first + ITEM.chunks] > 1) (chunked ??= []).push({ item: items[index], place: words[first + ITEM.at] });
        }
        chunked?.forEach(({ item, place }) => { item.joined = this.#joined(this.#memory.front, bytes.length, place, array + ITEM_SIZE * count); });
        return items;
    }

    // The payload of a record in chunks, by a buffer that begins at an address or soon after it.
    #joined(at, length, place, from) {
        const buffer = (from + 15) & ~15;
        this.#memory.reach(buffer + length);
        this.calls.ndef_payload(at, length, place, buffer, length, this.base + COUNT);
        return this.#memory.bytes(buffer, this.#memory.u64(COUNT));
    }

    // The text of a payload that lies at an address. `payload` gives its bytes.
    #textAt(at, size, payload) {
        const status = this.calls.ndef_text(at, size, this.base + OUT, this.base + WHY);
        if (status !== Ndef.OK) return this.#answer(status, null);
        const words = this.#memory.words, o = (this.base + OUT) >> 2, languageAt = words[o + TEXT.languageAt], languageLength = words[o + TEXT.languageLength];
        const textAt = words[o + TEXT.textAt], textLength = words[o + TEXT.textLength], utf16 = words[o + TEXT.utf16] === 1;
        const language = this.#memory.text(at + languageAt, languageLength);
        const text = utf16 ? this.#textOfUtf16(payload()) : this.#memory.text(at + textAt, textLength);
        return { status, languageAt, languageLength, textAt, textLength, utf16, language, text };
    }

    #textOfUtf16(payload) {
        return this.#spelled(payload, (at, buffer, size) =>
            this.calls.ndef_text_in_utf8(at, payload.length, buffer, size, this.base + COUNT, this.base + WHY)).text;
    }

    // What a call reads of a payload; `flags` are given to those that take them.
    #read(payload, call, valuesOf, flags) {
        const given = flags === undefined ? [] : [whole(flags, U32_MOST, "flags")], [at] = this.#memory.lay([payload]);
        return this.#answer(call(at, payload.length, ...given, this.base + OUT, this.base + WHY), valuesOf);
    }

    // The structs of an array that a call fills; none where the call answers another status. Asks for their number first.
    #array(inputs, name, call) {
        const asked = this.#memory.lay(inputs);
        const status = call(asked, asked[0], 0);
        if (status !== Ndef.BUFFER_TOO_SMALL) return [];
        const count = this.#memory.u64(COUNT), places = this.#memory.lay([...inputs, LAYOUT[name].size * count]), array = places.pop();
        call(places, array, count);
        return this.#memory.structs(name, array - this.base, count);
    }

    // What a call writes to a buffer, in UTF-8. The buffer is made again where it was too small.
    #spelled(payload, call) {
        for (let size = payload.length + 12; ;) {
            const [at, buffer] = this.#memory.lay([payload, size]), status = call(at, buffer, size);
            if (status !== Ndef.BUFFER_TOO_SMALL) return this.#answer(status, () => ({ text: this.#memory.text(buffer, this.#memory.u64(COUNT)) }));
            size = this.#memory.u64(COUNT);
        }
    }

    #answer(status, valuesOf) {
        if (status === Ndef.OK) return { status, ...valuesOf() };
        return status === Ndef.REFUSED ? this.#checked(status, WHY) : { status };
    }

    // A status, and what the library says of a check.
    #checked(status, offset) {
        const { words } = this.#memory, first = (this.base + offset) >> 2;
        return { status, place: words[first + CHECKED.place], records: words[first + CHECKED.records], reason: words[first + CHECKED.reason] };
    }
}
