// NDEF messages for JavaScript, in the shape of Web NFC. README.md says what each name is for.

/** Bytes: an ArrayBuffer or a SharedArrayBuffer, or a view of one, of which its own bytes count. Anything else is a TypeError. */
export type Bytes = ArrayBuffer | ArrayBufferView;

/** A name, which is a string where its bytes are UTF-8, as they should be, and else the bytes. */
export type Name = string | Uint8Array;

/** Limits and rules of a check. A number out of range is a RangeError. */
export interface Options {
    /** The most bytes of one record's payload: 1 to 4294967295, by default 1048576. */
    payload?: number;
    /** The most records of a message: 1 to 65535, by default 1024. */
    records?: number;
    /** The most chunks of a record: 1 to 65535, by default 4096. */
    chunks?: number;
    /** Reads the reserved type name format 7 and reserved URI codes as the standards say, instead of refusing them. */
    standard?: boolean;
    /** Doesn't check payloads. `fields` and `explain` refuse this. */
    opaque?: boolean;
}

/** How `encode` checks what it wrote: by the options with which it will be read. */
export interface EncodeOptions extends Options {
    /** Writes a message that no reader may take, too: nothing is checked. */
    unchecked?: boolean;
}

/** How `encodeParts` and `encodeStream` write. */
export interface PartsOptions extends EncodeOptions {
    /** The bytes of each part but the last, which may have fewer; by default 4096. */
    size?: number;
}

/** The error for bytes that are refused, and for a record that `encode` doesn't write since they would be. */
export class NdefError extends Error {
    constructor(place: number, reason: number, name: string, sentence: string, record?: number | null, meaning?: string);
    /** The first byte after which none that follow make the bytes a message, or the number of the bytes. Of a record it counts from its first byte. */
    readonly place: number;
    /** The index of the record that `encode` doesn't write, counted from 0; null for bytes that were given. */
    readonly record: number | null;
    /** The number of the reason, as ndef.h has it; 0 where other bytes follow the message. */
    readonly reason: number;
    /** The name of the reason, such as "Utf8". */
    readonly name: string;
    /** What the reason means; of a record what was wanted there, where that is known. */
    readonly sentence: string;
}

/** The type of a record, as Web NFC names it: an external type has a ":", and a local type begins with one. */
export type RecordType = "empty" | "text" | "url" | "smart-poster" | "absolute-url" | "mime" | "unknown" | `${string}:${string}`;

/** What makes a record: what Web NFC takes, or the parts of a record as NDEF has them where it has a `tnf`. */
export type NDEFRecordInit = NDEFRecordInitOfWebNfc | RecordParts | NDEFRecord;

export interface NDEFRecordInitOfWebNfc {
    recordType: RecordType;
    mediaType?: string | null;
    id?: string | null;
    /** Of a text: "utf-8", "utf-16", "utf-16be" or "utf-16le"; another is a TypeError. */
    encoding?: "utf-8" | "utf-16" | "utf-16be" | "utf-16le" | null;
    lang?: string | null;
    /** Of a url and an absolute URL a URL object, too. Another object that has `href` is a TypeError. */
    data?: string | Bytes | { readonly href: string } | NDEFMessageInit | null;
}

export interface RecordParts {
    /** The type name format, 0 to 5. */
    tnf: number;
    type?: string | Bytes;
    id?: string | Bytes;
    payload?: string | Bytes;
}

export interface NDEFMessageInit {
    records: Iterable<NDEFRecordInit>;
}

/** A record whose data are at hand. */
export type WholeRecord = NDEFRecordInit & { parts?: undefined };

/** A record whose payload comes in parts: what stands there for its data is given as they are needed. */
export type RecordInParts<Parts> = ({ recordType: "mime" | "unknown" | `${string}:${string}`; mediaType?: string | null; id?: string | null }
    | { tnf: number; type?: string | Bytes; id?: string | Bytes }) & {
    parts: Parts;
    /** The bytes that the parts have together. */
    length: number;
};

/** What NDEFReader.write of Web NFC takes for a record. */
export interface WritableRecord {
    recordType: RecordType;
    mediaType?: string;
    id?: string;
    encoding?: "utf-8" | "utf-16be";
    lang?: string;
    data?: string | DataView | Uint8Array | WritableMessage;
}

export interface WritableMessage {
    records: WritableRecord[];
}

/** A record, with the members that it has in Web NFC, and more. */
export class NDEFRecord {
    constructor(init: NDEFRecordInit);
    readonly recordType: RecordType;
    readonly mediaType: string | null;
    readonly id: string | null;
    readonly encoding: "utf-8" | "utf-16be" | null;
    readonly lang: string | null;
    readonly data: DataView | null;
    /**
     * The records of the message within; null for an external or local type whose payload is no message. A DOMException (NotSupportedError)
     * for types that hold no records, as a text.
     */
    toRecords(): TypedRecord[] | null;
    /** What NDEFReader.write of Web NFC takes for this record. */
    toInit(): WritableRecord;
    /** The text of a text. */
    readonly text: string | null;
    /** The URI of a url, an absolute URL or a smart poster. */
    readonly uri: string | null;
    /** What the payload means. */
    readonly value: Value | null;
    readonly tnf: number;
    readonly type: Uint8Array;
    readonly idBytes: Uint8Array;
    readonly payload: Uint8Array;
    /** What the payload is, a number of KIND. */
    readonly kind: number;
    /**
     * The bytes of a message of this record alone. Throws NdefError where `decode` refuses it. With flags, as Ndef.WRITE_FIRST: the bytes
     * of the record in a message, unchecked.
     */
    toBytes(flags?: number): Uint8Array;
    /** What JSON.stringify makes of it: these members where they aren't null, and the payload in hexadecimal digits. */
    toJSON(): RecordJson;
}

export interface RecordJson {
    recordType: RecordType;
    mediaType?: string;
    id?: string;
    encoding?: "utf-8" | "utf-16be";
    lang?: string;
    text?: string;
    uri?: string;
    payload: string;
}

/** A record of a message. Where its `recordType` is known, so is what its `value` is. */
export type TypedRecord = NDEFRecord & (
    | { readonly recordType: "text"; readonly value: Text; readonly text: string; readonly lang: string; readonly encoding: "utf-8" | "utf-16be" }
    | { readonly recordType: "url"; readonly value: Uri; readonly uri: string }
    | { readonly recordType: "smart-poster"; readonly value: SmartPoster; readonly uri: string }
    | { readonly recordType: "absolute-url"; readonly value: null; readonly uri: string }
    | { readonly recordType: "mime"; readonly value: null; readonly mediaType: string }
    | { readonly recordType: "empty" | "unknown"; readonly value: null }
    | { readonly recordType: `${string}:${string}`; readonly value: HandoverRequest | HandoverSelect | HandoverCarrier | Carrier | HandoverError | null });

/** A message: a list of records, at least one. */
export class NDEFMessage {
    constructor(init: NDEFMessageInit);
    readonly records: readonly TypedRecord[];
    /** What NDEFReader.write of Web NFC takes for this message. */
    toInit(): WritableMessage;
    toJSON(): { records: RecordJson[] };
}

export type Value = Text | Uri | SmartPoster | HandoverRequest | HandoverSelect | HandoverCarrier | Carrier | HandoverError;

export interface Text {
    text: string;
    language: string;
    utf16: boolean;
}

export interface Uri {
    uri: string;
}

export interface SmartPoster {
    uri: string;
    titles: Text[];
    /** One of ACTION, or a reserved number up to 255. */
    action: number | null;
    /** The bytes of what the URI leads to. */
    size: number | null;
    mediaType: string | null;
    icons: Icon[];
}

export interface Icon {
    mediaType: Name;
    data: Uint8Array;
}

/** An alternative carrier of a handover. */
export interface Carrier {
    /** One of POWER. */
    power: number;
    /** The id of the record that describes the carrier. */
    reference: Name;
    auxiliary: Name[];
}

export interface HandoverRequest {
    major: number;
    minor: number;
    /** The random number, 0 to 65535. */
    collision: number;
    carriers: Carrier[];
}

export interface HandoverSelect {
    major: number;
    minor: number;
    carriers: Carrier[];
    error: HandoverError | null;
}

export interface HandoverError {
    reason: number;
    data: Uint8Array;
    /** What the data of the reasons 1 to 3 say. */
    number: number | null;
}

export interface HandoverCarrier {
    /** The carrier type format, 0 to 7. */
    format: number;
    type: Name;
    data: Uint8Array;
}

export interface Field {
    at: number;
    length: number;
    /** 0 in the message itself, 1 in a message within a payload. */
    depth: number;
    name: string;
}

export interface Link extends Carrier {
    /** The record that describes the carrier and its index in the message, or null. */
    record: TypedRecord | null;
    index: number | null;
}

export interface Explained {
    refusal: NdefError | null;
    /** The bytes of the message, or those before the refused byte. */
    length: number;
    fields: Field[];
    /** The records that are whole before the refused byte. */
    records: TypedRecord[];
}

/** Checks that the bytes begin with a message. Throws NdefError. */
export function check(bytes: Bytes, options?: Options): { length: number; records: number };
/** The message that the bytes are. Throws NdefError, also where other bytes follow the message. */
export function decode(bytes: Bytes, options?: Options): NDEFMessage;
/** The message with which the bytes begin, and its length in bytes. Throws NdefError. */
export function decodePrefix(bytes: Bytes, options?: Options): { message: NDEFMessage; length: number };
/**
 * The bytes of a message. A string is a text, and bytes are a record of the media type application/octet-stream. Throws TypeError for what makes no
 * record, RangeError for a record that can't be written, and NdefError for a smart poster whose data are none, and for a message that `decode` refuses
 * with the same options: its `record` says which one. `unchecked` writes that, too.
 */
export function encode(message: NDEFMessageInit | string | Bytes, options?: EncodeOptions): Uint8Array;
/**
 * What `encode` answers, in parts of a size: neither the message nor the payload of a record that comes in parts is whole in memory. Errors are those of
 * `encode`, in place of the part with the byte that `decode` would refuse; and RangeError where the parts of a payload have another length than was said,
 * in place of the first byte that is missing or too much.
 */
export function encodeParts(message: { records: Iterable<WholeRecord | RecordInParts<Iterable<Bytes>>> } | string | Bytes, options?: PartsOptions):
    Generator<Uint8Array, void, undefined>;
/** The same as a stream, which fails with the error. The parts of a payload may come later. */
export function encodeStream(message: {
    records: Iterable<WholeRecord | RecordInParts<Iterable<Bytes> | AsyncIterable<Bytes> | ReadableStream>>;
} | string | Bytes, options?: PartsOptions): ReadableStream<Uint8Array>;
/** The fields of the message with which the bytes begin. Throws NdefError. */
export function fields(bytes: Bytes, options?: Options): Field[];
/** All that can be said of the bytes, refused or not. */
export function explain(bytes: Bytes, options?: Options): Explained;
/** What was wanted where the bytes are refused, or what the reason means; null where they begin with a message. Payloads are checked, whatever `opaque` says. */
export function why(bytes: Bytes, options?: Options): string | null;
/** What may help where the bytes are refused, in a sentence that names commands; null where nothing is known to. The rest is as for `why`. */
export function hint(bytes: Bytes, options?: Options): string | null;
/** What may help where the bytes are refused, for a program. */
export interface FoundHint {
    /** What it is about. */
    kind: (typeof HINT)[keyof typeof HINT];
    /** The offset at which a message may begin; 0 where the hint names none. */
    place: number;
    /** The number of bytes that a tag has for that message; 0 where the hint names none. */
    length: number;
    /** A sentence of English, which names what a program calls. */
    text: string;
}
/** The hint for which `hint` has a sentence; null where it has none. */
export function findHint(bytes: Bytes, options?: Options): FoundHint | null;
/** The carriers of the first handover of a message, and their records. */
export function links(message: NDEFMessageInit): Link[];

declare global {
    // Those of the browser or of Node, where a program has their declarations.
    interface ReadableStream<R = any> {}
    interface WritableStream<W = any> {}
}

/** Turns bytes that arrive in parts into messages, for pipeThrough. */
export class NDEFDecoderStream {
    constructor(options?: Options);
    readonly readable: ReadableStream<NDEFMessage>;
    readonly writable: WritableStream<Bytes>;
}

type Writable<T> = { [K in keyof T]?: T[K] };

/** A record of a smart poster. Throws RangeError where it can't be written. */
export function smartPoster(poster: Writable<Omit<SmartPoster, "titles" | "icons">> & {
    uri: string; titles?: (Omit<Text, "utf16"> & { utf16?: boolean })[]; icons?: { mediaType: string | Bytes; data: Bytes }[];
}, id?: string): NDEFRecord;
type NewCarrier = Omit<Carrier, "reference" | "auxiliary"> & { reference: string | Bytes; auxiliary?: (string | Bytes)[] };
/** A record of a handover request of version 1.`minor`, by default 1.2. Throws RangeError where it can't be written. */
export function handoverRequest(request: {
    major?: number; minor?: number; collision: number; carriers?: NewCarrier[];
}, id?: string): NDEFRecord;
/** A record of a handover select of version 1.`minor`, by default 1.2. Throws RangeError where it can't be written. */
export function handoverSelect(select: {
    major?: number; minor?: number; carriers?: NewCarrier[];
    error?: { reason: number; data: string | Bytes } | { reason: number; number: number } | HandoverError | null;
}, id?: string): NDEFRecord;
/** A record of a handover carrier. Throws RangeError where it can't be written. */
export function handoverCarrier(carrier: { format: number; type: string | Bytes; data: string | Bytes }, id?: string): NDEFRecord;

/** The power states of carriers. */
export const POWER: { readonly INACTIVE: 0; readonly ACTIVE: 1; readonly ACTIVATING: 2; readonly UNKNOWN: 3 };
/** The actions of smart posters. */
export const ACTION: { readonly DO: 0; readonly SAVE: 1; readonly OPEN: 2 };
/** What payloads are. */
export const KIND: typeof Ndef.KIND;
/** What hints are about. */
export const HINT: typeof Ndef.HINT;

/** Compiles the library without holding up the page. Calls compile it themselves otherwise. */
export function ready(): Promise<void>;

export { Ndef } from "./ndef.js";
import { Ndef } from "./ndef.js";
