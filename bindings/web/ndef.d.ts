// The library for C, call by call. ndef.js says what each method answers; include/ndef.h documents the calls.
import type { Bytes } from "./index.js";

declare global {
    // That of the browser or of Node, where a program has its declarations.
    namespace WebAssembly { interface Memory {} }
}

/** Bytes, or a string, which is written in UTF-8. */
export type Characters = string | Bytes;

export interface Limits {
    payload?: number;
    records?: number;
    chunks?: number;
    /** Ndef.STANDARD, Ndef.OPAQUE, or both. */
    flags?: number;
}

export interface Checked {
    status: number;
    place: number;
    records: number;
    reason: number;
}

/** The answer of a call that reads a payload: its members where the status is Ndef.OK. */
export type Answer<Members> = ({ status: 0 } & Members) | Refused | { status: 3 };

export interface Refused {
    status: 1;
    place: number;
    records: number;
    reason: number;
}

/** The answer of a call that writes. */
export type Written = { status: 0; bytes: Uint8Array } | { status: 3 };

export interface Part {
    at: number;
    length: number;
}

export interface TextPlaces {
    languageAt: number;
    languageLength: number;
    textAt: number;
    textLength: number;
}

export interface RecordRead {
    status: 0;
    tnf: number;
    last: boolean;
    kind: number;
    at: number;
    end: number;
    typeAt: number;
    typeLength: number;
    idAt: number;
    idLength: number;
    payloadAt: number;
    partLength: number;
    payloadLength: number;
    chunks: number;
    type: Uint8Array;
    id: Uint8Array;
    payload: Uint8Array;
}

export interface Alternative {
    power: number;
    references: Characters[];
}

export class Ndef {
    static readonly OK: 0;
    static readonly REFUSED: 1;
    static readonly BUFFER_TOO_SMALL: 2;
    static readonly BAD_ARGUMENT: 3;
    static readonly END: 4;
    static readonly MORE: 5;
    static readonly STANDARD: 1;
    static readonly OPAQUE: 2;
    static readonly WRITE_FIRST: 1;
    static readonly WRITE_LAST: 2;
    static readonly WRITE_LONG: 4;
    static readonly AS_UTF16: 1;
    static readonly KIND: {
        readonly OTHER: 0; readonly TEXT: 1; readonly URI: 2; readonly SMART_POSTER: 3; readonly REQUEST: 4; readonly SELECT: 5;
        readonly CARRIER: 6; readonly ACTION: 7; readonly SIZE: 8; readonly MEDIA_TYPE: 9; readonly ALTERNATIVE: 10;
        readonly COLLISION: 11; readonly ERROR: 12;
    };

    /** What a hint is about. */
    static readonly HINT: {
        readonly TLV: 1; readonly ATTRIBUTES: 2; readonly FILE: 3; readonly MESSAGE: 4; readonly TERMINATOR: 5; readonly DIGITS: 6;
        readonly XXD: 7; readonly HEXDUMP: 8; readonly WORDS: 9; readonly FLIPPER: 10; readonly PROXMARK: 11; readonly BASE64: 12;
        readonly CODE: 13; readonly STANDARD: 14; readonly INTERRUPTED: 15; readonly UNFINISHED: 16; readonly OD: 17;
    };

    /** Loads the library, of the content of ndef.wasm. */
    static load(code: Bytes): Promise<Ndef>;
    static loadNow(code: Bytes): Ndef;

    /** Every call of ndef.h by its name: addresses and numbers are numbers. */
    readonly calls: Record<string, (...given: (number | bigint)[]) => number>;
    readonly memory: WebAssembly.Memory;

    check(bytes: Bytes, options?: Limits): Checked;
    checkAll(bytes: Bytes, options?: Limits): (Checked & { at: number })[];
    checkFrom(bytes: Bytes, place: number, most: number, options?: Limits): (Checked & { at: number })[];
    begin(options?: Limits): Uint8Array;
    feed(state: Uint8Array, bytes: Bytes): Checked;
    feedAll(state: Uint8Array, bytes: Bytes, options?: Limits): (Checked & { at: number })[];
    fields(bytes: Bytes, options?: Limits): Checked & { fields: { at: number; length: number; depth: number; name: string }[] };
    firstFields(bytes: Bytes, most: number, options?: Limits): Checked & { fields: { at: number; length: number; depth: number; name: string }[] };
    fieldsWithin(bytes: Bytes, from: number, to: number, options?: Limits): Checked & { fields: { at: number; length: number; depth: number; name: string }[] };
    fieldName(name: number): string | null;
    defaultLimits(): Required<Limits>;
    reasonName(reason: number): string | null;
    reasonSentence(reason: number): string | null;
    statusName(status: number): string | null;
    why(bytes: Bytes, options?: Limits): string | null;
    hint(bytes: Bytes, options?: Limits): string | null;
    findHint(bytes: Bytes, options?: Limits): { hint: number; at: number; length: number } | null;
    fieldWarning(name: string, bytes: Bytes): string | null;
    recordWarning(bytes: Bytes, index: number): string | null;
    version(): [number, number, number];

    recordAt(bytes: Bytes, place: number, within?: number): RecordRead | { status: 3 | 4 };
    records(bytes: Bytes, within?: number): RecordRead[];
    recordsFrom(bytes: Bytes, place: number, most: number, within?: number): RecordRead[];
    uri(payload: Bytes, flags?: number): Answer<{ text: string }>;
    text(payload: Bytes): Answer<TextPlaces & { utf16: boolean; language: string; text: string }>;
    poster(payload: Bytes, flags?: number): Answer<{
        uriAt: number; uriLength: number; uri: string; action: number | null; size: number | null;
    }>;
    posterTitles(payload: Bytes): (TextPlaces & { utf16: number })[];
    posterMediaType(payload: Bytes): Part | null;
    posterIcons(payload: Bytes): { mediaType: Part; data: Part }[];
    request(payload: Bytes, flags?: number): Answer<{ carriers: number; major: number; minor: number; collision: number }>;
    select(payload: Bytes, flags?: number): Answer<{
        carriers: number; detailAt: number; detailLength: number; major: number; minor: number; error: number | null;
    }>;
    carrier(payload: Bytes): Answer<{ typeAt: number; typeLength: number; dataAt: number; dataLength: number; format: number }>;
    alternative(payload: Bytes): Answer<{ power: number; references: Part[] }>;
    error(payload: Bytes): Answer<{ dataAt: number; dataLength: number; errorReason: number; number: number | null }>;
    links(bytes: Bytes, payload: Bytes): {
        carrierAt: number; carrierLength: number; recordIndex: number | null; recordAt: number | null;
    }[];

    writeRecord(record: {
        tnf: number; type?: Characters; id?: Characters; payload?: Characters; flags?: number; chunk?: number;
    }): Written;
    beginRecord(record: {
        tnf: number; type?: Characters; id?: Characters; length: number; flags?: number; chunk?: number;
    }): { status: 0; state: Uint8Array } | { status: 3 };
    writeNext(state: Uint8Array, record: { type?: Characters; id?: Characters }, part: Bytes, most: number):
        { status: 0; bytes: Uint8Array; taken: number } | { status: 3 | 4 };
    writeUri(uri: Characters): Written;
    writeText(language: Characters, text: Characters, flags?: number): Written;
    writeCarrier(format: number, type: Characters, data?: Characters): Written;
    writeAlternative(power: number, references: Characters[]): Written;
    writeAction(action: number): Written;
    writeSize(size: number): Written;
    writeCollision(number: number): Written;
    writeError(reason: number, data?: Characters): Written;
    writeErrorNumber(reason: number, number: number): Written;
    writeHandover(isSelect: boolean, major: number, minor: number, message?: Characters): Written;
    writePoster(poster: {
        uri: Characters;
        titles?: { language: Characters; text: Characters; utf16?: boolean }[];
        action?: number | null;
        size?: number | null;
        mediaType?: Characters | null;
        icons?: { mediaType: Characters; data: Characters }[];
    }): Written;
    writeRequest(request: { minor: number; collision: number; alternatives?: Alternative[] }): Written;
    writeSelect(select: {
        minor: number; alternatives?: Alternative[]; error?: { reason: number; data?: Characters } | null;
    }): Written;
    normalize(bytes: Bytes, flags?: number): Written;
}
