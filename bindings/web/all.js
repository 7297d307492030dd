// What both entries of the package export.
export { check, decode, decodePrefix, explain, fields, findHint, hint, links, why } from "./message.js";
export { NDEFMessage, NDEFRecord, encode } from "./record.js";
export { ACTION, KIND, POWER, handoverCarrier, handoverRequest, handoverSelect, smartPoster } from "./builders.js";
export { NDEFDecoderStream } from "./stream.js";
export { encodeParts, encodeStream } from "./parts.js";
export { NdefError, ready } from "./library.js";
export { HINT } from "./interface.js";
export { Ndef } from "./ndef.js";
