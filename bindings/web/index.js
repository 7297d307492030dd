// NDEF messages for JavaScript, in the shape of Web NFC. The library in ndef_wasm.mjs decides about the format; README.md
// says what each name is.
import code from "./ndef_wasm.mjs";
import { provide } from "./library.js";

provide(code);
export * from "./all.js";
