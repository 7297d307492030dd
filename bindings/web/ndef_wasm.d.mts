/** The content of ndef.wasm, the library for C compiled for WebAssembly. */
declare const code: Uint8Array;
export default code;
