// node test/web/fetched.mjs found|missing|failing: the entry of the package that fetches the library: it takes the file where that can be had and the text where it can't,
// and a call before `ready` says what is missing. Prints 'N passed, M failed'.
import { readFileSync } from "node:fs";
import { check, ready } from "../../out/web/fetched.js";
import { finish, same, test } from "./tests.mjs";

const EMPTY = Uint8Array.of(0xd0, 0, 0);
const FILE = new URL("../../out/web/ndef.wasm", import.meta.url);
const ANSWERS = {
    // What was compiled shows which was taken: the file here has a section more.
    found: async () => ({ ok: true, arrayBuffer: async () => Buffer.concat([readFileSync(FILE), Buffer.from([0, 2, 1, 0x78])]) }),
    missing: async () => ({ ok: false }),
    failing: async () => { throw new TypeError("no network"); },
};
const how = process.argv[2], size = readFileSync(FILE).length;
const asked = [], compiled = [];
globalThis.fetch = (place) => { asked.push(place.href); return ANSWERS[how](); };
const { instantiate } = WebAssembly;
WebAssembly.instantiate = (code, ...others) => { compiled.push(code.byteLength); return instantiate(code, ...others); };

await test("a call before ready says what is missing", async () => {
    let said = "";
    try { check(EMPTY); } catch (error) { said = error.message; }
    same([said.includes("await ready()"), asked.length], [true, 0]);
});
await test(`ready asks for the file beside the modules: ${how}`, async () => {
    await Promise.all([ready(), ready()]);
    same([asked, compiled, check(EMPTY).length], [[FILE.href], [how === "found" ? size + 4 : size], 3]);
});
finish();
