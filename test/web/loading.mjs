// node test/web/loading.mjs: how the package loads the library: where a policy forbids WebAssembly the error says what the policy lacks, another
// fault stays as it is, and the library is compiled once, whoever waits for it. Prints 'N passed, M failed'.
import { check, ready } from "../../out/web/index.js";
import "../../out/web/fetched.js"; // of both entries the one that has the library is taken, so that calls need no ready()
import { finish, same, test } from "./tests.mjs";

const { Module, instantiate } = WebAssembly;
const EMPTY = Uint8Array.of(0xd0, 0, 0);

// What each way to load says while both ways of WebAssembly throw an error.
async function said(error) {
    WebAssembly.Module = function () { throw error; };
    WebAssembly.instantiate = async () => { throw error; };
    const messages = [];
    for (const call of [async () => check(EMPTY), ready, ready]) await call().catch(({ message }) => messages.push(message));
    Object.assign(WebAssembly, { Module, instantiate });
    return messages;
}

await test("a policy that forbids WebAssembly is named", async () => {
    const messages = [...await said(new WebAssembly.CompileError("refused")), ...await said(new EvalError("refused"))];
    same([messages.length, messages.every((text) => text.includes("wasm-unsafe-eval"))], [6, true]);
});
await test("another fault stays as it is", async () => same(await said(new RangeError("no memory")), Array(3).fill("no memory")));
await test("the library is compiled once", async () => {
    let count = 0;
    WebAssembly.instantiate = (...given) => { count++; return instantiate(...given); };
    await Promise.all([ready(), ready()]);
    await ready();
    same([check(EMPTY).length, count], [3, 1]);
});
await test("a program with both entries of the package has the octets", async () => {
    const fetched = await import("../../out/web/fetched.js");
    await fetched.ready();
    same(fetched.check(EMPTY).length, 3);
});
finish();
