// The same as index.js, but the library is in a file of its own, ndef.wasm, to be copied beside the script of a bundler. So that script holds
// none of it, and it takes a quarter less than as text. `ready` fetches it, and has to end before the first other call.
import { provide } from "./library.js";

async function fetched() {
    try {
        const answer = await fetch(new URL("./ndef.wasm", import.meta.url));
        if (answer.ok) return await answer.arrayBuffer();
    } catch {
        // It can't be fetched: from a file: address, or by Node. The text in the file beside this one holds the same octets.
    }
    // Its address is an expression, so that bundlers leave the text out.
    return (await import(/* webpackIgnore: true */ /* @vite-ignore */ new URL("./ndef_wasm.mjs", import.meta.url).href)).default;
}

provide(fetched);
export * from "./all.js";
