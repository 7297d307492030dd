// node test/rust/answers.mjs MODULE.wasm: runs the program of test/c/answers.c, compiled for WebAssembly, and prints its lines.
import { readFileSync } from "node:fs";

let memory;
const put = (at, length) => process.stdout.write(Buffer.from(memory.buffer, at, length));
const { instance } = await WebAssembly.instantiate(readFileSync(process.argv[2]), { env: { put } });
memory = instance.exports.memory;
instance.exports.answers();
