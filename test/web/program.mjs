// node test/web/program.mjs COMMAND COUNT <LINES: compares the commands in WebAssembly, as the page runs them, with the command ndef-explain of this machine:
// some of the suite's cases, given as lines, and damaged ones; inputs without bytes and too long ones; output that nobody reads; and memory that is
// taken and given back. Prints 'N passed, M failed'.
import { spawnSync } from "node:child_process";
import { Program } from "../../bindings/web/page_program.js";
import packed from "../../out/web/commands_wasm.mjs";
import { cases, finish, hexOf, same, test } from "./tests.mjs";

const [, , command, count] = process.argv;
const program = await Program.load(packed);

// The status and the output by the page's program, which gets it in parts, and by the command.
function ours(words, input) {
    const parts = [], status = program.run(["ndef-explain", ...words], input, (part) => parts.push(part.slice()) > 0);
    return [status, Buffer.concat(parts).toString()];
}

function theirs(words, input) {
    const { status, stdout } = spawnSync(command, words, { input, maxBuffer: 2 ** 30 });
    return [status, stdout.toString()];
}

const isAlike = (words, input) => same([words, hexOf(input.subarray(0, 99)), ...ours(words, input)], [words, hexOf(input.subarray(0, 99)), ...theirs(words, input)]);

// Numbers below a bound, the same in each run.
let state = 1;
const random = (bound) => { state = (Math.imul(state, 1664525) + 1013904223) >>> 0; return Math.floor(state / 2 ** 32 * bound); };

function damaged(bytes) {
    const changed = Uint8Array.from(bytes);
    if (changed.length > 0) changed[random(changed.length)] = random(256);
    return changed;
}

const all = cases().filter(({ options }) => !options.opaque), WORDS = [["--json"], [], ["--json", "--profile", "standard"], ["--raw"], ["--utf8", "--records", "2"]];
await test("cases and damaged ones", () => {
    for (let left = Number(count); left > 0; left--) isAlike(WORDS[random(WORDS.length)], left % 2 ? damaged(all[random(all.length)].bytes) : all[random(all.length)].bytes);
});
const text = (words) => new TextEncoder().encode(words);
await test("texts that spell bytes, or none", () => {
    for (const said of ["d1 01 08", "209 1 8 84", "00000000: d000 00\n", "00000000  d0 00 00  |...|\n*\n00000030\n", "D10", "D1 0G", "", "*\n", "0000000 01d1\n0000002\n", "\u00e9"])
        for (const words of [["--hex", "--raw"], ["--hex"], ["--hex", "--json"]]) isAlike(words, text(said));
});
await test("words that are wrong", () => { for (const words of [["--payload", "0", "--json"], ["--records", "x"], ["--no"], ["--help"], ["/no/file"]]) isAlike(words, text("")); });
await test("large inputs", () => {
    const one = new Uint8Array(300000), many = Uint8Array.from({ length: 90000 }, (_, at) => (at % 3 ? 0 : 0xd0));
    one.set([0xc5, 0, 0, 4, 0x93, 0xda]);
    for (const input of [one, many, new Uint8Array(2 ** 24 + 1)]) isAlike(["--json"], input);
});
await test("output that nobody reads", () => {
    let asked = 0;
    same([program.run(["ndef-explain"], Uint8Array.of(0xd0, 0, 0), () => { asked++; return false; }), asked > 0], [3, true]);
});
await test("the memory of a run ends with it", () => { for (let left = 3000; left > 0; left--) ours(["--json"], all[0].bytes); });
finish();
