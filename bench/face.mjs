// node face.mjs WEB FOLDER MILLISECONDS: times the module for JavaScript, which `make web` makes in the folder WEB: a message with its records,
// and the same with the value of the first one; and beside the parser of hand.mjs what its package makes of a message: records, values, an error.
import { readFileSync } from "node:fs";
import { pathToFileURL } from "node:url";
import { parse } from "./hand.mjs";

const [, , web, folder, words] = process.argv;
const { Ndef } = await import(pathToFileURL(`${web}/ndef.js`));
const { decode, ready } = await import(pathToFileURL(`${web}/index.js`));
const ndef = await Ndef.load(readFileSync(`${web}/ndef.wasm`));
const milliseconds = Number(words);

// The nanoseconds of processor time that this process took.
function now() {
    const { user, system } = process.cpuUsage();
    return (user + system) * 1000;
}

// Prints the nanoseconds of each call: the least of batches of five milliseconds or of one call. The calls take turns, so that other work on the
// machine meets all of them.
function time(name, calls) {
    const rows = Object.entries(calls).map(([operation, call]) => ({ operation, call, batch: 1, least: Infinity }));
    for (const begun = now(); now() - begun < rows.length * milliseconds * 1e6;) rows.forEach(runBatch);
    for (const { operation, least } of rows) if (least < Infinity) console.log(`${operation} ${name} ${least.toFixed(1)}`);
}

function runBatch(row) {
    const from = now();
    for (let i = 0; i < row.batch; i++) row.call();
    const took = now() - from;
    if (took >= 5e6) row.least = Math.min(row.least, took / row.batch);
    else row.batch *= 2;
}

function read(bytes) {
    if (ndef.check(bytes).status !== Ndef.OK) throw new Error("refused");
    return ndef.records(bytes);
}

const values = { hello: "text", uri: "uri", poster: "poster", "ascii-1M": "text", "wide-1M": "text" };
for (const name of ["hello", "uri", "poster", "records-1000", "ascii-1M", "wide-1M"]) {
    const bytes = new Uint8Array(readFileSync(`${folder}/${name}`));
    time(name, { read: () => read(bytes) });
    if (values[name]) time(name, { value: () => ndef[values[name]](read(bytes)[0].payload) });
}

function refused(call) {
    try {
        call();
    } catch (error) {
        return error;
    }
    throw new Error("not refused");
}

// The same by the package and by hand.
function both(what, name, call) {
    time(name, { [what]: () => call(decode), [`hand-${what}`]: () => call(parse) });
}

await ready();
const first = { hello: "text", uri: "uri" };
for (const name of ["hello", "uri", "records-1000", "cut"]) {
    const bytes = new Uint8Array(readFileSync(`${folder}/${name}`));
    if (name === "cut") {
        both("decode", name, (reads) => refused(() => reads(bytes)));
        continue;
    }
    both("decode", name, (reads) => reads(bytes));
    both("values", name, (reads) => reads(bytes).records.reduce((sum, record) => sum + record[first[name] ?? "text"].length, 0));
}
