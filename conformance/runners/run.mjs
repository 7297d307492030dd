// SPDX-License-Identifier: CC0-1.0 OR MIT OR Apache-2.0
// node run.mjs READER [typed|leaf|opaque [strict|standard]]: runs the cases on a reader. READER is a module whose default is a
// function of the octets (a Uint8Array), which returns the length of the message with which they begin, or null.
import { readFileSync } from "node:fs";
import { resolve } from "node:path";
import { pathToFileURL } from "node:url";

const [path, language = "typed", profile = "strict"] = process.argv.slice(2);
const { default: lengthOf } = await import(pathToFileURL(resolve(path)));
const counts = {};
for (const line of readFileSync(new URL("../cases.jsonl", import.meta.url), "utf8").split("\n").filter(Boolean)) {
    const { id, rule, class: of, languages, profiles, limits, bytes, length = null } = JSON.parse(line);
    const isUsual = limits?.payload === 1048576 && limits.records === 1024 && limits.pieces === 4096;
    if (!isUsual || !languages.includes(language) || !profiles.includes(profile)) continue;
    counts[of] ??= { run: 0, wrong: 0 };
    counts[of].run++;
    const found = lengthOf(Uint8Array.from(Buffer.from(bytes, "hex")));
    if (found === length) continue;
    counts[of].wrong++;
    console.log(id, rule, of, bytes, "wanted", length, "got", found);
}
for (const [of, { run, wrong }] of Object.entries(counts)) console.log(`${of}: ${run} cases, ${wrong} wrong`);
process.exit(Object.values(counts).some(({ wrong }) => wrong) ? 1 : 0);
