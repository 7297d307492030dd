// node test/web/readme.mjs README FOLDER: runs each program of the README in FOLDER, and compares what it prints with the text
// after it. Prints 'N passed, M failed'.
import { spawnSync } from "node:child_process";
import { readFileSync, writeFileSync } from "node:fs";

const [readme, folder] = process.argv.slice(2);
let passed = 0, failed = 0;
for (const [, program, wanted] of readFileSync(readme, "utf8").matchAll(/^```js\n(.*?)^```\n\nIt prints\n\n```text\n(.*?)^```$/gms)) {
    writeFileSync(`${folder}/program.mjs`, program);
    const { stdout, stderr } = spawnSync("node", ["program.mjs"], { cwd: folder, encoding: "utf8" });
    if (stdout === wanted && stderr === "") passed++;
    else { failed++; console.log(`FAILED: ${program}\n${stdout}${stderr}`); }
}
console.log(`${passed} passed, ${failed} failed`);
process.exit(failed || !passed ? 1 : 0);
