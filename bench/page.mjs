// node page.mjs WEB FOLDER: measures for how long the web page, which `make web` makes in the folder WEB, holds up the browser with messages of
// FOLDER, whose digits are typed at once in a headless Chromium. Prints 'task NAME NANOSECONDS', the time of the page's task,
// 'layout NAME NANOSECONDS', that of the browser's layout after it, and 'all NAME NANOSECONDS', that until all of the message is there. Times are those of the clock, the least of three.
import { spawn } from "node:child_process";
import { mkdtempSync, readFileSync, rmSync } from "node:fs";
import { createServer } from "node:http";
import { tmpdir } from "node:os";
import { join } from "node:path";

const [, , web, folder] = process.argv;
const RUNS = 3;
const NAMES = ["hello", "records-100", "records-1000", "records-10000"];
const messages = Object.fromEntries(NAMES.map((name) => [name, readFileSync(join(folder, name)).toString("hex")]));

// Runs in the page.
async function measure(messages, runs) {
    const find = (id) => document.getElementById(id), wait = (pause) => new Promise((done) => { setTimeout(done, pause); });
    const nextFrame = () => new Promise((done) => { requestAnimationFrame(done); });
    const time = (call) => { const begun = performance.now(); call(); return performance.now() - begun; };
    const enter = (hex) => {
        find("records").value = 65535;
        find("hex").value = hex;
        find("hex").dispatchEvent(new Event("input"));
    };
    // What a message takes from its digits on, until a frame has all of it. In that frame the browser would do the layout anyway.
    const show = async (hex) => {
        enter("");
        await wait(50);
        const begun = performance.now(), task = time(() => enter(hex));
        await nextFrame();
        const layout = time(() => document.body.getBoundingClientRect());
        return { task, layout, all: performance.now() - begun };
    };
    for (let tries = 0; tries < 200 && !find("verdict").textContent; tries++) {
        await wait(50);
        enter(messages.hello);
    }
    const lines = [];
    for (const [name, hex] of Object.entries(messages)) {
        const least = { task: Infinity, layout: Infinity, all: Infinity };
        for (let run = 0; run < runs; run++) Object.entries(await show(hex)).forEach(([call, took]) => { least[call] = Math.min(least[call], took); });
        if (!find("verdict").textContent.startsWith("1 message")) throw new Error(`${name}: ${find("verdict").textContent}`);
        Object.entries(least).forEach(([call, took]) => lines.push(`${call} ${name} ${(took * 1e6).toFixed(0)}`));
    }
    return lines.join("\n");
}

const send = `(${measure})(${JSON.stringify(messages)}, ${RUNS}).catch((why) => "failed: " + why)
    .then((body) => fetch("/result", { method: "POST", body }));`;
// The policy of the page allows no script but its own.
const page = readFileSync(join(web, "index.html"), "utf8").replace('http-equiv="Content-Security-Policy"', 'name="policy"')
    .replace("</body>", () => `<script>${send}</script></body>`);
const profile = mkdtempSync(join(tmpdir(), "page-"));
let browser;

function finish(status) {
    browser.kill();
    browser.once("exit", () => { rmSync(profile, { recursive: true, force: true }); process.exit(status); });
}

const server = createServer((request, response) => {
    if (request.method !== "POST") return void response.writeHead(200, { "Content-Type": "text/html; charset=utf-8" }).end(page);
    let body = "";
    request.on("data", (part) => { body += part; });
    request.on("end", () => {
        response.end();
        console.log(body);
        finish(body.startsWith("failed") ? 1 : 0);
    });
});
server.listen(0, "127.0.0.1", () => {
    const address = `http://127.0.0.1:${server.address().port}/`;
    browser = spawn("chromium", ["--headless", "--no-sandbox", "--disable-gpu", `--user-data-dir=${profile}`, address], { stdio: "ignore" });
    setTimeout(() => { console.error("page.mjs: the page gave no answer in two minutes"); finish(1); }, 120000).unref();
});
