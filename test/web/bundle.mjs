// node test/web/bundle.mjs SCRIPT TITLE: in a browser a page whose script is this file, with what lies beside it, gets this title.
import { readFileSync } from "node:fs";
import { createServer } from "node:http";
import { basename, dirname, join } from "node:path";
import { Browser } from "./browser.mjs";

const [script, title] = process.argv.slice(2), TYPES = { js: "text/javascript", wasm: "application/wasm" };
const server = createServer(({ url }, answer) => {
    const name = basename(url), type = TYPES[name.split(".").pop()] ?? "text/html";
    answer.writeHead(200, { "content-type": type });
    answer.end(type === "text/html" ? `<!doctype html><script type="module" src="${basename(script)}"></script>` : readFileSync(join(dirname(script), name)));
});
await new Promise((go) => server.listen(0, "127.0.0.1", go));
const browser = await Browser.start();
try {
    await browser.open(`http://127.0.0.1:${server.address().port}/`, `document.title === ${JSON.stringify(title)}`);
} finally {
    await browser.stop();
    server.close();
}
