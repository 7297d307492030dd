// node test/web/strict.mjs PACKAGE: the package as a page of a server has it, in a browser, under a Content Security Policy that allows
// nothing but its modules and WebAssembly. Prints 'N passed, M failed'.
import { readFileSync } from "node:fs";
import { createServer } from "node:http";
import { join } from "node:path";
import { Browser } from "./browser.mjs";
import { finish, same, test } from "./tests.mjs";

const folder = process.argv[2], STRICT = "default-src 'none'; script-src 'self'";
const PROGRAM = `import { NDEFDecoderStream, decode, encode, ready } from "./index.js";
window.result = (async () => {
    try {
        if (location.pathname === "/later") await ready();
        const [record] = decode(Uint8Array.of(0xd1, 1, 8, 0x54, 2, 0x65, 0x6e, 0x48, 0x65, 0x6c, 0x6c, 0x6f)).records;
        const parts = new Blob([encode({ records: [record, { recordType: "url", data: "http://a" }] })]).stream();
        const { value } = await parts.pipeThrough(new NDEFDecoderStream()).getReader().read();
        return value.records.map(({ text, uri }) => text ?? uri);
    } catch (error) {
        return error.message;
    }
})();
`;
const PAGES = { "/page": `${STRICT} 'wasm-unsafe-eval'`, "/later": `${STRICT} 'wasm-unsafe-eval'`, "/closed": STRICT };

const asked = [];
const server = createServer(({ url }, answer) => {
    asked.push(url);
    if (PAGES[url]) {
        answer.writeHead(200, { "Content-Type": "text/html", "Content-Security-Policy": PAGES[url] });
        return answer.end('<!DOCTYPE html><script type="module" src="/program.js"></script>');
    }
    try {
        const text = url === "/program.js" ? PROGRAM : readFileSync(join(folder, url.slice(1)));
        answer.writeHead(200, { "Content-Type": "text/javascript" });
        answer.end(text);
    } catch {
        answer.writeHead(404);
        answer.end();
    }
});
await new Promise((done) => server.listen(0, "127.0.0.1", done));

const browser = await Browser.start(), own = `http://127.0.0.1:${server.address().port}`;
const resultOf = async (page) => { await browser.open(own + page, "window.result !== undefined"); return browser.evaluate("window.result"); };
try {
    await test("a page decodes, encodes and reads a stream", async () => same(await resultOf("/page"), ["Hello", "http://a"]));
    await test("a page compiles the library first", async () => same(await resultOf("/later"), ["Hello", "http://a"]));
    await test("a page without wasm-unsafe-eval has no library", async () => same(await resultOf("/closed"),
        "the Content Security Policy forbids WebAssembly: its script-src needs 'wasm-unsafe-eval'"));
    await test("it asks for modules alone", () => same(asked.filter((url) => !/^\/(page|later|closed|favicon\.ico|[a-z_]+\.m?js)$/.test(url)), []));
    await test("nothing is asked of others", () => same(browser.requests.filter((url) => !url.startsWith(own)), []));
    await test("there is no fault", () => same(browser.faults, []));
} finally {
    await browser.stop();
    server.close();
}
finish();
