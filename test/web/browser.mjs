// A headless Chromium, driven by the DevTools protocol over a pipe.
import { spawn } from "node:child_process";
import { mkdtempSync, rmSync, writeFileSync } from "node:fs";
import { tmpdir } from "node:os";
import { join } from "node:path";

// (in a chroot nobody may write /dev/shm)
const FLAGS = ["--headless", "--no-sandbox", "--disable-gpu", "--hide-scrollbars", "--remote-debugging-pipe", "--no-first-run", "--disable-dev-shm-usage"];
// The milliseconds after which the browser, or a page that hangs, is given up.
const LIMIT = 240000;
// The keys that tests press, with their codes.
const KEYS = { Tab: 9, Enter: 13, " ": 32, ArrowLeft: 37, ArrowUp: 38, ArrowRight: 39, ArrowDown: 40, End: 35, Home: 36, PageDown: 34, PageUp: 33 };

export class Browser {
    #process;
    #waiting = new Map();
    #listeners = [];
    #rest = "";
    #number = 0;
    #folder = mkdtempSync(join(tmpdir(), "browser-"));
    #session;

    static async start() {
        const browser = new Browser();
        await browser.#start();
        return browser;
    }

    async #start() {
        const stdio = ["ignore", "ignore", "ignore", "pipe", "pipe"];
        this.#process = spawn("chromium", [...FLAGS, `--user-data-dir=${this.#folder}`, "about:blank"], { stdio });
        this.#process.stdio[4].setEncoding("utf8").on("data", (text) => this.#take(text));
        const { targetInfos } = await this.send("Target.getTargets"), { targetId } = targetInfos.find(({ type }) => type === "page");
        const { sessionId } = await this.send("Target.attachToTarget", { targetId, flatten: true });
        this.#session = sessionId;
        for (const domain of ["Page", "Runtime", "Network", "Accessibility"]) await this.send(`${domain}.enable`);
        await this.send("Emulation.setFocusEmulationEnabled", { enabled: true });
        this.requests = [];
        this.faults = [];
        this.on("Network.requestWillBeSent", ({ request }) => this.requests.push(request.url));
        this.on("Runtime.exceptionThrown", ({ exceptionDetails }) => this.faults.push(exceptionDetails.exception?.description ?? exceptionDetails.text));
    }

    #take(text) {
        const parts = (this.#rest + text).split("\0");
        this.#rest = parts.pop();
        for (const part of parts) {
            const { id, result, error, method, params } = JSON.parse(part);
            if (id === undefined) this.#listeners.forEach(([name, call]) => { if (name === method) call(params); });
            else if (error) this.#waiting.get(id).refuse(new Error(error.message));
            else this.#waiting.get(id).take(result);
        }
    }

    on(name, call) { this.#listeners.push([name, call]); }

    send(method, params = {}) {
        const id = ++this.#number;
        this.#process.stdio[3].write(JSON.stringify({ id, method, params, sessionId: this.#session }) + "\0");
        return new Promise((take, refuse) => {
            this.#waiting.set(id, { take, refuse });
            setTimeout(() => refuse(new Error(`no answer to ${method} within ${LIMIT} ms`)), LIMIT).unref();
        });
    }

    // Opens a page and waits until an expression is true in it.
    async open(url, ready = "true") {
        this.requests.length = 0;
        await this.send("Page.navigate", { url: "about:blank" });
        await this.send("Page.navigate", { url });
        await this.until(`document.readyState === "complete" && (${ready})`);
    }

    async until(condition) {
        for (const end = Date.now() + LIMIT; Date.now() < end;) {
            if (await this.evaluate(condition).catch(() => false)) return;
            await new Promise((go) => setTimeout(go, 25));
        }
        throw new Error(`never true: ${condition}`);
    }

    // The value of an expression in the page.
    async evaluate(expression) {
        const { result, exceptionDetails } = await this.send("Runtime.evaluate", { expression, returnByValue: true, awaitPromise: true });
        if (exceptionDetails) throw new Error(exceptionDetails.exception?.description ?? exceptionDetails.text);
        return result.value;
    }

    async press(key, modifiers = 0) {
        const text = { Enter: "\r", " ": " " }[key], given = { key, code: key, windowsVirtualKeyCode: KEYS[key], modifiers };
        await this.send("Input.dispatchKeyEvent", { type: text ? "keyDown" : "rawKeyDown", text, ...given });
        await this.send("Input.dispatchKeyEvent", { type: "keyUp", ...given });
    }

    async type(text) { await this.send("Input.insertText", { text }); }

    async size(width, height, scale = 1) {
        await this.send("Emulation.setDeviceMetricsOverride", { width, height, deviceScaleFactor: scale, mobile: false });
    }

    async colours(value) {
        await this.send("Emulation.setEmulatedMedia", { features: [{ name: "prefers-color-scheme", value }] });
    }

    // A picture of the whole page in a file.
    async picture(file) {
        const { data } = await this.send("Page.captureScreenshot", { captureBeyondViewport: true });
        writeFileSync(file, Buffer.from(data, "base64"));
    }

    async stop() {
        const ended = new Promise((done) => this.#process.on("exit", done));
        this.#session = undefined;
        this.send("Browser.close").catch(() => {});
        setTimeout(() => this.#process.kill("SIGKILL"), LIMIT / 6).unref();
        await ended;
        rmSync(this.#folder, { recursive: true, force: true, maxRetries: 5 });
    }
}
