/** Browsers without a window, over WebDriver BiDi (Firefox) and the debugging protocol (Chromium). Wants node --experimental-websocket. */
import { spawn } from "node:child_process";
import fs from "node:fs";
import os from "node:os";
import path from "node:path";

const wait = (milliseconds) => new Promise((done) => setTimeout(done, milliseconds));

/** What `find` gives as soon as it gives something. */
async function soon(what, find) {
    for (let turn = 0; turn < 1200; turn++) {
        const found = await find();
        if (found) return found;
        await wait(50);
    }
    throw new Error(`${what}: not within a minute`);
}

/** A socket whose messages answer each other by number. */
async function opened(address) {
    const socket = new WebSocket(address);
    await new Promise((done, failed) => {
        socket.addEventListener("open", done);
        socket.addEventListener("error", failed);
    });
    const calls = new Map();
    socket.addEventListener("message", ({ data }) => {
        const { id, result, error, message } = JSON.parse(data);
        if (!calls.has(id)) return;
        const [done, failed] = calls.get(id);
        if (error) failed(new Error(message ?? error.message ?? error));
        else done(result);
    });
    return (method, params) =>
        new Promise((done, failed) => {
            const id = calls.size + 1;
            calls.set(id, [done, failed]);
            socket.send(JSON.stringify({ id, method, params }));
        });
}

/** Each: how it is started, and what opens a page there and gives its version and how to evaluate an expression in it. */
export const BROWSERS = {
    chromium: {
        words: (folder) => ["--headless", "--no-sandbox", "--disable-gpu", "--remote-debugging-port=0", `--user-data-dir=${folder}`, "about:blank"],
        async open(child, folder, url) {
            const file = path.join(folder, "DevToolsActivePort");
            const port = await soon("chromium starts", () => fs.existsSync(file) && fs.readFileSync(file, "utf8").split("\n")[0]);
            const get = async (what) => (await fetch(`http://127.0.0.1:${port}/json/${what}`)).json();
            const target = await soon("chromium has a page", async () => (await get("list")).find(({ type }) => type === "page"));
            const send = await opened(target.webSocketDebuggerUrl);
            await send("Page.navigate", { url });
            return { version: (await get("version")).Browser, run: async (expression) => (await send("Runtime.evaluate", { expression })).result.value };
        },
    },
    "firefox-esr": {
        words: (folder) => ["--headless", "--no-remote", "--profile", folder, "--remote-debugging-port=0"],
        async open(child, folder, url) {
            const file = path.join(folder, "WebDriverBiDiServer.json");
            const { ws_host: host, ws_port: port } = await soon("firefox starts", () => fs.existsSync(file) && JSON.parse(fs.readFileSync(file, "utf8")));
            const send = await opened(`ws://${host}:${port}/session`);
            const { capabilities } = await send("session.new", { capabilities: {} });
            const { contexts } = await send("browsingContext.getTree", {});
            const target = { context: contexts[0].context };
            await send("browsingContext.navigate", { ...target, url, wait: "complete" });
            const run = async (expression) => (await send("script.evaluate", { expression, target, awaitPromise: false })).result?.value;
            return { version: `${capabilities.browserName} ${capabilities.browserVersion}`, run };
        },
    },
};

/**
 * The text of elements of a page, as soon as all have one.
 * @param {string} name of BROWSERS
 * @param {string} url
 * @param {string[]} elements their ids
 * @returns {Promise<{version: string, texts: string[]}>}
 */
export async function textsOf(name, url, elements) {
    const { words, open } = BROWSERS[name];
    const folder = fs.mkdtempSync(path.join(os.tmpdir(), "otbench-browser-"));
    const child = spawn(name, words(folder), { stdio: "ignore" });
    const gone = new Promise((done) => child.once("exit", done));
    try {
        const { version, run } = await open(child, folder, url);
        const texts = [];
        for (const id of elements) texts.push(await soon(`${name} fills ${id}`, () => run(`document.getElementById("${id}")?.textContent`)));
        return { version, texts };
    } finally {
        child.kill();
        await gone;
        fs.rmSync(folder, { recursive: true, force: true, maxRetries: 30, retryDelay: 100 });
    }
}
