/* Chromium, headless, over its debugging protocol, without packages. */

import fs from "node:fs";
import path from "node:path";
import { Driver, start, wait, within } from "./driver.js";
import { openSocket } from "./socket.js";

/* What the protocol calls the keys that are held down with others. */
const HELD = { Alt: 1, Control: 2, Meta: 4, Shift: 8 };

const KEY_CODES = {
  Backspace: 8,
  Delete: 46,
  Escape: 27,
  Control: 17,
  Shift: 16,
  Tab: 9,
  Enter: 13,
  PageUp: 33,
  PageDown: 34,
  End: 35,
  Home: 36,
  ArrowLeft: 37,
  ArrowUp: 38,
  ArrowRight: 39,
  ArrowDown: 40,
};

/* The socket of the browser's one page. */
async function connect(folder) {
  const file = path.join(folder, "DevToolsActivePort");
  for (let turn = 0; !fs.existsSync(file) || !fs.readFileSync(file, "utf8").includes("\n"); turn++) {
    if (turn > 600) throw new Error("chromium did not start");
    await wait(50);
  }
  const [port] = fs.readFileSync(file, "utf8").split("\n");
  const targets = await (await fetch(`http://127.0.0.1:${port}/json/list`)).json();
  return within(openSocket(targets.find((target) => target.type === "page").webSocketDebuggerUrl));
}

class Chromium extends Driver {
  #loaded = null;

  heard(method, params) {
    if (method === "Page.loadEventFired") this.#loaded?.();
    else if (method === "Inspector.targetCrashed") this.exceptions.push("the page crashed");
    else if (method === "Runtime.exceptionThrown") {
      const { exception, text } = params.exceptionDetails;
      this.exceptions.push(exception ? exception.description : text);
    }
  }

  /* Waits until what a call loads has loaded. */
  async #load(method, params) {
    const loaded = new Promise((done) => (this.#loaded = done));
    await this.send(method, params);
    await within(loaded).catch(() => {
      throw new Error(`chromium, ${method} ${params?.url ?? ""}: nothing was loaded`);
    });
  }

  /* Opens a new page, and waits until it has drawn. */
  async goto(url) {
    for (const next of ["about:blank", url]) await this.#load("Page.navigate", { url: next });
    await this.drawn();
  }

  /* Reloads the page, as its user does. */
  async reload() {
    await this.#load("Page.reload");
    await this.drawn();
  }

  /* The value of an expression in the page. */
  async run(expression) {
    const { result, exceptionDetails } = await this.send("Runtime.evaluate", { expression, awaitPromise: true, returnByValue: true });
    if (exceptionDetails) throw new Error(exceptionDetails.exception ? exceptionDetails.exception.description : exceptionDetails.text);
    return result.value;
  }

  /* Presses a key, with others held down, as in "Control+z"; the page has drawn when this is done. */
  async key(name) {
    const parts = name.length > 1 && name.includes("+") ? name.split("+") : [name];
    const held = parts.slice(0, -1);
    const key = parts[parts.length - 1];
    const modifiers = held.reduce((sum, other) => sum | HELD[other], 0);
    const isCommand = (modifiers & ~HELD.Shift) !== 0;
    const text = isCommand ? undefined : key === "Enter" ? "\r" : key.length === 1 ? key : undefined;
    const press = { key, code: key, modifiers, windowsVirtualKeyCode: KEY_CODES[key] || key.toUpperCase().charCodeAt(0) };
    await this.send("Input.dispatchKeyEvent", { type: text ? "keyDown" : "rawKeyDown", ...press, text });
    await this.send("Input.dispatchKeyEvent", { type: "keyUp", ...press });
    await this.drawn();
  }

  async type(text) {
    await this.send("Input.insertText", { text });
  }

  /* Presses the keys of a text, one upon the other. */
  async keys(text) {
    for (const key of text) {
      // The number of a key is a letter's or a digit's; that of a quote would be Page Down.
      const press = { key, code: key, windowsVirtualKeyCode: /^[a-z0-9 ]$/i.test(key) ? key.toUpperCase().charCodeAt(0) : 0 };
      await this.send("Input.dispatchKeyEvent", { type: "keyDown", ...press, text: key });
      await this.send("Input.dispatchKeyEvent", { type: "keyUp", ...press });
    }
    await this.drawn();
  }

  async click(x, y) {
    for (const type of ["mousePressed", "mouseReleased"])
      await this.send("Input.dispatchMouseEvent", { type, x, y, button: "left", clickCount: 1 });
    await this.drawn();
  }

  async size(width, height, scale = 1) {
    await this.send("Emulation.setDeviceMetricsOverride", { width, height, deviceScaleFactor: scale, mobile: false });
  }

  async screenshot(file) {
    const { data } = await this.send("Page.captureScreenshot", { format: "png" });
    fs.writeFileSync(file, Buffer.from(data, "base64"));
  }
}

export function openChromium({ width = 1440, height = 900 } = {}) {
  const words = ["--headless", "--no-sandbox", "--disable-gpu", "--hide-scrollbars", "--force-color-profile=srgb", "--allow-file-access-from-files"];
  const wordsFor = (folder) => [...words, "--remote-debugging-port=0", `--user-data-dir=${folder}`, "about:blank"];
  return start("chromium", "chromium", wordsFor, async (child, folder) => {
    const page = new Chromium({ name: "chromium", child, folder, socket: await connect(folder), closing: "Browser.close" });
    await page.send("Page.enable");
    await page.send("Runtime.enable");
    await page.size(width, height);
    return page;
  });
}
