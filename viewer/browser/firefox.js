/* Firefox, headless, over WebDriver BiDi, without packages. The same page as that of chromium.js. */

import fs from "node:fs";
import { Driver, start, wait, within } from "./driver.js";
import { openSocket } from "./socket.js";

/* What WebDriver calls the keys that write nothing. */
const KEYS = {
  Backspace: "\ue003",
  Tab: "\ue004",
  Enter: "\ue007",
  Shift: "\ue008",
  Control: "\ue009",
  Alt: "\ue00a",
  Escape: "\ue00c",
  PageUp: "\ue00e",
  PageDown: "\ue00f",
  End: "\ue010",
  Home: "\ue011",
  ArrowLeft: "\ue012",
  ArrowUp: "\ue013",
  ArrowRight: "\ue014",
  ArrowDown: "\ue015",
  Delete: "\ue017",
};

/* The socket of a browser that has begun to listen. */
async function connect(child) {
  let said = "";
  child.stderr.on("data", (data) => (said += data));
  for (let turn = 0; ; turn++) {
    const found = /WebDriver BiDi listening on (ws:\S+)/.exec(said);
    if (found) return within(openSocket(`${found[1]}/session`));
    if (turn > 1200 || child.exitCode !== null) throw new Error(`firefox did not start: ${said}`);
    await wait(50);
  }
}

class Firefox extends Driver {
  heard(method, params) {
    if (method === "log.entryAdded" && params.type === "javascript" && params.level === "error") this.exceptions.push(params.text);
  }

  async open() {
    await this.send("session.new", { capabilities: {} });
    await this.send("session.subscribe", { events: ["log.entryAdded"] });
    const { context } = await this.send("browsingContext.create", { type: "window" }); // headless, the first window has no focus
    this.context = context;
  }

  /* Opens a new page, and waits until it has drawn. */
  async goto(url) {
    for (const next of ["about:blank", url]) await this.send("browsingContext.navigate", { context: this.context, url: next, wait: "complete" });
    await this.drawn();
  }

  /* Reloads the page, as its user does. */
  async reload() {
    await this.send("browsingContext.reload", { context: this.context, wait: "complete" });
    await this.drawn();
  }

  /* The value of an expression in the page, which is one of JSON. */
  async run(expression) {
    const wrapped = `(async () => JSON.stringify((await (${expression})) ?? null))()`;
    const answer = await this.send("script.evaluate", { expression: wrapped, target: { context: this.context }, awaitPromise: true });
    if (answer.type === "exception") throw new Error(answer.exceptionDetails.text);
    return JSON.parse(answer.result.value);
  }

  async #press(actions) {
    await this.send("input.performActions", { context: this.context, actions });
  }

  /* Presses a key, with others held down, as in "Control+z"; the page has drawn when this is done. */
  async key(name) {
    const parts = name.length > 1 && name.includes("+") ? name.split("+") : [name];
    const values = parts.map((part) => KEYS[part] ?? part);
    const downs = values.map((value) => ({ type: "keyDown", value }));
    const ups = values.toReversed().map((value) => ({ type: "keyUp", value }));
    await this.#press([{ type: "key", id: "keys", actions: [...downs, ...ups] }]);
    await this.drawn();
  }

  async type(text) {
    const actions = [...text].flatMap((value) => ["keyDown", "keyUp"].map((type) => ({ type, value: value === "\n" ? KEYS.Enter : value })));
    await this.#press([{ type: "key", id: "keys", actions }]);
    await this.drawn();
  }

  /* Presses the keys of a text, one upon the other. */
  keys(text) {
    return this.type(text);
  }

  async click(x, y) {
    const move = { type: "pointerMove", x: Math.round(x), y: Math.round(y) };
    await this.#press([{ type: "pointer", id: "mouse", actions: [move, { type: "pointerDown", button: 0 }, { type: "pointerUp", button: 0 }] }]);
    await this.drawn();
  }

  async size(width, height, scale = 1) {
    await this.send("browsingContext.setViewport", { context: this.context, viewport: { width, height }, devicePixelRatio: scale });
  }

  async screenshot(file) {
    const { data } = await this.send("browsingContext.captureScreenshot", { context: this.context });
    fs.writeFileSync(file, Buffer.from(data, "base64"));
  }
}

export function openFirefox({ width = 1440, height = 900 } = {}) {
  const wordsFor = (folder) => ["--headless", "--no-remote", "--profile", folder, "--remote-debugging-port=0"];
  return start("firefox", "firefox-esr", wordsFor, async (child, folder) => {
    const page = new Firefox({ name: "firefox", child, folder, socket: await connect(child), closing: "browser.close" });
    await page.open();
    await page.size(width, height);
    return page;
  });
}
