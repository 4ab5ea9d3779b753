/* A user of the page with the engine, for any browser: real keys and clicks. */

import { wait } from "./driver.js";
import { addressOfPage } from "./otbench.js";

export const quoted = (value) => JSON.stringify(value);

/* A clipboard's event in the page, with what is to be pasted; gives what was copied. Firefox takes no clipboard of a script. */
export const clipboardEvent = (type, selector, content) => {
  const data = new DataTransfer();
  if (content !== null) data.setData("text/plain", content);
  const event = new ClipboardEvent(type, { bubbles: true, cancelable: true });
  Object.defineProperty(event, "clipboardData", { value: data });
  document.querySelector(selector).dispatchEvent(event);
  return data.getData("text/plain");
};

/* In the page: a file that it saves is kept as `window.saved`, by its name `window.called`. The script of its worker is no file. */
export const keepSaved = () => {
  const make = URL.createObjectURL;
  URL.createObjectURL = (blob) => {
    if (blob.type !== "text/javascript") window.saved = blob;
    return make.call(URL, blob);
  };
  HTMLAnchorElement.prototype.click = function () {
    window.called = this.download;
  };
};

/* What conform answered, as the page's data; what a difference alone has is null without one. */
const ANSWER = { verdict: "none", at: null, client: null, key: null };

/* In the page: whether conform's answer is one, `{ verdict, at, client, key }`. */
export function isAnswer(wanted) {
  const values = Object.entries({ ...ANSWER, ...wanted }).map(([name, value]) => [name, value === null ? null : String(value)]);
  return `${quoted(values)}.every(([name, value]) => (document.getElementById("conformance").dataset[name] ?? null) === value)`;
}

/* What a test does with the page of a browser. */
export class User {
  constructor(page) {
    this.page = page;
  }

  run(expression) {
    return this.page.run(expression);
  }

  text(selector) {
    return this.run(`document.querySelector(${quoted(selector)}).textContent`);
  }

  /* Waits until an expression holds. */
  async until(expression, what = expression, turns = 300) {
    for (let turn = 0; turn < turns; turn++) {
      if (await this.run(expression)) return;
      await wait(30);
    }
    throw new Error(`waited for ${what}`);
  }

  async open(hash = "", change = null) {
    await this.page.goto(`${addressOfPage(change)}${hash}`);
    await this.started();
  }

  /* Opens the page with a session of two clients and nothing else. */
  async openNew() {
    await this.open();
    await this.click("#new");
    await this.shown("/^clients 2\\n$/");
  }

  async reload() {
    await this.page.reload();
    await this.started();
  }

  /* Waits until the page that `window.isOld` marks has been left for another one; one that is asked while it is left gives no answer. */
  async left() {
    for (let turn = 0; turn < 300; turn++) {
      if (await this.run("window.isOld === undefined").catch(() => false)) return;
      await wait(30);
    }
    throw new Error("waited for the page anew");
  }

  async started() {
    await this.until('document.body.classList.contains("with-engine") && !document.getElementById("header").hidden', "the engine");
  }

  /* When the page shows the text: after the engine has answered. */
  async shown(pattern) {
    await this.until(`${pattern}.test(document.getElementById("text").value)`, `${pattern} in the text`);
    await this.page.drawn();
  }

  /* When conform has answered so. */
  async answered(wanted) {
    await this.until(isAnswer(wanted), `the answer ${quoted(wanted)} of conform`);
  }

  async settled(place) {
    await this.until(`document.getElementById("place").value === "${place}"`, `place ${place}`);
    await this.page.drawn();
  }

  async click(selector, number = 0) {
    const found = `document.querySelectorAll(${quoted(selector)})[${number}]`;
    const middle = `(({ left, top, width, height }) => [left + width / 2, top + height / 2])(${found}.getBoundingClientRect())`;
    await this.run(`${found}.scrollIntoView({ block: "nearest" })`);
    const isHit = await this.run(`${found}.contains(document.elementFromPoint(...${middle}))`);
    if (!isHit) {
      await this.run(`${found}.scrollIntoView({ block: "center" })`); // something stands over it
      await this.page.drawn();
    }
    await this.page.click(...(await this.run(middle)));
  }

  /* Types at the end of the schedule. */
  async typeAtEnd(text) {
    await this.click("#text");
    await this.press("Control+End");
    await this.page.type(text);
  }

  async press(...names) {
    for (const name of names) await this.page.key(name);
  }

  schedule() {
    return this.run('document.getElementById("text").value');
  }

  /* The documents that the page shows: the server's, then the clients'. */
  documents() {
    return this.run(`[...document.querySelectorAll(".card .document")].map((text) =>
      [...text.querySelectorAll("span:not(.deleted):not(.cut)")].map((run) => run.textContent).join(""))`);
  }

  /* What the page shows of its place, in the lines of \`otbench run\`. */
  end() {
    return this.run(`(() => {
      const lines = [...document.querySelectorAll(".card")].map((card) => {
        const [first, second = ""] = [...card.querySelectorAll(".badge")].map((badge) => badge.textContent);
        const runs = [...card.querySelectorAll(".document span:not(.deleted):not(.cut)")];
        const text = JSON.stringify(runs.map((run) => run.textContent).join(""));
        if (card.classList.contains("server")) return "server " + first + " " + text;
        return "client " + card.dataset.card + " " + (second.startsWith("rev") ? second : "rev 0") + " " + first + " " + text;
      });
      const now = /^All messages have arrived/.test(document.querySelector("#sentence .now").textContent) ? "quiet" : "not quiet";
      return [...lines.slice(1), lines[0], now].join("\\n") + "\\n";
    })()`);
  }

  drop(name, content) {
    const bytes = typeof content === "string" ? quoted(content) : `new Uint8Array([${content.join()}])`;
    return this.run(`(() => { const data = new DataTransfer(); data.items.add(new File([${bytes}], ${quoted(name)}));
      document.body.dispatchEvent(new DragEvent("drop", { dataTransfer: data, bubbles: true, cancelable: true })); })()`);
  }

  /* Pastes a text at an element, as the browser's own event. */
  paste(selector, content) {
    return this.run(`(${clipboardEvent})("paste", ${quoted(selector)}, ${quoted(content)})`);
  }
}
