/*
 * Does random things with the page, with hostile texts, damaged files and damaged links among them, and looks after each whether a text has become
 * more than text, the page has asked for anything, or has thrown.
 *
 *     node viewer/browser/random.js [chromium|firefox] [SECONDS] [SEED]
 *
 * Status 1 where it has. The last line says how much was done, and in Chromium how much memory the page uses at the start and at the end.
 */

import { chance } from "../../recorder/test/live_session.js";
import { damaged, files } from "../test/damaging.mjs";
import { HOSTILE } from "../test/hostile.mjs";
import { openChromium } from "./chromium.js";
import { openFirefox } from "./firefox.js";
import { HARM } from "./harm.js";
import { User, quoted } from "./user.js";

const [browser = "chromium", seconds = "60", seed = "1"] = process.argv.slice(2);
const random = chance(Number(seed));
const oneOf = (list) => list[random(list.length)];

const texts = [...HOSTILE.map((value) => (typeof value === "string" ? value : JSON.stringify(value))), "a", "é🙂", "\n", "x\ty"].map((text) => text.slice(0, 5000).toWellFormed());

const KEYS = ["ArrowLeft", "ArrowRight", "ArrowUp", "ArrowDown", "Home", "End", "PageUp", "PageDown", "Enter", "Escape", "Backspace", "Delete", "Tab", "Control+z", "Control+Shift+Z", "Control+a", "Control+Home", "Control+End"];
const LETTERS = [..."0123unqr+jkmdevtlsiw?:"];

let link = "#at=0";

const ACTIONS = {
  key: (user) => user.press(oneOf(KEYS)),
  letter: (user) => user.press(oneOf(LETTERS)),
  type: (user) => user.page.type(oneOf(texts).slice(0, 60)),
  click: (user) =>
    user.run(`(() => {
      const parts = [...document.querySelectorAll("button, .document, .lane, [data-line], summary, select, input")].filter((part) => part.checkVisibility() && !/^(open|open-first|give-up)$/.test(part.id));
      const part = parts[${random(1000)} % parts.length];
      if (part.matches(".document")) part.focus();
      part.dispatchEvent(new MouseEvent("click", { bubbles: true, cancelable: true }));
    })()`),
  paste: (user) => user.paste("body", oneOf([oneOf(texts), new TextDecoder().decode(damaged(oneOf(files)[1], random, texts))])),
  document: (user) => user.run(`document.querySelector(".document[contenteditable]")?.focus()`),
  text: (user) => user.run(`(() => { const text = document.getElementById("text"); text.value = text.value.slice(0, ${random(400)}) + ${quoted(oneOf(texts))} + text.value.slice(${random(400)}); text.dispatchEvent(new Event("input")); })()`),
  file: (user) => user.drop(oneOf([oneOf(texts).slice(0, 200), "a.ots"]), oneOf(files)[1]),
  damagedFile: (user) => user.drop("damaged", damaged(oneOf(files)[1], random, texts)),
  link: async (user) => {
    const hash = await user.run("location.hash");
    if (hash.includes("image=")) link = hash;
    const text = [...damaged(Buffer.from(link), random, texts)].map((byte) => String.fromCharCode(byte)).join("");
    await user.run(`location.hash = ${quoted(text)}`);
  },
  slide: (user) => user.run(`(() => { const slider = document.getElementById("slider"); slider.value = ${random(40)}; slider.dispatchEvent(new Event("input")); })()`),
  close: (user) => user.run('document.querySelector("dialog[open]")?.close()'),
  size: (user) => user.page.size(...oneOf([[1440, 900], [1280, 720], [390, 844]])),
};

/* The bytes that the page's objects have, after a collection; 0 in a browser that does not say. */
async function memory(page) {
  if (browser !== "chromium") return 0;
  await page.send("HeapProfiler.collectGarbage");
  return (await page.send("Runtime.getHeapUsage")).usedSize;
}

const page = await { chromium: openChromium, firefox: openFirefox }[browser]();
const user = new User(page);
const done = {};
let wrong = null;
try {
  await user.open();
  await user.run("window.stays = true");
  const before = await memory(page);
  const end = Date.now() + 1000 * Number(seconds);
  while (Date.now() < end && !wrong) {
    const name = oneOf(Object.keys(ACTIONS));
    done[name] = (done[name] ?? 0) + 1;
    await ACTIONS[name](user);
    const harm = await user.run(HARM);
    if (harm.length || page.exceptions.length) wrong = { name, harm, exceptions: page.exceptions };
  }
  const count = Object.values(done).reduce((sum, n) => sum + n, 0);
  await user.run('document.querySelector("dialog[open]")?.close()');
  await user.drop("last.ots", "clients 2\n");
  await user.shown("/^clients 2\\n$/");
  const bytes = (await memory(page)) - before;
  console.log(JSON.stringify(done));
  console.log(`${browser}, seed ${seed}: ${count} actions in ${seconds} s, ${(bytes / 1e6).toFixed(1)} MB more`);
} catch (fault) {
  wrong ??= { fault: fault.message, exceptions: page.exceptions };
} finally {
  await page.close();
}
if (wrong) {
  console.log(JSON.stringify(wrong));
  process.exitCode = 1;
}
