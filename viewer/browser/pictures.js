/*
 * Takes pictures of the page to be looked at: in windows of 1440, 1280 and 390 pixels, light and dark, at 200 %, with forced colours, and as it is
 * printed; the first visit, a port with a fault and its reason, the debugger, and dialogs.
 *
 *     node viewer/browser/pictures.js FOLDER [chromium|firefox] [NAME ...]
 *
 * A name is that of a window and a theme, as 1280-dark, or forced, or paper; without one all are taken. Forced colours and paper are Chromium's. The page is
 * dist/otbench.html, or that which OTBENCH_PAGE names.
 */

import path from "node:path";
import { openChromium } from "./chromium.js";
import { showFaultyPort } from "./faulty_port.js";
import { openFirefox } from "./firefox.js";
import { User } from "./user.js";

const BROWSERS = { chromium: openChromium, firefox: openFirefox };

/* Sizes of windows; `scale` device pixels are a pixel of the page. */
const WINDOWS = [
  { name: "1440", width: 1440, height: 900 },
  { name: "1280", width: 1280, height: 720 },
  { name: "390", width: 390, height: 844 },
  { name: "200", width: 720, height: 450, scale: 2 },
];

/* What is shown, one after the other. */
const SHOWN = {
  first: (user) => user.until('document.getElementById("list-verdict").textContent !== ""', "the verdict"),
  port: showFaultyPort,
  async debugger(user) {
    await user.press(":");
    await user.page.type("run");
    await user.press("Enter");
    await user.until('[...document.querySelectorAll("#answers pre")].every(({ textContent }) => textContent !== "…")', "the answers");
    await user.press("Escape", ":");
    await user.until('document.getElementById("outlook").textContent !== ""', "the verdict");
  },
  examples: (user) => user.press("Escape", "l"),
  async every(user) {
    await user.click('#choosing [value="every"]');
    await user.until('/sessions/.test(document.getElementById("listed").textContent)', "the list", 2000);
    await user.click("#outcomes summary");
  },
  clients: (user) => user.press("Escape", "v"),
  keys: (user) => user.press("Escape", "?"),
};

async function takeAll(user, folder, name) {
  for (const [what, prepare] of Object.entries(SHOWN)) {
    await prepare(user);
    await user.page.drawn();
    await user.page.screenshot(path.join(folder, `${name}-${what}.png`));
  }
}

/* What media queries of colours and paper see; Chromium alone can say it. */
const media = (page, media, features = []) => page.send("Emulation.setEmulatedMedia", { media, features });

async function takeForced(user, folder) {
  await user.page.size(1280, 720);
  await media(user.page, "", [{ name: "forced-colors", value: "active" }]);
  await user.open();
  await takeAll(user, folder, "forced");
  await media(user.page, "");
}

async function takePaper(user, folder) {
  await user.open();
  await SHOWN.port(user);
  await media(user.page, "print");
  await user.page.size(800, 1000);
  await user.page.drawn();
  await user.run('dispatchEvent(new Event("beforeprint"))');
  const height = await user.run("document.documentElement.scrollHeight");
  await user.page.size(800, Math.min(height, 4000));
  await user.page.drawn();
  await user.page.screenshot(path.join(folder, "paper.png"));
  await media(user.page, "");
}

/* What can be taken of a browser, by name. */
function setsOf(browser) {
  const sets = new Map();
  for (const { name, width, height, scale = 1 } of WINDOWS)
    for (const theme of ["light", "dark"])
      sets.set(`${name}-${theme}`, async (user, folder) => {
        await user.page.size(width, height, scale);
        await user.open(`#theme=${theme}`);
        await takeAll(user, folder, `${browser}-${name}-${theme}`);
      });
  if (browser === "chromium") sets.set("forced", takeForced).set("paper", takePaper);
  return sets;
}

async function take(folder, browser, names) {
  const page = await BROWSERS[browser]();
  try {
    const user = new User(page);
    for (const [name, takeSet] of setsOf(browser)) if (names.length === 0 || names.includes(name)) await takeSet(user, folder);
  } finally {
    await page.close();
  }
}

const [folder, browser = "chromium", ...names] = process.argv.slice(2);
if (folder === undefined || folder.startsWith("-") || !Object.hasOwn(BROWSERS, browser) || names.some((name) => !setsOf(browser).has(name))) {
  console.error("usage: node viewer/browser/pictures.js FOLDER [chromium|firefox] [NAME ...]");
  process.exit(2);
}
take(folder, browser, names).catch((fault) => {
  console.error(`pictures: ${fault.message}`);
  process.exitCode = 1;
});
