#!/usr/bin/env node
/*
 * Takes the pictures of the page that README.md and docs/GUIDE.md show, in Chromium, each in both themes.
 *
 *     node viewer/screenshots.js [FOLDER]      into docs/, or a folder
 *
 * The page is dist/otbench.html, or that which OTBENCH_PAGE names.
 */

import fs from "node:fs";
import path from "node:path";
import { fileURLToPath } from "node:url";
import { openChromium } from "./browser/chromium.js";
import { difference, portLines, weakOrder } from "./browser/faulty_port.js";
import { User } from "./browser/user.js";
import { example } from "./test/sessions.mjs";

/** How many bytes a picture may have. */
const MOST = 150_000;

/* What each picture shows. */
const PICTURES = {
  /* Two users at one place, with their names. */
  async page(user) {
    await user.page.size(1440, 600);
    await user.paste("body", `; client 0 is Ann\n; client 1 is Ben\n${example("two-clients")}`);
    await user.shown("/client 0 is Ann/");
    await user.until('document.getElementById("length").textContent === "of 8"', "the session");
    for (let k = 0; k < 4; k++) await user.press("j");
    await user.settled(4);
  },
  /* A port that breaks ties the other way, without the text. */
  async "page-port"(user) {
    await user.page.size(1280, 650);
    await user.press("e");
    await user.paste("body", `${weakOrder}%%\n${portLines}`);
    await user.answered(difference);
    await user.press("d");
    await user.settled(difference.at);
  },
};

async function take(folder) {
  const page = await openChromium();
  const user = new User(page);
  try {
    for (const [name, prepare] of Object.entries(PICTURES))
      for (const theme of ["light", "dark"]) {
        await user.open(`#theme=${theme}`);
        await prepare(user);
        await user.until('document.getElementById("list-verdict").textContent !== "" && document.getElementById("outlook").textContent !== ""', "the verdicts");
        await page.drawn();
        const file = path.join(folder, `${name}${theme === "dark" ? "-dark" : ""}.png`);
        await page.screenshot(file);
        const { size } = fs.statSync(file);
        console.log(`${file}: ${size} bytes`);
        if (size > MOST) throw new Error(`${file} has more than ${MOST} bytes`);
      }
  } finally {
    await page.close();
  }
}

const [folder, ...more] = process.argv.slice(2);
if (more.length > 0 || folder?.startsWith("-")) {
  console.error("usage: node viewer/screenshots.js [FOLDER]");
  process.exit(2);
}
take(folder ?? fileURLToPath(new URL("../docs", import.meta.url))).catch((fault) => {
  console.error(`screenshots: ${fault.message}`);
  process.exitCode = 1;
});
