/*
 * How soon the page answers in a long session: from the event of a key or a click to the frame that shows it, by real keys and clicks.
 *
 *     node viewer/browser/pace.js [chromium|firefox] [CLIENTS] [INSTRUCTIONS]
 */

import { openChromium } from "./chromium.js";
import { openFirefox } from "./firefox.js";
import { inWords, measure, open } from "./paces.js";
import { User } from "./user.js";

const [browser = "chromium", clients = "64", instructions = "10000"] = process.argv.slice(2);
const user = new User(await { chromium: openChromium, firefox: openFirefox }[browser]());
try {
  await open(user, { clients: Number(clients), instructions: Number(instructions) });
  await measure(user, (what, times) => console.log(inWords(what, times)));
} finally {
  await user.page.close();
}
