/* A session beside a port with a fault, which breaks ties the other way. */

import { bugs } from "../../examples/port/bugs.js";
import { example, portLinesOf } from "../test/sessions.mjs";

export const weakOrder = example("weak-order");

/* What the port printed of it. */
export const portLines = `${portLinesOf(weakOrder, bugs.tie).join("\n")}\n`;

/* Its first difference from ot.js, as the page's data. */
export const difference = { verdict: "differs", at: 7, client: 0, key: "buffer" };

/* Shows both, goes to the difference and asks for the reason. */
export async function showFaultyPort(user) {
  await user.paste("body", `; client 0 is Ann\n${weakOrder}%%\n${portLines}`);
  await user.answered(difference);
  await user.press("d");
  await user.settled(difference.at);
  await user.press("w");
  await user.until('/transforms/.test(document.getElementById("reason").textContent)', "the reason");
}
