/* How soon the page answers in a long session: from the event of a key or a click to the frame that shows it, by real keys and clicks. */

import { wait } from "./driver.js";
import { longSchedule } from "./long_session.js";

/* In the page: how long each event of a kind takes until the frame after it is drawn, in milliseconds. */
const watch = () => {
  window.paces = [];
  window.watched ??= ["keydown", "click"].map((type) =>
    addEventListener(
      type,
      ({ timeStamp }) =>
        requestAnimationFrame(() => {
          const { port1, port2 } = new MessageChannel();
          port1.onmessage = () => window.paces.push(performance.now() - timeStamp);
          port2.postMessage(0);
        }),
      true,
    ),
  );
};

/* What is done `count` times, with a pause between: the times until the frame that shows it. */
async function timesOf(user, count, act) {
  await user.run(`(${watch})()`);
  for (let k = 0; k < count; k++) {
    await act(k);
    await wait(120);
  }
  await user.until(`window.paces.length >= ${count}`, "the frames");
  return (await user.run("window.paces")).sort((a, b) => a - b);
}

/* The time until the engine's answer is shown, from when something was done. */
async function answered(user, length) {
  const began = performance.now();
  await user.until(`document.getElementById("length").textContent === "of ${length}"`, `${length} instructions`, 4000);
  await user.page.drawn();
  return performance.now() - began;
}

const lengthOf = async (user) => Number((await user.text("#length")).replace("of ", ""));

/* The button of the first message that can be let through, which is in sight. */
const HEAD = '.card button.head:not(:disabled)';

/**
 * Measures a session that is open.
 * @param {(what: string, times: number[]) => void} tell told each kind of action with its times in milliseconds, rising
 */
export async function measure(user, tell) {
  const { page } = user;
  await user.press("End");
  await user.click("#text");
  await user.press("Control+End");
  tell("a keystroke at the text's end", await timesOf(user, 12, (k) => page.key("; a comment."[k])));
  await user.press("Enter", "Escape", "End");
  await user.run('document.getElementById("slider").focus()');
  tell("a step", await timesOf(user, 12, () => page.key("k")));
  await user.press("End");
  const length = await lengthOf(user);
  const follows = [];
  tell("a click on a message", await timesOf(user, 6, async (k) => {
    await user.click(HEAD);
    follows.push(await answered(user, length + k + 1));
  }));
  tell("the engine's answer to a click", follows.sort((a, b) => a - b));
  await user.click('.document[contenteditable="true"]');
  tell("a letter typed into a document", await timesOf(user, 6, (k) => page.key("letter"[k])));
  await answered(user, length + 12);
  await user.press("Escape");
  await user.run(`(() => { const field = document.getElementById("place"); field.value = ${length >> 1}; field.dispatchEvent(new Event("change")); })()`);
  await page.drawn();
  await user.click("#text");
  await user.press("End", "Enter");
  tell("a keystroke in the text's middle", await timesOf(user, 12, (k) => page.key("; a comment."[k])));
}

export const median = (times) => times[times.length >> 1];

/** For each kind of action how long half of them may take on an idle machine, in milliseconds: five times of what is wanted. */
export const SLOWEST = {
  "a keystroke at the text's end": 500,
  "a step": 500,
  "a click on a message": 250,
  "the engine's answer to a click": 2500,
  "a letter typed into a document": 500,
  "a keystroke in the text's middle": 500,
};

/* In the page: how long a piece of work takes, in milliseconds, some forty where nothing else runs. */
const work = () => {
  const began = performance.now();
  let x = 1;
  for (let i = 0; i < 2e7; i++) {
    x ^= x << 13;
    x ^= x >>> 17;
    x ^= x << 5;
  }
  return x === 0 ? 0 : performance.now() - began;
};
const IDLE = 40;

/** How many times longer than on an idle machine work takes in the page now: other programs take their share. At least 1. */
export async function slowness(user) {
  const times = [];
  for (let k = 0; k < 5; k++) times.push(await user.run(`(${work})()`));
  return Math.max(1, median(times.sort((a, b) => a - b)) / IDLE);
}

/** A line for a kind of action. */
export const inWords = (what, times) => `${what}: ${median(times).toFixed(0)} ms, at most ${times[times.length - 1].toFixed(0)}`;

export async function open(user, { clients, instructions }) {
  await user.open();
  await user.drop("long.ots", longSchedule({ clients, instructions }));
  await user.until(`document.getElementById("length").textContent === "of ${instructions}"`, "the session", 4000);
}
