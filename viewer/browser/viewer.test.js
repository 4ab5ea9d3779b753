/* The viewer in Chromium, by real keys and clicks. */

import assert from "node:assert/strict";
import fs from "node:fs";
import { after, before, beforeEach, test } from "node:test";
import { example } from "../test/sessions.mjs";
import { openChromium } from "./chromium.js";
import { difference, portLines, weakOrder } from "./faulty_port.js";
import { longSchedule } from "./long_session.js";
import { otbench, pageOf, pageWithoutEngine } from "./otbench.js";
import { isAnswer, keepSaved } from "./user.js";

let page;
before(async () => (page = await openChromium()));
beforeEach(() => page.size(1440, 900));
after(async () => {
  const { exceptions } = page;
  await page.close();
  assert.deepEqual(exceptions, []);
});

const text = (selector) => page.run(`document.querySelector(${JSON.stringify(selector)}).textContent`);
const place = async () => Number(await page.run('document.getElementById("place").value'));

/* Waits until something holds, some seconds: on a busy machine the page draws what was asked for a few frames later. */
async function until(holds) {
  for (let frames = 0; frames < 100 && !(await holds()); frames++) await page.drawn();
}

/* Waits for what an element shows. */
async function shows(selector, wanted) {
  await until(async () => wanted.test(await text(selector)));
  assert.match(await text(selector), wanted);
}

/* Waits for conform's answer. */
async function answered(wanted) {
  await until(() => page.run(isAnswer(wanted)));
  assert.ok(await page.run(isAnswer(wanted)), await page.run('JSON.stringify(document.getElementById("conformance").dataset)'));
}

/* What the page shows of its place, in the lines of `otbench debug`. */
const SHOWN = `(() => {
  const lines = [...document.querySelectorAll(".card")].map((card) => {
    const [first, second = ""] = [...card.querySelectorAll(".badge")].map((badge) => badge.textContent);
    const runs = [...card.querySelectorAll(".document span:not(.deleted):not(.cut)")];
    const text = JSON.stringify(runs.map((run) => run.textContent).join(""));
    if (card.classList.contains("server")) return "server " + first + " " + text;
    return card.getAttribute("aria-label") + " " + (second.startsWith("rev") ? second : "rev 0") + " " + first + " " + text;
  });
  const now = /^All messages have arrived/.test(document.querySelector("#sentence .now").textContent) ? "quiet" : "not quiet";
  return [...lines.slice(1), lines[0], now].join("\\n") + "\\n";
})()`;

/* The same from the program: one text for each of the places, which rise. */
function shownByDebug(schedule, places) {
  const commands = places.map((to, i) => `step ${to - (places[i - 1] || 0)}\nshow`);
  const answers = otbench(["debug"], `${schedule}%%\n${commands.join("\n")}\n`);
  return answers.split(/^at \d+: .*\n/m).slice(1);
}

/* The middle of what a selector finds, where it is in sight. */
const middle = (selector, number = 0) =>
  page.run(`(() => {
    const box = document.querySelectorAll(${JSON.stringify(selector)})[${number}].getBoundingClientRect();
    return [box.left + box.width / 2, box.top + box.height / 2];
  })()`);

/* Writes a value into a field, as a user does. */
const write = (id, value, event) =>
  page.run(`(() => {
    const field = document.getElementById("${id}");
    field.value = ${value};
    field.dispatchEvent(new Event("${event}"));
  })()`);

test("stepping back and forth by keys, slider, buttons and clicks", async () => {
  await page.goto(pageOf("weak-order", weakOrder));
  const keys = [
    ["ArrowRight", 1],
    ["j", 2],
    ["ArrowDown", 3],
    ["ArrowLeft", 2],
    ["k", 1],
    ["ArrowUp", 0],
    ["ArrowUp", 0],
    ["PageDown", 10],
    ["PageDown", 16],
    ["PageUp", 6],
    ["End", 16],
    ["ArrowRight", 16],
    ["Home", 0],
    ["PageDown", 10],
    ["k", 9],
    ["m", 8], // the buffer that take 0 takes was sent by the acknowledgement before
    ["[", 7],
    ["]", 8],
    ["]", 9],
    ["Home", 0],
    ["ArrowRight", 1],
    ["m", 6],
  ];
  for (const [key, at] of keys) {
    await page.key(key);
    assert.equal(await place(), at, `after ${key}`);
  }
  await page.click(...(await middle("#next")));
  assert.equal(await place(), 7);
  await page.click(...(await middle("#last")));
  assert.equal(await place(), 16);
  const [left, top] = await page.run('(({ left, top }) => [left, top])(document.getElementById("rows").getBoundingClientRect())');
  await page.click(left + 80, top + 34 * 7.5);
  assert.equal(await place(), 7, "a click on a row");
  await page.run('document.getElementById("slider").focus()');
  await page.key("ArrowRight");
  assert.equal(await place(), 8, "one on at the slider");
  await write("slider", 3, "input");
  await page.drawn();
  assert.equal(await place(), 3, "the slider moved");
});

test("ten places of a session are what `otbench debug` shows, forth and back", async () => {
  const schedule = longSchedule({ clients: 6, instructions: 300 });
  const places = [0, 1, 2, 37, 90, 133, 201, 202, 280, 300];
  const expected = shownByDebug(schedule, places);
  await page.goto(pageOf("ten-places", schedule));
  for (const order of [places, places.toReversed()]) {
    for (const at of order) {
      while ((await place()) < at - 9) await page.key("PageDown");
      while ((await place()) > at + 9) await page.key("PageUp");
      while ((await place()) < at) await page.key("ArrowRight");
      while ((await place()) > at) await page.key("ArrowLeft");
      assert.equal(await page.run(SHOWN), expected[places.indexOf(at)], `at ${at}`);
      assert.equal(await text('#rows .texts text[font-weight="700"]'), String(at), "the row of the place is drawn, and stands out");
    }
  }
});

test("each example at its end and its middle is what `otbench debug` shows", async () => {
  for (const name of ["both-delete", "buffer", "late-join", "one-client", "one-client-open", "two-clients"]) {
    const count = example(name).split("\n").filter((line) => /^(edit|take|deliver|ack|join|read)/.test(line)).length;
    const places = [count >> 1, count];
    const expected = shownByDebug(example(name), places);
    await page.goto(pageOf(name, example(name)));
    for (const [i, at] of places.entries()) {
      while ((await place()) < at) await page.key("ArrowRight");
      assert.equal(await page.run(SHOWN), expected[i], `${name} at ${at}`);
    }
  }
});

test("stepping through one participant, by a click on its head", async () => {
  await page.goto(pageOf("follow", weakOrder));
  await page.click(...(await middle("#heads .lane", 2)));
  assert.match(await text("#sentence"), /Stepping through client 1\.$/);
  const seen = [];
  for (let k = 0; k < 6; k++) {
    await page.key("ArrowRight");
    seen.push(await place());
  }
  assert.deepEqual(seen, [4, 5, 10, 11, 12, 15]);
  await page.click(...(await middle("#heads .lane", 2)));
  await page.key("ArrowLeft");
  assert.equal(await place(), 14);
});

test("a click on a character marks the same insertion in all documents", async () => {
  await page.goto(`${pageOf("pick", weakOrder)}#at=7`);
  await page.click(...(await middle(".card .document .inserted")));
  assert.equal(await page.run('document.querySelectorAll(".picked").length'), 3);
  assert.match(await text("#sentence"), /“c” inserted by client 1 at place 4$/);
  await page.key("Home");
  assert.equal(await page.run('document.querySelectorAll(".picked").length'), 0);
});

test("a click within a run of one author finds the character", async () => {
  await page.goto(`${pageOf("run", 'clients 1\nstart "xy"\nedit 0 [1,"abcde",1]\n')}#at=1`);
  const [x, y] = await page.run(`(() => {
    const { left, width, top, height } = document.querySelectorAll(".card .document")[1].querySelector(".inserted").getBoundingClientRect();
    return [left + (width / 5) * 3.5, top + height / 2];
  })()`);
  await page.click(x, y);
  assert.match(await text("#sentence"), /“d” inserted by client 0 at place 1$/);
  assert.equal(await text(".card .document .picked"), "d");
});

test("a port's lines beside, with the first difference", async () => {
  const input = `${otbench(["steps"], weakOrder)}%%\n${portLines}`;
  await page.goto(pageOf("plain", weakOrder));
  await until(() => page.run('document.body.classList.contains("with-engine")'));
  const paste = `(() => { const data = new DataTransfer(); data.setData("text", ${JSON.stringify(input)});
    document.body.dispatchEvent(new ClipboardEvent("paste", { clipboardData: data, bubbles: true })); })()`;
  await page.run(paste);
  await answered(difference);
  await page.key("d");
  await shows("#sentence", /The port/);
  assert.match(await text("#sentence"), /The port: buffer \[1,"a",-1,1\], ot.js: \["a",1,-1,1\]/);
  await page.key("Home");
  await shows("#sentence", /^(?!.*The port)/);
  await page.key("d");
  await until(async () => (await place()) === 7);
  assert.equal(await place(), 7);
});

test("lines for some instructions: the others are not compared, also once the engine has judged", async () => {
  await page.goto(pageOf("sparse", `${weakOrder}%%\n{"at":12,"document":"acz"}\n`, ["--sparse"]));
  await answered({ verdict: "conforms" });
  await until(async () => (await text("#list-verdict")) !== "");
  await answered({ verdict: "conforms" });
  await page.goto(pageOf("sparse-fault", `${weakOrder}%%\n{"at":12,"document":"caz"}\n`, ["--sparse"]));
  await answered({ verdict: "differs", at: 12, client: 1, key: "document" });
});

test("a file is dropped, and a faulty one is refused with its line", async () => {
  const drop = (content) => `(() => { const data = new DataTransfer(); data.items.add(new File([${JSON.stringify(content)}], "a.jsonl"));
    document.body.dispatchEvent(new DragEvent("drop", { dataTransfer: data, bubbles: true })); })()`;
  await page.goto(pageWithoutEngine());
  assert.match(await page.run("document.body.innerText"), /^A session, to look at\n/);
  await page.run(drop('{"at":1}\n'));
  await page.drawn();
  assert.equal(await text("#refused"), "line 1 is no line of otbench steps: the opening is missing");
  await page.run(drop('{"at":0,"clients":2,"present":1,"start":"</script>"}\n{"at":0,"end":"quiet"}\n'));
  await page.drawn();
  const shown = ['client 0 rev 0 synchronized "</script>"', 'client 1 rev 0 not-joined ""', 'server rev 0 "</script>"', "quiet"];
  assert.equal(await page.run(SHOWN), `${shown.join("\n")}\n`);
  assert.equal(await text("#name"), "a.jsonl");
});

test("by keyboard alone, and for those who hear the page", async () => {
  await page.goto(pageOf("keyboard", weakOrder));
  const reached = [];
  for (let k = 0; k < 30; k++) {
    await page.key("Tab");
    reached.push(await page.run("document.activeElement.id"));
  }
  for (const id of ["open", "paste", "save", "theme", "help", "slider", "next", "last", "place", "followed", "time", "grip", "state"])
    assert.ok(reached.includes(id), `${id} is reached`);
  assert.equal(await page.run('document.getElementById("sentence").getAttribute("aria-live")'), "polite");
  const { nodes } = await page.send("Accessibility.getFullAXTree");
  const named = nodes.filter((node) => node.role && node.name && node.name.value).map((node) => `${node.role.value} ${node.name.value}`);
  const wanted = ["slider place", "region documents, client states and links", "region client 1"];
  for (const name of [...wanted, "heading client 1 synchronized rev 0 = server"])
    assert.ok(named.some((other) => other.startsWith(name)), name);
  const buttons = nodes.filter((node) => node.role && node.role.value === "button" && !node.ignored);
  assert.deepEqual(buttons.filter((node) => !node.name.value), [], "each button has a name");
});

test("light, dark, narrow", async () => {
  await page.goto(`${pageOf("themes", weakOrder)}#theme=dark`);
  const paper = () => page.run("getComputedStyle(document.body).backgroundColor");
  assert.equal(await paper(), "rgb(20, 23, 28)");
  await page.key("t");
  assert.equal(await paper(), "rgb(255, 255, 255)");
  await page.size(400, 800);
  await page.drawn();
  assert.equal(await page.run("document.documentElement.scrollWidth"), 400, "nothing is wider than a narrow window");
  assert.ok((await middle(".card.server"))[1] > (await middle("#time"))[1], "the state stands below the diagram");
});

test("the diagram is saved as an SVG file", async () => {
  await page.goto(`${pageOf("save", weakOrder)}#at=7;theme=light`);
  await page.run(`(${keepSaved})()`);
  await page.key("s");
  await page.click(...(await middle('#saving button[value="svg"]')));
  await until(() => page.run("window.saved !== undefined"));
  const saved = await page.run("window.saved.text()");
  assert.equal(saved, fs.readFileSync(new URL("../../docs/session.svg", import.meta.url), "utf8"));
  const read = `new DOMParser().parseFromString(${JSON.stringify(saved)}, "image/svg+xml")`;
  assert.equal(await page.run(`${read}.querySelector("parsererror")`), null);
});

test("64 clients and 10,000 instructions open and step smoothly", async () => {
  const schedule = longSchedule({ clients: 64, instructions: 10000 });
  const url = pageOf("long", schedule);
  const opened = performance.now();
  await page.goto(url);
  const open = performance.now() - opened;
  const times = await page.run(`(async () => {
    const press = (key) => document.body.dispatchEvent(new KeyboardEvent("keydown", { key, bubbles: true }));
    const measure = async (count, act) => {
      const times = [];
      for (let k = 0; k < count; k++) {
        const begin = performance.now();
        act(k);
        document.body.offsetHeight;
        times.push(performance.now() - begin);
        await new Promise((done) => requestAnimationFrame(done));
      }
      return times.sort((a, b) => a - b);
    };
    const field = document.getElementById("place");
    const goTo = (place) => { field.value = place; field.dispatchEvent(new Event("change")); };
    const jumps = await measure(40, (k) => goTo((k * 7919 + 13) % 10000));
    goTo(5000);
    await new Promise((done) => requestAnimationFrame(done));
    const steps = await measure(100, () => press("ArrowRight"));
    const backs = await measure(100, () => press("ArrowLeft"));
    const numbers = (times) => ({ median: times[times.length >> 1], most: times[times.length - 1] });
    return { step: numbers(steps), back: numbers(backs), jump: numbers(jumps), heap: performance.memory.usedJSHeapSize / 1e6 };
  })()`);
  const shown = (number) => number.toFixed(0);
  const words = ["step", "back", "jump"].map((name) => `a ${name} ${shown(times[name].median)} ms (at most ${shown(times[name].most)})`);
  console.log(`64 clients, 10,000 instructions: opened in ${shown(open)} ms, ${words.join(", ")}, heap ${shown(times.heap)} MB`);
  assert.ok(times.step.median < 500, `a step takes ${shown(times.step.median)} ms`); // some 25 ms on a machine that does nothing else
  await write("place", 9876, "change");
  const [expected] = shownByDebug(schedule, [9876]);
  const cut = (lines) => lines.replace(/ ".*"/g, "");
  assert.equal(cut(await page.run(SHOWN)), cut(expected));
});
