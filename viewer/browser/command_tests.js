/* Tests of the debugger's line and of the list of small sessions, for any browser. */

import assert from "node:assert/strict";
import fs from "node:fs";
import os from "node:os";
import path from "node:path";
import { test } from "node:test";
import { HOSTILE, MARKUP } from "../test/hostile.mjs";
import { difference, portLines, weakOrder } from "./faulty_port.js";
import { HARM } from "./harm.js";
import { otbench } from "./otbench.js";
import { suite } from "./suite.js";
import { clipboardEvent, keepSaved, quoted } from "./user.js";

const SCRIPT = ["step", "", "next 2", 'break take 1 if doc 0 contains "a"', "watch doc 1", "display state 0", "run", "run", "run", "why", "rrun", "who 0 0", "blame 1", "find a", "rfind a", "diff 0 end", "mark here", "goto 3", "goto here", "undo", "where",
  "verdict", "list 0 3", "show", "print doc 0", "print difference", "explain 2", "until take", "runtil edit 0", "back 2", "rnext", "info", "delete 2", "help who", "constructor", "step x", "goto 99", "clear", "goto end", "help"];

/* What the terminal's debugger prints. */
function printed(session, script) {
  const folder = fs.mkdtempSync(path.join(os.tmpdir(), "otbench-commands-"));
  try {
    const file = path.join(folder, "session.ots");
    fs.writeFileSync(file, session);
    return otbench(["debug", file], `${script.join("\n")}\n`);
  } finally {
    fs.rmSync(folder, { recursive: true });
  }
}

export function testCommands(name, openBrowser) {
  suite(`${name}, commands`, openBrowser, (user) => {
    const isOpen = () => user.run('document.getElementById("debugger").checkVisibility()');
    const focused = () => user.run("document.activeElement.id");
    const field = () => user.run('document.getElementById("command").value');

    /* The answers that the page shows, the first one first, when all are there. */
    async function answers() {
      await user.until('[...document.querySelectorAll("#answers pre")].every(({ textContent }) => textContent !== "…")', "the answers");
      return user.run('[...document.querySelectorAll("#answers pre")].map(({ textContent }) => textContent).reverse()');
    }

    /* Types a line; a long one is there at once. */
    async function write(line) {
      if (line.length < 1000) await user.page.type(line);
      else await user.run(`((field) => ((field.value = ${quoted(line)}), field.dispatchEvent(new Event("input"))))(document.getElementById("command"))`);
    }

    async function perform(...lines) {
      for (const line of lines) {
        if (line !== "") await write(line);
        await user.press("Enter");
      }
      return (await answers()).at(-1);
    }

    async function open(text) {
      await user.open();
      await user.drop("session.ots", text);
      await user.until(`document.getElementById("text").value === ${quoted(text.split("%%\n")[0])} && document.getElementById("length").textContent === "of 16"`, "the session");
      await user.press("Home", ":");
      await answers();
    }

    test("a script of commands shows what it prints at the terminal and in the package", async () => {
      const schedule = `; client 0 is Ann\n${weakOrder}`;
      await open(`${schedule}%%\n${portLines}`);
      await user.answered(difference);
      await user.press("Home");
      await perform(...SCRIPT);
      const shown = await answers();
      assert.equal(shown.map((answer) => (answer === "" ? "" : `${answer}\n`)).join(""), printed(`${schedule}%%\n${portLines}`, SCRIPT));
      if (!fs.existsSync(new URL("../../engine/out/otbench.wasm", import.meta.url))) return;
      const { openDebugger } = await import("../../npm/debug.mjs");
      const session = openDebugger(schedule, { port: portLines });
      assert.deepEqual(shown.slice(1), SCRIPT.map((line) => session.perform(line).join("\n")));
    });

    test("it is closed at first, and a key or a button opens it; a command moves the page, and the page the debugger", async () => {
      await user.open();
      assert.equal(await isOpen(), false);
      await user.press(":");
      assert.deepEqual([await isOpen(), await focused(), await user.text("#prompt")], [true, "command", "(2/8)"]);
      assert.match((await answers())[0], /^the opening: 2 of 2 clients joined.*\nhelp lists the commands$/s);
      await perform("step 2");
      await user.settled(4);
      await user.press("Escape");
      assert.deepEqual([await isOpen(), await focused()], [false, "time"]);
      await user.press("j", ":");
      await user.settled(5);
      assert.match(await perform("where"), /^behind line \d+, instruction 4: /);
      await perform("undo");
      await user.settled(4);
      await perform("quit");
      assert.equal(await isOpen(), false);
      await user.click("#debug");
      assert.deepEqual([await isOpen(), await focused()], [true, "command"]);
      await user.click("#debug");
      assert.equal(await isOpen(), false);
    });

    test("earlier lines, and words that are completed; Tab leaves where there is nothing to complete", async () => {
      await open(weakOrder);
      await perform("step", "goto 3");
      await user.page.type("wa");
      await user.press("ArrowUp");
      assert.equal(await field(), "goto 3");
      await user.press("ArrowUp", "ArrowUp");
      assert.equal(await field(), "step");
      await user.press("ArrowDown", "ArrowDown");
      assert.equal(await field(), "wa");
      await user.until('document.getElementById("suggested").textContent === "watch"', "what it can be");
      await user.press("Tab");
      assert.equal(await field(), "watch ");
      await user.until('document.getElementById("suggested").textContent === "doc  state  outstanding  buffer  server"', "what can stand there");
      await user.page.type("o");
      await user.until('document.getElementById("suggested").textContent === "outstanding"', "what it can be");
      await user.press("Tab");
      assert.equal(await field(), "watch outstanding ");
      await user.page.type("1");
      await user.press("Enter");
      assert.equal((await answers()).at(-1), "watching outstanding of client 1");
      await user.press("Tab");
      assert.equal(await focused(), "answers");
      await user.press("Shift+Tab");
      assert.equal(await focused(), "command");
    });

    test("several lines that are pasted are performed, and files are saved", async () => {
      await open(weakOrder);
      await user.run(`(${keepSaved})()`);
      await user.run(`(${clipboardEvent})("paste", "#command", "; words\\ngoto 5\\n\\nbreak 7\\nrun\\nsave breaks\\n")`);
      await user.settled(7);
      await user.until('window.called === "breaks"', "the file");
      assert.equal(await user.run("window.saved.text()"), "break 7\n");
      assert.equal((await answers()).length, 5);
      assert.match(await perform("source breaks"), /^a page does not read breaks; its lines can be pasted here/);
    });

    test("a session that is changed is gone on in, and of a text with a fault no command is performed", async () => {
      await open(weakOrder);
      await perform("break 16");
      await user.press("Escape", "End", "Delete", ":");
      await user.until('document.getElementById("prompt").textContent === "(15/15)"', "the session");
      assert.match(await perform("info"), /^no break 16 any more: .*\nno breaks, no watches$/);
      await user.press("Escape");
      await user.typeAtEnd("x");
      await user.until('!document.getElementById("to-fault").hidden', "the fault");
      await user.press("Escape");
      await user.click("#debug");
      assert.equal(await perform("step"), "not performed: the text has a fault: mend it first");
    });

    test("hostile words are words", async () => {
      await open(weakOrder);
      await user.run("window.stays = true");
      for (const value of HOSTILE.filter((it) => typeof it === "string")) {
        await perform(`find ${JSON.stringify(value.toWellFormed())}`, value.toWellFormed().replaceAll("\n", " "));
        assert.deepEqual(await user.run(HARM), [], value.slice(0, 40));
      }
      assert.match(await perform(MARKUP), /^there is no <img; /);
      assert.ok((await answers()).every((answer) => !/[\u202e\u2066\u0007]/.test(answer)));
    });

    test("a command that does not end is ended by Esc", async () => {
      await user.open("", (html) => html.replace("onmessage = async ({ data: { id, call, given } }) => {", (head) => `${head}\n  if (call === "debug" && given[1] === "hang") for (;;);`));
      await user.press(":");
      await answers();
      await user.page.type("hang");
      await user.press("Enter");
      assert.equal(await user.run('document.querySelector("#answers pre").textContent'), "…");
      await user.press("Escape", "j", ":");
      assert.equal((await answers()).at(-1), "not performed: it was ended");
      assert.match(await perform("where"), /^behind line /);
    });

    test("every session of two edits is listed by its outcome, and opened by a click", async () => {
      await user.open();
      await user.press("l");
      await user.click('#choosing button[value="every"]');
      await user.until('/^97 sessions, /.test(document.getElementById("listed").textContent)', "the list", 2000);
      const outcomes = await user.run('[...document.querySelectorAll("#outcomes summary")].map(({ textContent }) => textContent)');
      assert.equal(outcomes.reduce((sum, words) => sum + Number(/ (\d+) sessions?$/.exec(words)[1]), 0), 97);
      assert.equal(outcomes.length, 12);
      assert.ok(outcomes[0].startsWith('"aAbB" ') && outcomes[2].startsWith('"bBaA" ') && outcomes[11].startsWith('"" '));
      await user.press("Escape", "l");
      await user.click('#choosing button[value="every"]');
      await user.run('(document.getElementById("stage").value = "1", document.getElementById("stage").dispatchEvent(new Event("change")))');
      await user.until('/^277 sessions, /.test(document.getElementById("listed").textContent)', "the other list", 2000);
      await user.click("#outcomes summary");
      await user.click("#outcomes details[open] button");
      await user.shown('/^clients 2\\nstart "x"\\n/');
      assert.match(await user.text("#name"), /^session \d+ of every session of 2 c/);
      await user.press("End");
      assert.equal(JSON.stringify((await user.documents())[0]), await user.run('document.querySelector("#outcomes summary code").textContent'));
    });
  });
}
