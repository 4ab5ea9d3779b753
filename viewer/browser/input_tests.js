/* Tests of what comes into the page, for any browser: links that cannot be read, and hostile values. */

import assert from "node:assert/strict";
import fs from "node:fs";
import { test } from "node:test";
import { readEvents } from "../../recorder/logs.js";
import { merge } from "../../recorder/merging.js";
import { chance, liveSession } from "../../recorder/test/live_session.js";
import { damaged, files } from "../test/damaging.mjs";
import { HOSTILE, MARKUP, TREE } from "../test/hostile.mjs";
import { wait } from "./driver.js";
import { HARM } from "./harm.js";
import { addressOfPage, otbench } from "./otbench.js";
import { suite } from "./suite.js";
import { quoted } from "./user.js";

const example = (name) => fs.readFileSync(new URL(`../../examples/${name}`, import.meta.url), "utf8");

/* How many damaged files are dropped; there are twice as many links. */
const DAMAGED = Number(process.env.OTBENCH_DAMAGED_IN_BROWSER ?? 15);

/* Those of the hostile values that are tried in each field; tests under node try all. */
const VALUES = [MARKUP, "constructor", "__proto__", "\u202e\u2066a\ufffe", "x".repeat(100000), TREE];

export function testInputs(name, openBrowser) {
  suite(`${name}, what comes in`, openBrowser, (user) => {
    const shown = () => user.run("document.body.innerText.trim()");

    test("a link that cannot be read shows what is wrong with it, and nothing else", async () => {
      await user.open();
      await user.press("c");
      await user.until('location.hash.includes("image=")', "the link");
      const [image] = /image=.*/.exec(await user.run("location.hash"));
      const rows = [
        ["#image=AAAA", "Its image is cut or damaged."],
        [`#at=3;${image.slice(0, -7)}`, "Its image is cut or damaged."],
        [`#${image}%20`, 'Its image has the character "%".'],
        ["#image=", "Its image is cut."],
        ["#at=2;title=two-clients", "It has no image."],
        ["#image=S0kEAA", "Its image is none of a schedule: otbench: byte 0: "],
        ["#%3Cscript%3E", 'It has "<script>", which is no part of a link.'],
        ["#at=9999999999", 'It has "at=9999999999", which is no part of a link.'],
        [`#at=2;${image.replace("image", "imgae")}`, 'It has "imgae='],
      ];
      for (const [hash, why] of rows) {
        await user.page.goto(`${addressOfPage()}${hash}`);
        await user.until('!document.getElementById("starting").checkVisibility()', "the engine");
        await wait(150);
        const [head, words, ...more] = (await shown()).split(/\n+/);
        assert.equal(head, "This link cannot be opened", hash);
        assert.ok(words.startsWith(why), `${hash}: ${words}`);
        assert.deepEqual(more, ["New session Examples"], hash);
      }
      await user.click("#examples-instead");
      await user.click('#choices button[value="0"]');
      await user.started();
      assert.equal(await user.run('document.getElementById("broken").checkVisibility()'), false);
    });

    test("a broken link in a page with a session leaves the session", async () => {
      await user.open();
      const before = await user.schedule();
      await user.run('location.hash = "#image=AAAA"');
      await user.until('document.getElementById("notice").textContent === "This link cannot be opened: its image is cut or damaged."', "the notice");
      assert.equal(await user.schedule(), before);
      assert.doesNotMatch(await shown(), /Failed to execute|Error/);
    });

    /* Gives the page files one after the other, by a paste that is taken at once or by a drop, and asks after each for what has been done. */
    const giveAll = (files, isPasted) =>
      user.run(`(async () => {
        window.stays = true;
        const done = [];
        for (const [name, content] of ${JSON.stringify(files)}) {
          const data = new DataTransfer();
          if (${isPasted}) data.setData("text", content);
          else data.items.add(new File([content], name));
          const event = ${isPasted} ? new ClipboardEvent("paste", { bubbles: true }) : new DragEvent("drop", { dataTransfer: data, bubbles: true });
          if (${isPasted}) Object.defineProperty(event, "clipboardData", { value: data });
          document.body.dispatchEvent(event);
          if (!${isPasted}) await new Promise((done) => setTimeout(done, 10));
          const last = document.getElementById("last");
          if (last.checkVisibility() && !last.disabled) last.click();
          document.getElementById("first").click();
          document.querySelector("dialog[open]")?.close();
          const harm = ${HARM};
          if (harm.length) done.push([name, harm]);
        }
        return done;
      })()`);

    /* Each field of each object in a list, with each hostile value. */
    const changesOf = (objects) =>
      objects.flatMap((object, i) => Object.keys(object).flatMap((key) => VALUES.map((value) => objects.with(i, { ...object, [key]: value }))));

    test("hostile values in each field of lines, in a page without the engine", async () => {
      const lines = otbench(["steps"], example("late-join.ots"));
      const broken = (html) => html.replace(/(id="module">)[^<]*/, "$1AAAA").replace('id="lines">\n', () => `id="lines">\n${lines}`);
      await user.page.goto(addressOfPage(broken));
      await user.until('/^The engine does not run: /.test(document.getElementById("notice").textContent)', "the notice");
      assert.doesNotMatch(await user.text("#notice"), /atob|Failed|Error/);
      const objects = lines.trim().split("\n").map((line) => JSON.parse(line));
      objects.splice(-1, 0, { at: objects.at(-1).at, do: "edit", client: 0, edit: [9], stopped: "BadBase" });
      const files = changesOf(objects).map((changed, i) => [`${i}`, changed.map((line) => JSON.stringify(line)).join("\n")]);
      assert.ok(files.length > 300);
      for (let i = 0; i < files.length; i += 100) assert.deepEqual(await giveAll(files.slice(i, i + 100), true), []);
      const meta = { at: 1, do: "edit", client: 0, edit: ["a"], revision: 0, state: "awaiting-confirm", outstanding: ["a"], sent: { revision: MARKUP, operation: ["a"] } };
      assert.deepEqual(await giveAll([["sent", `{"at":0,"clients":1,"present":1,"start":""}\n${JSON.stringify(meta)}\n`]], true), []);
    });

    test("hostile values in each kind of file, and in names of files and clients", async () => {
      await user.open();
      const schedule = example("weak-order.ots");
      const lines = otbench(["steps", "--documents"], schedule).trim().split("\n").map((line) => JSON.parse(line));
      const trace = JSON.parse(example("reversed.json"));
      const plan = JSON.parse(example("two-typists.json"));
      const told = VALUES.map((value) => (typeof value === "string" ? value : JSON.stringify(value)));
      const traces = changesOf([trace]).map(([one]) => one).concat(changesOf(trace.events).filter((_, i) => i % 5 === 0).map((events) => ({ ...trace, events })));
      const files = [
        ...told.map((text) => [text.slice(0, 300), schedule]),
        ...told.map((text) => ["name.ots", `; client 0 is ${text}\n; client 1 is ${JSON.stringify(text)}\n; cut: ${JSON.stringify(text)}\n${schedule}`]),
        ...told.map((text) => ["start.ots", `clients 2\nstart ${JSON.stringify(text)}\nedit 0 [${[...text].length},${JSON.stringify(text)}]\n`]),
        ...told.map((text) => ["fault.ots", `clients 2\n${text}\n`]),
        ...told.map((text) => ["other.json", `{${JSON.stringify(text)}:${JSON.stringify(text)}}`]),
        ...changesOf(lines.slice(6, 8)).map((changed) => ["port.ots", `${schedule}%%\n${changed.map((line) => JSON.stringify(line)).join("\n")}`]),
        ...changesOf([plan]).map(([one]) => ["plan.json", JSON.stringify({ ...one, workers: 1 })]),
        ...traces.map((one) => ["trace.json", JSON.stringify(one)]),
      ];
      assert.ok(files.length > 150);
      for (let i = 0; i < files.length; i += 50) {
        assert.deepEqual(await giveAll(files.slice(i, i + 50), false), []);
        await wait(100);
      }
      await user.page.drawn();
      assert.deepEqual(await user.run(HARM), []);
    });

    test("a file that is none of a session is refused by name, and leaves the session and its title", async () => {
      await user.open();
      const before = await user.schedule();
      const rows = [
        ["package.json", '{\n  "name": "otbench"\n}\n', "package.json cannot be opened: it begins as JSON does, and is no trace, no plan, no log of the recorder, and no lines of otbench steps or of a port."],
        ["README.md", "a page\n\nclients 2\n", 'README.md is no schedule: otbench: line 1: NoClients: line 1, column 1: found "a"; wanted clients; `clients N` is the first line, above all others but comments.'],
        ["ann.jsonl", '{"who":"ann","n":0,"time":1,"do":"open","role":"client","revision":0,"state":"synchronized","outstanding":null,"buffer":null,"document":""}\n', "The recorder's logs make no session: no log is a server's. Drop the logs of all its participants together."],
      ];
      for (const [name, content, notice] of rows) {
        await user.drop(name, content);
        await user.until(`document.getElementById("notice").textContent === ${quoted(notice)}`, notice);
        assert.equal(await user.text("#name"), "two-clients");
        await user.answered({ verdict: "none" });
        assert.equal(await user.schedule(), before);
      }
    });

    /* Drops several files at once. */
    const dropTogether = (files) =>
      user.run(`(() => {
        const data = new DataTransfer();
        for (const [name, content] of ${JSON.stringify(files)}) data.items.add(new File([content], name));
        document.body.dispatchEvent(new DragEvent("drop", { dataTransfer: data, bubbles: true, cancelable: true }));
      })()`);

    test("the recorder's logs that are dropped together are one session, and a schedule and a port's lines another", async () => {
      await user.open();
      const { log } = liveSession({ seed: 5, clients: 2, edits: 6 });
      const lines = log.trim().split("\n");
      const names = [...new Set(lines.map((line) => JSON.parse(line).who))];
      await dropTogether(names.map((who) => [`${who}.jsonl`, lines.filter((line) => JSON.parse(line).who === who).join("\n")]));
      await user.answered({ verdict: "conforms" });
      const { schedule } = merge(readEvents(log, "log"));
      assert.equal(await user.schedule(), `${schedule.join("\n")}\n`);
      assert.equal(await user.text("#name"), "3 logs");
      const steps = otbench(["steps"], example("buffer.ots"));
      await dropTogether([["port.jsonl", steps.replace('"revision":1', '"revision":7')], ["buffer.ots", example("buffer.ots")]]);
      await user.answered({ verdict: "differs", at: 4, client: "server", key: "revision" });
      assert.equal(await user.text("#name"), "buffer.ots");
      await dropTogether([["a.ots", "clients 1\n"], ["b.ots", "clients 1\n"]]);
      await user.until('/^Of several files the page takes /.test(document.getElementById("notice").textContent)', "the notice");
    });

    test("characters that are not seen are named beside the text, and can be written as escapes", async () => {
      await user.open();
      await user.drop("bidi.ots", 'clients 1\nstart "a\u202eb"\n; ok\nedit 0 [3,"\u2066c"]\n');
      await user.until('!document.getElementById("unseen").hidden', "the warning");
      assert.equal(await user.text("#unseen-where"), "Line 2, column 9: U+202E is not seen, and the line may look otherwise than it is.");
      assert.deepEqual(await user.run('[...document.querySelectorAll("#numbers .unseen")].map((number) => number.textContent)'), ["2", "4"]);
      await user.click("#escapes");
      await user.until('document.getElementById("unseen").hidden', "no warning");
      assert.equal(await user.schedule(), 'clients 1\nstart "a\\u202eb"\n; ok\nedit 0 [3,"\\u2066c"]\n');
      await user.press("End");
      await user.settled(1);
      assert.equal((await user.documents())[1], "a␦b␦c");
    });

    /* A page whose worker ends, or does not answer any more, where a text has the word. */
    const withWorker = (does) => (html) => html.replace("onmessage = async ({ data: { id, call, given } }) => {", (head) => `${head}\n  if (call === "steps" && given[0].includes("hurt")) { ${does}; return; }`);

    test("a worker that does not answer leaves no verdict that is green, and can be stopped", async () => {
      await user.open("", withWorker("for (;;);"));
      await user.until('document.querySelectorAll(".verdict.good").length === 2', "the verdicts");
      const top = () => user.run('document.getElementById("main").getBoundingClientRect().top');
      await user.drop("hurt.ots", "clients 2\n; hurt\n");
      await user.shown("/hurt/");
      const before = await top();
      await user.until('!document.getElementById("late").hidden', "that it does not answer");
      assert.equal(await top(), before);
      assert.equal(await user.run('document.querySelectorAll(".verdict.good").length'), 0);
      assert.match(await user.text("#verdict"), /^the text before: /);
      await user.click("#give-up");
      await user.until('/^the engine failed: it was stopped/.test(document.getElementById("to-fault").textContent)', "that it was stopped");
      assert.equal(await user.run('document.querySelectorAll(".verdict.good").length'), 0);
      await user.drop("good.ots", "clients 2\n");
      await user.until('document.querySelectorAll(".verdict.good").length === 2', "the verdicts again");
    });

    test("a worker that ends is named, and the next change starts it again", async () => {
      await user.open("", withWorker('setTimeout(() => { throw new Error("hurt"); })'));
      await user.until('document.querySelectorAll(".verdict.good").length === 2', "the verdicts");
      await user.drop("hurt.ots", "clients 2\n; hurt\n");
      await user.until('/^the engine failed: its worker ended/.test(document.getElementById("to-fault").textContent)', "that it ended");
      assert.equal(await user.run('document.querySelectorAll(".verdict.good").length'), 0);
      await user.drop("good.ots", "clients 2\nedit 0 [\"x\"]\n");
      await user.until('document.getElementById("length").textContent === "of 1"', "the session");
      user.page.exceptions.length = 0; // the worker's own
    });

    /* Gives the page what is damaged, behind a session with a word in it, and waits until it is opened or there is a message. */
    async function giveDamaged(number, give) {
      await user.drop("before.ots", `clients 1\n; before ${number}\n`);
      await user.shown(`/; before ${number}\\n$/`);
      await user.run('(window.stays = true, document.querySelector("dialog[open]")?.close())');
      await give();
      const isOpened = `!document.getElementById("text").value.includes("; before ${number}\\n")`;
      await user.until(`document.querySelector("dialog[open]") || !document.getElementById("notice").hidden || ${isOpened}`, `a message for ${number}`);
      assert.deepEqual(await user.run(HARM), [], `number ${number}`);
    }

    test(`${DAMAGED} damaged files are opened, or there is a message`, async () => {
      const random = chance(5);
      await user.open();
      for (let k = 0; k < DAMAGED; k++) await giveDamaged(k, () => user.drop("damaged", damaged(files[random(files.length)][1], random)));
    });

    test(`${2 * DAMAGED} damaged links are opened, or there is a message`, async () => {
      const random = chance(6);
      await user.open();
      await user.press("c");
      await user.until('location.hash.includes("image=")', "the link");
      const link = await user.run("location.hash");
      for (let k = 0; k < 2 * DAMAGED; k++) {
        const hash = new TextDecoder().decode(damaged(Buffer.from(link.slice(1)), random));
        await giveDamaged(k, () => user.run(`(location.hash = "#at=0", setTimeout(() => { location.hash = ${quoted(`#${hash}`)}; }))`));
      }
    });

    test("hostile values in a link", async () => {
      await user.open();
      await user.press("c");
      await user.until('location.hash.includes("image=")', "the link");
      const link = await user.run("location.hash");
      for (const value of HOSTILE.filter((value) => typeof value === "string" && value.length < 5000)) {
        const text = encodeURIComponent(value.toWellFormed());
        await user.page.goto(`${addressOfPage()}${link.replace("at=", `title=${text};c0=${text};c1=${text};at=`)}`);
        await user.started();
        await user.run("window.stays = true");
        assert.deepEqual(await user.run(HARM), [], value.slice(0, 50));
        assert.match(await user.schedule(), /^; client 0 is /);
      }
      assert.ok(quoted(link).length < 300);
    });
  });
}
