/* The tests of the page with the engine, for any browser, by real keys and clicks. */

import assert from "node:assert/strict";
import fs from "node:fs";
import { test } from "node:test";
import { example, portLinesOf } from "../test/sessions.mjs";
import { wait } from "./driver.js";
import { difference, portLines, weakOrder } from "./faulty_port.js";
import { addressOfPage, otbench } from "./otbench.js";
import { suite } from "./suite.js";
import { clipboardEvent, quoted } from "./user.js";

const file = (name) => fs.readFileSync(new URL(`../../examples/${name}`, import.meta.url), "utf8");

/* Tests the page in a browser: its name, and what opens it. */
export function testIn(name, openBrowser) {
  suite(name, openBrowser, (user) => {
    test("the first visit shows two people who type at one position", async () => {
      await user.open();
      await user.settled(2);
      assert.equal(await user.text("#name"), "two-clients");
      assert.deepEqual(await user.documents(), ["", "a", "b"]);
      await user.until('/^all documents order letters alike$/.test(document.getElementById("list-verdict").textContent)', "the verdict");
      assert.equal(await user.text("#verdict"), "all messages arrive");
      assert.doesNotMatch(await user.run("document.body.innerText"), /quiet|weak list|offset|in this order/, "the first sight has plain words");
      const text = await user.schedule();
      await user.click('[data-play="take 0"]');
      await user.settled(3);
      assert.equal(await user.schedule(), text, "a message that goes through next anyway");
      await user.click('[data-play="deliver 1"]');
      await user.settled(4);
      assert.match(await user.schedule(), /take 0\ndeliver 1\ntake 1\nack 1\n/);
      await user.until('document.getElementById("verdict").textContent === "all messages arrive"', "the verdict");
    });

    test("the guide's story, from nothing, by clicks and keys, shared and opened again", async () => {
      await user.openNew();
      await user.typeAtEnd('start "x"');
      await user.shown('/start "x"/');
      await user.click('.document[data-who="0"]');
      await user.press("End");
      await user.page.type("z");
      await user.settled(1);
      await user.press("ArrowLeft");
      await user.page.type("a");
      await user.settled(2);
      await user.press("ArrowLeft", "Backspace");
      await user.settled(3);
      await user.click('.document[data-who="1"]');
      await user.press("Home");
      await user.page.type("c");
      await user.settled(4);
      const clicks = ["take 1", "take 0", "deliver 0", "ack 0", "take 0", "ack 1"];
      for (const [i, instruction] of clicks.entries()) {
        await user.click(`[data-play="${instruction}"]`);
        await user.settled(5 + i);
      }
      await user.press("Escape", "1", "n");
      await user.settled(11);
      await user.press("n");
      await user.settled(12);
      await user.press("0", "n");
      await user.settled(13);
      for (const button of ["read 0", "read 1", "read-server"]) await user.click(`[data-play="${button}"]`);
      await user.settled(16);
      const text = await user.schedule();
      assert.equal(text, weakOrder.replace(/^;.*\n/gm, ""));
      const printed = otbench(["run"], text);
      assert.ok(printed.endsWith(await user.end()), printed);

      await user.click("#paste");
      await user.run(`document.getElementById("pasted").value = ${quoted(portLines)}`);
      await user.click('#pasting button[value="compare"]');
      await user.answered(difference);
      assert.match(await user.text("#conformance"), / \(line 9\)$/);
      assert.match(await user.text("#answer"), /note that is what transform gives if the text of its second argument goes first/);
      await user.press("d");
      await user.settled(7);
      assert.match(await user.text("#sentence"), /The port: buffer \[1,"a",-1,1\], ot.js: \["a",1,-1,1\]/);

      await user.press("c");
      await user.until('location.hash.includes("image=")', "the link");
      const link = await user.run("location.hash");
      assert.ok(link.replace(/;port=.*/, "").length < 300, link);
      await user.open(link);
      await user.settled(7);
      await user.answered(difference);
      assert.equal(await user.schedule(), text);
      assert.deepEqual(await user.documents(), ["cxz", "acz", "cx"]);
      await user.press("End");
      await user.settled(16);
      assert.ok(otbench(["run"], await user.schedule()).endsWith(await user.end()));
    });

    test("typing, a paste, a cut, line breaks, emoji and control characters are the least edits, in scalars", async () => {
      await user.openNew();
      await user.click('.document[data-who="0"]');
      await user.page.type("ab🙂");
      await user.shown("/🙂/");
      await user.press("Enter");
      await user.shown("/n\"\\]\\n$/");
      await user.page.type("cd");
      await user.until('document.querySelector(\'.document[data-who="0"]\').innerText.endsWith("cd")', "the letters");
      await user.press("ArrowLeft", "Backspace", "ArrowUp", "Home");
      await user.paste('.document[data-who="0"]', "p\tq\u202e👨‍👩‍👧<b>");
      await user.shown("/<b>/");
      await user.page.drawn();
      const schedule = await user.schedule();
      assert.match(schedule, /edit 0 \["p\\tq\\u202e👨‍👩‍👧<b>",5\]\n$/);
      assert.equal((await user.documents())[1], "p␉q␦👨‍👩‍👧<b>ab🙂\nd");
      await user.press("Control+a");
      assert.equal(await user.run(`(${clipboardEvent})("cut", ":focus", null)`), "p\tq\u202e👨‍👩‍👧<b>ab🙂\nd");
      await user.shown("/\\[-17\\]\\n$/");
      assert.match(otbench(["run"], await user.schedule()), /^client 0 rev 0 awaiting-with-buffer ""$/m);
    });

    test("fast typing loses no letter, and where the caret stands counts", async () => {
      await user.openNew();
      await user.click('.document[data-who="1"]');
      await user.page.keys("the quick brown fox");
      await user.until('document.querySelectorAll(".card .document")[2].textContent === "the quick brown fox"', "the letters");
      await user.press("Home");
      await user.page.keys("tt");
      await user.shown('/edit 1 \\["t",19\\]\\nedit 1 \\[1,"t",19\\]\\n$/');
      assert.equal((await user.schedule()).split("\n").length, 23);
    });

    test("undo and redo of everything", async () => {
      await user.open();
      const first = await user.schedule();
      await user.click('.document[data-who="0"]');
      await user.page.type("x");
      await user.until('document.getElementById("place").value === "3"', "the edit");
      const typed = await user.schedule();
      await user.press("Escape", "q");
      await user.until('document.querySelector("#sentence .now").textContent === "All messages have arrived."', "quiet");
      const last = await user.schedule();
      assert.deepEqual(typed.split("\n").filter((line) => !last.split("\n").includes(line)), [], "what came behind is kept");
      assert.deepEqual(last.match(/^take [01]$/gm), ["take 0", "take 1", "take 0"], "and no message is taken twice");
      await user.press("Control+z");
      await user.until(`document.getElementById("text").value === ${quoted(typed)}`, "the text with what was typed");
      await user.click("#undo");
      await user.settled(2);
      assert.equal(await user.schedule(), first);
      await user.click("#redo");
      await user.press("Control+Shift+Z");
      await user.until(`document.getElementById("text").value === ${quoted(last)}`, "the last text");
    });

    test("the text: typing changes the picture, a fault stands at its column, and the place is marked both ways", async () => {
      await user.open();
      await user.typeAtEnd("edit 1 [2,");
      await user.until('/^line 12, column 1\\d: BadOperation/.test(document.getElementById("to-fault").textContent)', "the fault");
      assert.match(await user.text("#verdict"), /^the text before: (not )?all messages arrive/);
      assert.equal(await user.run('document.getElementById("verdict").className'), "verdict ");
      assert.equal(await user.run('getComputedStyle(document.getElementById("time")).opacity'), "0.5");
      assert.equal(await user.text("#marks .bad mark"), " ");
      assert.equal(await user.run('document.querySelector("#numbers .bad").textContent'), "12");
      await user.page.type('"c"]');
      await user.until('document.getElementById("to-fault").hidden', "no fault");
      assert.match(await user.text("#verdict"), /^(not )?all messages arrive/);
      await user.settled(9);
      assert.deepEqual(await user.documents(), ["ba", "ba", "bac"]);
      await user.press("ArrowUp", "ArrowUp");
      await user.settled(7);
      assert.equal(await user.text("#numbers .now"), "10");
      await user.press("Escape", "k");
      await user.settled(6);
      assert.equal(await user.text("#numbers .now"), "9");
      await user.click('#numbers [data-line="4"]');
      await user.settled(2);
    });

    test("what does not fit is refused, with its reason, and can be left out", async () => {
      await user.open();
      await user.typeAtEnd("ack 0\nread 1");
      await user.until('!document.getElementById("leave-out").hidden', "the refusal");
      assert.match(await user.text("#to-fault"), /^line 12, ack 0: LinkEmpty: /);
      assert.match(await user.text("#verdict"), /^stopped at place 8: LinkEmpty \(line 12\); all messages arrive/);
      const colours = await user.run('["stop", "end"].map((id) => getComputedStyle(document.getElementById(id)).color)');
      assert.deepEqual(colours, ["rgb(196, 22, 42)", "rgb(95, 104, 117)"]);
      await user.click("#leave-out");
      await user.until('document.getElementById("to-fault").hidden', "no refusal");
      assert.match(await user.schedule(), /deliver 0\nread 1$/);
    });

    test("files: image, lines, trace, plan, a schedule with a port's lines, and what is none of them", async () => {
      await user.open();
      await user.drop("late-join.img", [...fs.readFileSync(new URL("../../examples/late-join.img", import.meta.url))]);
      await user.shown("/present 1/");
      assert.equal(await user.text("#name"), "late-join.img");
      await user.drop("port.jsonl", portLinesOf(example("both-delete")).join("\n"));
      await user.shown("/edit 1 \\[-1\\]/");
      await user.answered({ verdict: "conforms" });
      await user.drop("reversed.json", file("reversed.json"));
      await user.until('document.getElementById("judged").open', "the trace");
      assert.match(await user.text("#trace-verdict"), /^reversed 2 4 0:0 1:0\nevent 2 is a read of replica 0; .*\nevent 4 is a read of replica 1; .*$/);
      assert.equal(await user.run('document.querySelectorAll("#judged .at-fault mark").length'), 4);
      await user.press("Escape");
      await user.drop("bad.bin", [255, 254, 0, 1]);
      await user.until('/^bad.bin cannot be opened: it is not text in UTF-8/.test(document.getElementById("notice").textContent)', "the notice");
      await user.drop("cut.img", [79, 84, 83, 50, 0]);
      await user.until('/^cut.img is no image of a schedule: otbench: byte 5: Cut/.test(document.getElementById("notice").textContent)', "the fault of the image");
      await user.drop("both.ots", `${weakOrder}%%\n{"at":1,"document":"q"}\n`);
      await user.answered({ verdict: "differs", at: 1, client: 0, key: "document" });
    });

    test("hostile texts are shown and never run", async () => {
      const bad = '<script>window.hurt = 1</script><img src=x onerror="window.hurt = 1"><a href="javascript:window.hurt = 1">x</a>';
      const schedule = `; ${bad}\n; client 0 is ${bad}\nclients 2\nstart ${quoted(bad)}\nedit 0 [${[...bad].length},${quoted(bad)}]\n`;
      await user.open();
      await user.drop(`${bad}.ots`, schedule);
      await user.shown("/client 0 is/");
      await user.press("End");
      await user.settled(1);
      await user.paste("body", `${schedule}%%\n${bad}\n{"at":1,"document":${quoted(bad)},"stopped":${quoted(bad)}}\n`);
      await user.answered({ verdict: "differs", at: 1, key: "line" });
      await user.press("d");
      await user.drop("trace.json", `{"replicas":1,"start":[],"events":[],"more":${quoted(bad)}}`);
      await user.until('document.getElementById("judged").open', "the trace");
      await user.press("Escape");
      await user.drop(`${bad}.json`, `{"events":${quoted(bad)}}`);
      await user.until('document.getElementById("notice").textContent.includes("<script>")', "the notice");
      await user.press("c");
      await user.until('location.hash.includes("image=")', "the link");
      const link = await user.run("location.hash");
      await user.open(link.replace("at=", `title=${encodeURIComponent(bad)};c1=${encodeURIComponent(bad)};at=`));
      await user.shown("/client 1 is/");
      await wait(300);
      assert.equal(await user.run("window.hurt ?? null"), null);
      assert.equal(await user.run('document.querySelectorAll("img, a[href], main script, header script, dialog script").length'), 0);
    });

    test("the policy of the page stops scripts that are not its own", async () => {
      await user.open("", (html) => html.replace('<main id="main"', '<script>window.hurt = 1</script><img src="x" onerror="window.hurt = 1"><main id="main"'));
      await user.run(`(() => { const script = document.createElement("script"); script.textContent = "window.hurt = 2"; document.body.append(script); })()`);
      await wait(200);
      assert.equal(await user.run("window.hurt ?? null"), null);
      assert.equal(await user.run('fetch("data:text/plain,x").then(() => "fetched", () => "stopped")'), "stopped");
      user.page.exceptions.length = 0;
    });

    test("by keyboard alone: from an empty session to a verdict", async () => {
      await user.open();
      const reached = new Set();
      for (let k = 0; k < 44 && !reached.has("document of client 1"); k++) {
        await user.page.key("Tab");
        reached.add(await user.run('document.activeElement.id || document.activeElement.dataset.play || document.activeElement.getAttribute("aria-label") || ""'));
      }
      await user.run(`document.getElementById("conformance").hidden = false`);
      await user.run('document.getElementById("conformance").focus()');
      assert.equal(await user.run("document.activeElement.id"), "conformance", "what conform answered is a button");
      const wanted = ["new", "examples", "open", "paste", "link", "save", "theme", "help", "slider", "next", "last", "place", "followed", "lanes", "text-shown", "quiet", "text", "time", "grip", "state", "read-server", "document of client 0", "read 0", "document of client 1"];
      for (const id of wanted) assert.ok(reached.has(id), `${id} is reached: ${[...reached]}`);
      await user.run('document.getElementById("new").focus()');
      await user.press("Enter");
      await user.shown("/^clients 2\\n$/");
      await user.run("document.activeElement.blur()");
      await user.press("0", "Enter");
      await user.page.keys("hi");
      await user.settled(2);
      await user.press("Escape", "u");
      await user.settled(3);
      await user.press("n");
      await user.settled(4);
      await user.press("1", "n", "r", "q");
      await user.until('document.querySelector("#sentence .now").textContent === "All messages have arrived."', "quiet");
      assert.deepEqual(await user.documents(), ["hi", "hi", "hi"]);
      await user.press("u");
      assert.equal(await user.text("#notice"), "No message of client 1 is under way to the server.");
      await user.press("Delete");
      await user.until('!document.getElementById("verdict").textContent.startsWith("all messages")', "one instruction less");
    });

    test("names of clients, lanes that are hidden, both themes, a phone's width", async () => {
      await user.open("#theme=dark");
      assert.equal(await user.run("getComputedStyle(document.body).backgroundColor"), "rgb(20, 23, 28)");
      await user.press("t");
      assert.equal(await user.run("getComputedStyle(document.body).backgroundColor"), "rgb(255, 255, 255)");
      await user.click('[data-name="1"]');
      await user.page.type("Ben");
      await user.press("Enter");
      await user.shown("/^; client 1 is Ben\\n/");
      assert.match(await user.text("#heads"), /1 Ben/);
      assert.match(await user.text('[data-card="1"] h2'), /^client 1 \(Ben\)/);
      await user.press("ArrowLeft", "ArrowRight");
      assert.match(await user.text("#sentence"), /^edit 1: the user of client 1 \(Ben\) edits/);
      await user.press("v");
      await user.click('#shown-lanes input[value="0"]');
      await user.press("Escape");
      assert.equal(await user.run('document.querySelectorAll(".card").length'), 2);
      assert.equal(await user.run('document.querySelectorAll("#heads .lane").length'), 2);
      await user.page.size(390, 800);
      await user.page.drawn();
      assert.ok(await user.run("document.documentElement.scrollWidth <= document.documentElement.clientWidth"), "nothing is wider than a narrow window");
    });

    test("on a phone all controls are in sight and high enough for a finger, no text is cut, and lanes are seen whole", async () => {
      await user.page.size(390, 800);
      await user.open();
      await user.until('document.getElementById("list-verdict").textContent !== ""', "the verdict");
      await user.paste("body", `${weakOrder}%%\n${portLines}`);
      await user.answered(difference);
      await user.press("d");
      await user.settled(7);
      const share = await user.run('document.getElementById("header").offsetHeight / innerHeight');
      assert.ok(share < 0.4, `the header has ${share} of the window`);
      const overlaps = await user.run('document.getElementById("time").getBoundingClientRect().bottom > document.getElementById("state").getBoundingClientRect().top');
      assert.equal(overlaps, false, "the diagram stands over no card");
      await user.click("#menu");
      const controls = `[...document.querySelectorAll("header button:not([hidden], [hidden] *), header select, header input, .card button")]`;
      const faulty = await user.run(`${controls}.map((control) => [control.id || control.textContent, control.getBoundingClientRect()])
        .filter(([, { left, right, height }]) => left < 0 || right > innerWidth || height < 32).map(([name]) => name)`);
      assert.deepEqual(faulty, []);
      await user.click("#menu");
      const cut = await user.run(`[...document.querySelectorAll("header *")].filter((part) => !part.matches("input, select, option") && !["inline", "none"].includes(getComputedStyle(part).display) && getComputedStyle(part).overflowY !== "auto")
        .filter((part) => part.scrollWidth > part.clientWidth + 2 || part.scrollHeight > part.clientHeight + 2).map((part) => part.id || part.className)`);
      assert.deepEqual(cut, []);
      const heads = `(() => {
        const left = document.querySelector("#heads .texts svg").getBoundingClientRect().right;
        const names = [...document.querySelectorAll("#heads .lane text")].map((name) => [name.textContent, name.getBoundingClientRect()]);
        const cut = names.filter(([, box]) => box.left < left && box.right > left);
        const whole = names.filter(([, box]) => box.left >= left && box.right <= innerWidth);
        return [cut, whole].map((some) => some.sort(([, a], [, b]) => a.left - b.left).map(([name]) => name).join());
      })()`;
      const seen = (names) => user.until(`${heads}.join(": ") === ": ${names}"`, `${names}, and no other name cut`);
      await seen("client 0,server,client 1");
      await user.drop("five.ots", 'clients 5\nedit 4 ["abc"]\nedit 0 ["d"]\ntake 4\n');
      await user.until('document.getElementById("length").textContent === "of 3"', "the session of five");
      for (const [i, names] of ["server,client 3,client 4", "client 0,client 1,client 2", "client 2,server,client 3"].entries()) {
        await user.press("ArrowRight");
        await user.settled(i + 1);
        await seen(names);
      }
      await user.press("?");
      assert.equal(await user.run('document.getElementById("keys").scrollTop'), 0, "the keys are shown from the first");
      assert.ok(await user.run('document.getElementById("keys").scrollHeight > document.getElementById("keys").clientHeight'));
      await user.press("Escape");
      assert.equal(await user.run("scrollY"), 0, "stepping does not scroll the page");
    });

    for (const [width, height] of [[1280, 720], [390, 844]])
      test(`at ${width} x ${height} the first sight shows both lanes and both clients' cards whole, and what to do`, async () => {
        await user.page.size(width, height);
        await user.open();
        await user.until('document.getElementById("list-verdict").textContent !== "" && document.getElementById("outlook").textContent !== ""', "the verdicts");
        await user.page.drawn();
        const cut = await user.run(`(() => {
          const room = (id) => document.getElementById(id).getBoundingClientRect();
          const isIn = (box, { left, right, bottom }) => box.left >= left && box.right <= right && box.bottom <= bottom;
          const lanes = [...document.querySelectorAll("#heads .lane rect")].filter((lane) => !isIn(lane.getBoundingClientRect(), room("time")));
          const cards = [...document.querySelectorAll(".card")].filter((card) => !isIn(card.getBoundingClientRect(), room("state")));
          const hidden = (id, side) => Math.max(0, document.getElementById(id)["scroll" + side] - document.getElementById(id)["client" + side] - 2);
          return [lanes.length, cards.map((card) => card.dataset.card), hidden("time", "Width"), hidden("notice", "Height")];
        })()`);
        assert.deepEqual(cut, [0, [], 0, 0]);
      });

    test("names and titles of 3,000 characters leave the controls in sight", async () => {
      await user.open();
      const long = "W".repeat(3000);
      await user.drop(`${long}.ots`, `; client 0 is ${long}\nclients 2\nedit 0 ["a"]\ntake 0\n; cut: "${long}"\n`);
      await user.shown("/client 0 is W/");
      await user.press("End");
      await user.settled(2);
      assert.ok(await user.run('document.getElementById("header").offsetHeight < innerHeight / 3'));
      const out = await user.run(`[...document.querySelectorAll("header button:not([hidden])")].filter((button) => button.checkVisibility())
        .map((button) => [button.id, button.getBoundingClientRect()]).filter(([, { left, right, bottom }]) => left < 0 || right > innerWidth || bottom > innerHeight / 3).map(([id]) => id)`);
      assert.deepEqual(out, []);
      for (const [width, height] of [[390, 844], [1280, 720]]) {
        await user.page.size(width, height);
        await user.page.drawn();
        const [isWider, isSeen] = await user.run(`[document.documentElement.scrollWidth > innerWidth, document.getElementById("verdict").getBoundingClientRect().bottom <= document.querySelector(".told").getBoundingClientRect().bottom]`);
        assert.deepEqual([isWider, isSeen], [false, true], `${width} x ${height}`);
      }
      await user.page.size(1440, 900);
      await user.drop(`${long}.bin`, [255, 254, 0, 1]);
      await user.until('document.getElementById("notice").textContent.includes("UTF-8")', "the notice");
      assert.ok((await user.text("#notice")).length < 200);
    });

    test("on paper is all of the session, in the light theme", async () => {
      await user.open("#theme=dark");
      await user.until('document.getElementById("list-verdict").textContent !== ""', "the verdict");
      await user.drop("many.ots", `clients 2\n${["[\"a\"]", "[-1]"].map((edit) => `edit 0 ${edit}\ntake 0\nack 0\ndeliver 1\n`).join("").repeat(30)}`);
      await user.until('document.getElementById("length").textContent === "of 240"', "the session");
      /* What is printed, at once, as a browser takes it: a verdict that comes later would draw the rows in sight again. */
      const [before, printed, after] = await user.run(`(() => {
        const shown = () => ({ rows: document.querySelectorAll("#rows .texts text").length, theme: document.documentElement.dataset.theme, text: document.getElementById("printed").textContent });
        return [null, "beforeprint", "afterprint"].map((name) => {
          if (name) dispatchEvent(new Event(name));
          return shown();
        });
      })()`);
      assert.ok(before.rows < 240, `${before.rows} texts in sight`);
      assert.ok(printed.rows > 240 * 2, `${printed.rows} texts of all rows`);
      assert.equal(printed.theme, "light");
      assert.match(printed.text, /^clients 2\n[^]*deliver 1\n$/);
      assert.ok(after.rows < 240, `${after.rows} texts in sight again`);
      assert.deepEqual([after.theme, after.text], ["dark", ""]);
    });

    test("long verdicts leave the controls where they are", async () => {
      await user.page.size(1400, 900);
      await user.open();
      const places = '[...document.querySelectorAll(".tools button")].map((button) => (({ left, top }) => [left, top])(button.getBoundingClientRect()).join())';
      const before = await user.run(places);
      await user.drop("refused.ots", 'clients 2\nstart "hello"\nedit 0 [3,"a"]\n');
      await user.until('document.getElementById("verdict").textContent === "stopped at place 0: BadBase (line 3); all messages arrive"', "the refusal");
      await user.until('document.getElementById("list-verdict").textContent !== ""', "the verdict");
      assert.deepEqual(await user.run(places), before);
      const right = await user.run('Math.max(...[...document.querySelectorAll(".verdict")].map((verdict) => verdict.getBoundingClientRect().right))');
      assert.ok(right < Number(before[0].split(",")[0]), "nothing stands over another");
    });

    test("where the recorder's log is cut is shown, and so are characters that look the same", async () => {
      await user.open();
      const cut = "ann, event 9: deliver of operation 7, which the server did not take";
      await user.paste("body", `; client 0 is "a\\u0007b"\nclients 1\nstart "\u00e9"\nread 0\n; cut: ${quoted(cut)}\n%%\n{"at":1,"document":"e\u0301\u200b"}\n{"cut":${quoted(cut)}}\n`);
      await user.answered({ verdict: "differs", at: 1, client: 0, key: "document" });
      assert.equal(await user.text("#cut"), `ends before its logs: ${cut}`);
      await user.press("d");
      await user.settled(1);
      assert.match(await user.text("#sentence"), /The port: document "e\\u\{301\}\\u\{200b\}", ot\.js: "\\u\{e9\}"\./);
      assert.match(await user.text("#answer"), /found "e\\u\{301\}\\u\{200b\}"\s*ot\.js "\\u\{e9\}"/);
      assert.match(await user.text('[data-card="0"] h2'), /^client 0 \(a␇b\)/);
      await user.open();
      assert.equal(await user.run('document.getElementById("cut").hidden'), true);
    });

    test("what was changed is there again after a reload, of a link's session too, and a new visit begins anew", async () => {
      const noticed = 'document.getElementById("notice").textContent.startsWith("What was changed before")';
      await user.open();
      const first = await user.schedule();
      await user.reload();
      assert.equal(await user.schedule(), first, "nothing was changed");
      await user.click('.document[data-who="0"]');
      await user.page.type("x");
      await user.settled(3);
      await user.run('document.activeElement.blur()');
      const typed = await user.schedule();
      assert.match(typed, /edit 0 \[/);
      await user.reload();
      await user.until(noticed, "the notice");
      assert.equal(await user.schedule(), typed);
      await user.settled(3);
      await user.reload();
      await user.until(noticed, "the notice, again");
      await user.click("#undo");
      await user.until(`document.getElementById("text").value === ${quoted(first)}`, "the session that it was opened with");
      await user.press("c");
      await user.until('location.hash.includes("image=")', "the link");
      await user.press("End", "r");
      await user.press("0", "r");
      await user.shown("/read 0\\n$/");
      const read = await user.schedule();
      await user.reload();
      await user.until(noticed, "the notice of the link's session");
      assert.equal(await user.schedule(), read);
      await user.open();
      assert.equal(await user.schedule(), first, "a new visit");
    });

    test("what is changed in the turn of a reload is there again, and also where the address becomes another one while the page is left", async () => {
      const noticed = 'document.getElementById("notice").textContent.startsWith("What was changed before")';
      const write = (line) => `((field) => { field.value += ${quoted(`${line}\n`)}; field.dispatchEvent(new Event("input", { bubbles: true })); })(document.getElementById("text"))`;
      await user.open();
      await user.run(`(() => { window.isOld = true; ${write("read 1")}; setTimeout(() => location.reload()); })()`);
      await user.left();
      await user.started();
      await user.until(noticed, "the notice");
      assert.match(await user.schedule(), /\nread 1\n$/);
      await user.press("c");
      await user.until('location.hash.includes("image=")', "the link");
      await user.run(write("read 0"));
      await user.run('addEventListener("pagehide", () => history.replaceState(null, "", "#at=1"), { capture: true })');
      await user.reload();
      assert.match(await user.run("location.hash"), /image=/, "the address of before");
      await user.until(noticed, "the notice, of the link's session");
      assert.match(await user.schedule(), /\nread 1\nread 0\n$/);
    });

    test("until the engine has started the page says that it starts, and nothing else", async () => {
      await user.page.goto(addressOfPage((html) => html.replace("onmessage = async", "const heard = async")));
      await wait(300);
      assert.equal(await user.run("document.body.innerText.trim()"), "Starting …");
    });

    test("a page whose engine does not load says so, and leaves the viewer", async () => {
      const lines = otbench(["steps"], weakOrder).replaceAll("<", "\\u003c");
      const broken = (html) => html.replace(/(id="module">)[^<]*/, "$1AAAA").replace('id="lines">\n', () => `id="lines">\n${lines}`);
      await user.page.goto(addressOfPage(broken));
      await user.until('/^The engine does not run: /.test(document.getElementById("notice").textContent)', "the notice");
      await user.press("ArrowRight");
      await user.settled(1);
      assert.deepEqual(await user.documents(), ["x", "xz", "x"]);
      assert.equal(await user.run('document.querySelectorAll("[contenteditable], [data-play]").length'), 0);
      await user.page.goto(addressOfPage((html) => html.replace(/(id="module">)[^<]*/, "$1AAAA")));
      await user.until('/^The engine does not run: /.test(document.getElementById("refused").textContent)', "the reason");
      assert.match(await user.run("document.body.innerText"), /^A session, to look at\n[^]*The engine does not run: /);
      user.page.exceptions.length = 0;
    });
  });
}
