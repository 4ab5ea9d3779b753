/* Tests of how a session leaves the page, and of its first minute, for any browser. */

import assert from "node:assert/strict";
import { test } from "node:test";
import { difference, portLines, weakOrder } from "./faulty_port.js";
import { suite } from "./suite.js";
import { keepSaved } from "./user.js";

const withPort = `${weakOrder}%%\n${portLines}`;

/* In the page: what is copied and saved is kept. */
const KEEP = `(() => {
  Object.defineProperty(navigator, "clipboard", { value: { writeText: async (text) => { if (window.refuses) throw new Error(); window.copied = text; } }, configurable: true });
  (${keepSaved})();
})()`;

export function testSharing(name, openBrowser) {
  suite(`${name}, sharing`, openBrowser, (user) => {
    async function openWithPort() {
      await user.open();
      await user.run(KEEP);
      await user.drop("report.ots", withPort);
      await user.answered(difference);
      await user.press("d");
      await user.settled(7);
    }

    test("a session is copied as Markdown, with the port's difference and a link that opens it", async () => {
      await openWithPort();
      await user.press("i");
      await user.until("window.copied", "what is copied");
      const report = await user.run("window.copied");
      assert.match(report, /^\*\*otbench\*\* `report\.ots`: `[^`]* \(line 11\)`; in ot\.js `all messages arrive`(; `[^`]*`)?\n/);
      assert.ok(report.includes(`\n\`\`\`\n${weakOrder}\`\`\`\n`), "the schedule");
      assert.match(report, /\n\nAt place 7 of 16 \(`not quiet: client 0 is awaiting-with-buffer; 1 more client is not quiet`\):\n\n`They may still differ: .* all will be "acz"\.`\n\n```\n[^]*\n```\n\n`deliver 0, place 7: AwaitingWithBuffer\.applyServer transforms .*`\\\n`Then it transforms .*`\\\n`Both insert at the start: .*`\n\nWhat ot\.js has at place 7:\n\n- server: `"cxz"`\n- `client 0`: `"acz"`\n/);
      assert.match(report, /\nfound \[1,"a",-1,1\]\not\.js \["a",1,-1,1\]\n/);
      const [, link] = /\nThe session opens only where the page's file is: `([^`]*)`\n$/.exec(report);
      await user.open(new URL(link).hash);
      await user.answered(difference);
      assert.equal(await user.text("#name"), "report.ots");
      assert.equal(await user.schedule(), weakOrder.replace(/^;.*\n/gm, ""));
    });

    test("where the browser lets nothing be copied the Markdown is shown, and a link says where it opens", async () => {
      await openWithPort();
      await user.run("window.refuses = true");
      await user.click("#report");
      await user.until('document.getElementById("reporting").open', "the report");
      assert.match(await user.run('document.getElementById("reported").value'), /^\*\*otbench\*\* /);
      await user.press("Escape", "c");
      await user.until('/^The address of this page is the link now: \\d+ characters\\. It opens only where this file is\\./.test(document.getElementById("notice").textContent)', "the notice");
    });

    test("the text is saved with the port's lines, and the diagram as SVG and PNG", async () => {
      await openWithPort();
      await user.press("s");
      await user.click('#saving button[value="text"]');
      await user.until("window.called", "the text");
      assert.equal(await user.run("window.saved.text()"), withPort);
      for (const [kind, file] of [["svg", "session.svg"], ["png", "session.png"]]) {
        await user.press("s");
        await user.click(`#saving button[value="${kind}"]`);
        await user.until(`window.called === "${file}"`, file);
      }
      const [type, width, height] = await user.run("(async () => { const { width, height } = await createImageBitmap(window.saved); return [window.saved.type, width, height]; })()");
      assert.equal(type, "image/png");
      assert.ok(width > 1000 && height > 1000, `${width} x ${height}`);
    });

    test("a report that two users saw different texts becomes the text of an issue", async () => {
      await user.open();
      await user.run(KEEP);
      await user.click("#new-first");
      await user.shown("/^clients 2\\n$/");
      for (const [client, letter] of ["a", "b"].entries()) {
        await user.click(`.document[data-who="${client}"]`);
        await user.page.type(letter);
        await user.settled(client + 1);
      }
      await user.press("Escape");
      await user.click("#quiet");
      await user.until('document.getElementById("outlook").textContent === \'All documents must be "ba".\'', "the verdict");
      assert.match(await user.text("#notice"), /I saw …/, "what to do is still told");
      await user.click('[data-note="0"]');
      await user.until('document.getElementById("noting").open', "where to enter it");
      await user.page.type("ab");
      await user.until('/goes first \\(take 1, place 4\\)/.test(document.getElementById("noted-answer").textContent)', "the answer");
      await user.click('#noting [value="note"]');
      await user.answered({ verdict: "differs", at: 6, client: 0, key: "document" });
      await user.click("#report");
      await user.until("window.copied", "what is copied");
      const report = await user.run("window.copied");
      for (const part of ['`All documents must be "ba".`', '"b" before "a"', '- place 6, `client 0`: `"ab"`', "note that is what transform gives"]) assert.ok(report.includes(part), part);
    });

    test("the examples are a course in its order, each with what to look for, and the last one has a port with a fault", async () => {
      await user.open();
      assert.match(await user.run('document.getElementById("about").innerText'), /^otbench replays a session of ot\.js, one instruction at a time/);
      await user.click("#guide-first");
      assert.equal(await user.run('document.getElementById("guiding").open'), true);
      await user.press("Escape");
      await user.press("l");
      const titles = await user.run('[...document.querySelectorAll("#choices b")].map((title) => title.textContent)');
      assert.deepEqual(titles.slice(0, 7), ["1 A tie", "2 A buffer", "3 A late joiner", "4 Both delete", "5 The weak order", "6 A port with a fault", "one-client"]);
      for (const [i, place] of [2, 1, 3, 4, 7, 7].entries()) {
        const words = await user.run(`document.querySelectorAll("#choices button")[${i}].textContent`);
        await user.click(`#choices button[value="${i}"]`);
        await user.settled(place);
        assert.equal(`${titles[i]} ${await user.text("#notice")}`, words);
        assert.equal(await user.run('document.getElementById("about").hidden'), true);
        await user.press("l");
      }
      await user.press("Escape");
      await user.answered(difference);
      await user.press("?");
      await user.click("#guide");
      assert.equal(await user.run('document.getElementById("guiding").open'), true);
      assert.match(await user.text("#guiding"), /quiet\s*nothing is outstanding and nothing is under way/);
      await user.press("Escape", "Escape");
    });
  });
}
