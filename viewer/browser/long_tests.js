/* Tests of the page with long sessions, for any browser: it answers soon, or says that it does not. */

import assert from "node:assert/strict";
import { test } from "node:test";
import { SLOWEST, inWords, measure, median, open, slowness } from "./paces.js";
import { suite } from "./suite.js";

/* A session of 100,000 instructions whose document stays short. */
function longest() {
  const round = ['edit 0 ["a"]', "take 0", "ack 0", "deliver 1", "edit 1 [-1]", "take 1", "ack 1", "deliver 0"];
  return `clients 2\n${`${round.join("\n")}\n`.repeat(12500)}`;
}

export function testLong(name, openBrowser) {
  suite(`${name}, long sessions`, openBrowser, (user) => {
    test("64 clients, 10,000 instructions: keys and clicks are answered soon", async () => {
      await open(user, { clients: 64, instructions: 10000 });
      const told = {};
      const slow = [await slowness(user)];
      await measure(user, (what, times) => {
        console.log(`${name}: ${inWords(what, times)}`);
        told[what] = median(times);
      });
      slow.push(await slowness(user));
      const times = Math.max(...slow);
      console.log(`${name}: the machine is ${times.toFixed(1)} times as slow as an idle one`);
      assert.deepEqual(Object.keys(told), Object.keys(SLOWEST));
      for (const [what, most] of Object.entries(SLOWEST)) assert.ok(told[what] < most * times, `${what}: ${told[what]} ms`);
    });

    test("what was clicked is marked until the engine answers, and a click adds nothing while the text has a fault", async () => {
      await open(user, { clients: 64, instructions: 10000 });
      await user.press("End");
      const marked = await user.run(`(async () => {
        const button = document.querySelector(".card button.head");
        button.click();
        const same = document.querySelector('[data-play="' + button.dataset.play + '"]');
        return [same.disabled, same.classList.contains("asked"), document.getElementById("place").value];
      })()`);
      assert.deepEqual(marked, [true, true, "10000"]);
      await user.until('document.getElementById("length").textContent === "of 10001"', "the answer", 2000);
      assert.equal(await user.run('document.querySelectorAll(".asked").length'), 0);
      await user.typeAtEnd("x");
      await user.until('!document.getElementById("to-fault").hidden', "the fault", 2000);
      await user.press("Escape");
      await user.click(".card button.head");
      assert.match(await user.text("#notice"), /^The text has a fault/);
      assert.match(await user.schedule(), /x$/);
    });

    test("100,000 instructions: the page says that it cannot answer at once, and stays in use", async () => {
      await user.open();
      await user.drop("longest.ots", longest());
      await user.until('document.getElementById("length").textContent === "of 100000"', "the session", 4000);
      assert.match(await user.text("#pace"), /^too long for live answers: \d+\.\d s$/);
      assert.equal(await user.run('document.getElementById("pace").hidden'), false);
      await user.press("End");
      await user.settled(100000);
      await user.press("k", "k");
      await user.settled(99998);
      await user.press("End");
      await user.click("#text");
      await user.press("Control+End");
      await user.page.keys("edit 1 [");
      await user.shown("/edit 1 \\[$/");
      await user.until('/^line 100002, column \\d+: BadOperation/.test(document.getElementById("to-fault").textContent)', "the fault", 4000);
      await user.page.keys('"b"]');
      await user.until('/^line 100002, column 1: TooMany/.test(document.getElementById("to-fault").textContent)', "the answer", 4000);
    });
  });
}
