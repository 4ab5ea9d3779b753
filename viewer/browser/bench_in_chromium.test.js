/* The page with the engine in Chromium; and an input method, which its protocol alone can play. */

import assert from "node:assert/strict";
import { test } from "node:test";
import { testIn } from "./bench_tests.js";
import { openChromium } from "./chromium.js";
import { testCommands } from "./command_tests.js";
import { testByHand } from "./hand_tests.js";
import { testInputs } from "./input_tests.js";
import { testLong } from "./long_tests.js";
import { testLooks } from "./looks_tests.js";
import { testSharing } from "./sharing_tests.js";
import { suite } from "./suite.js";
import { testWriting } from "./writing_tests.js";

testIn("Chromium", openChromium);
testInputs("Chromium", openChromium);
testByHand("Chromium", openChromium);
testCommands("Chromium", openChromium);
testSharing("Chromium", openChromium);
testWriting("Chromium", openChromium);
testLooks("Chromium", openChromium);
testLong("Chromium", openChromium);

suite("Chromium, an input method", openChromium, (user) => {
  test("what an input method composes is one edit, at its end", async () => {
    const shown = () => user.run('document.querySelector(\'.document[data-who="0"]\').textContent');
    await user.openNew();
    await user.click('.document[data-who="0"]');
    await user.page.keys("ab");
    await user.settled(2);
    await user.press("ArrowLeft");
    for (const text of ["n", "に", "にほ"]) {
      await user.page.send("Input.imeSetComposition", { text, selectionStart: text.length, selectionEnd: text.length });
      assert.equal(await shown(), `a${text}b`);
    }
    assert.equal(await user.schedule(), 'clients 2\nedit 0 ["a"]\nedit 0 [1,"b"]\n');
    await user.page.send("Input.insertText", { text: "日本" });
    await user.settled(3);
    await user.page.keys("c");
    await user.settled(4);
    assert.equal(await user.schedule(), 'clients 2\nedit 0 ["a"]\nedit 0 [1,"b"]\nedit 0 [1,"日本",1]\nedit 0 [3,"c",1]\n');
    assert.equal(await shown(), "a日本cb");
  });
});
