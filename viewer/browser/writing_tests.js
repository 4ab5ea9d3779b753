/* Tests of writing in the page, for any browser: the text beside its line numbers, and long documents. */

import assert from "node:assert/strict";
import { test } from "node:test";
import { suite } from "./suite.js";
import { clipboardEvent, quoted } from "./user.js";

/* A text of so many characters, no two parts of which are alike. */
const longText = (length) => Array.from({ length: Math.ceil(length / 6) }, (_, i) => `${String(i).padStart(5, "0")} `).join("").slice(0, length);

const EDITOR = '.document[data-who="0"]';

export function testWriting(name, openBrowser) {
  suite(`${name}, writing`, openBrowser, (user) => {
    /* How far each line number, and the mark of the place, stands from its line. */
    const shifts = () =>
      user.run(`(() => {
        const area = document.getElementById("text");
        const first = Number(document.getElementById("lines-above").textContent.replace(/\\D/g, ""));
        const shift = (part, line) => parseFloat(part.style.top) - (6 + 19 * (line - first) - area.scrollTop);
        const numbers = [...document.querySelectorAll("#numbers .number")].map((number) => shift(number, Number(number.dataset.line)));
        const now = document.querySelector("#numbers .now");
        const marks = [...document.querySelectorAll("#marks .now")].map((mark) => parseFloat(mark.style.top) - parseFloat(now.style.top));
        if (marks.length !== 1) return "no mark";
        return [...new Set([...numbers, ...marks])].map(Math.round);
      })()`);

    for (const count of [60, 1500])
      test(`line numbers and the mark stand at their lines after typing at the end of ${count} lines`, async () => {
        await user.open();
        await user.drop("long.ots", `clients 2\n${'edit 0 ["a"]\nedit 0 [-1]\n'.repeat(count / 2)}`);
        await user.until(`document.getElementById("length").textContent === "of ${count}"`, "the session");
        await user.press("End");
        await user.settled(count);
        await user.typeAtEnd("read 0");
        await user.press("Enter");
        await user.shown("/read 0\\n$/");
        await user.page.drawn();
        assert.deepEqual(await shifts(), [0]);
        await user.page.type("read 1");
        await user.until(`document.getElementById("length").textContent === "of ${count + 2}"`, "the session");
        await user.page.drawn();
        assert.deepEqual(await shifts(), [0]);
        await user.press("Escape", "k", "End");
        await user.settled(count + 2);
        await user.page.drawn();
        assert.deepEqual(await shifts(), [0], "where the field is scrolled to its end already");
        await user.click("#text");
        await user.press("Control+Home");
        await user.page.drawn();
        await user.press("Control+End");
        await user.page.drawn();
        assert.deepEqual(await shifts(), [0]);
      });

    /* The last edit of the schedule. */
    const lastEdit = async () => JSON.parse(/^edit 0 (.*)$/.exec((await user.schedule()).trim().split("\n").at(-1))[1]);

    async function withText(text) {
      await user.open();
      await user.drop("one.ots", `clients 1\nstart ${quoted(text)}\n`);
      await user.shown("/^clients 1\\nstart /");
      await user.until('document.getElementById("length").textContent === "of 0"', "the session");
      await user.click(EDITOR);
    }

    test("what is typed behind a paste of 689 characters stands behind it", async () => {
      await user.openNew();
      await user.click(EDITOR);
      await user.paste(EDITOR, longText(689));
      await user.settled(1);
      await user.page.keys("xy");
      await user.settled(3);
      assert.match(await user.schedule(), /\nedit 0 \[689,"x"\]\nedit 0 \[690,"y"\]\n$/);
      await user.press("Backspace");
      await user.settled(4);
      assert.deepEqual(await lastEdit(), [690, -1]);
    });

    for (const length of [1500, 30000])
      test(`in a document of ${length} characters: its start and end, all of it, and what is selected`, async () => {
        const text = longText(length);
        await withText(text);
        await user.press("Control+End");
        await user.page.keys("z");
        await user.settled(1);
        assert.deepEqual(await lastEdit(), [length, "z"]);
        const copy = () => user.run(`(${clipboardEvent})("copy", ":focus", null)`);
        await user.press("Control+a");
        assert.equal(await copy(), `${text}z`);
        await user.press("Control+Home");
        await user.page.keys("a");
        await user.settled(2);
        assert.deepEqual(await lastEdit(), ["a", length + 1]);
        await user.press("Control+Shift+End");
        assert.equal(await copy(), `${text}z`);
        await user.press("ArrowLeft");
        await user.press("Control+End", "ArrowLeft", "ArrowLeft");
        await user.page.keys("q");
        await user.settled(3);
        assert.deepEqual(await lastEdit(), [length, "q", 2]);
        await user.press("Control+a");
        await user.page.keys("n");
        await user.settled(4);
        assert.deepEqual(await lastEdit(), ["n", -length - 3]);
        await user.press("Control+z");
        await user.until(`document.getElementById("length").textContent === "of 3"`, "undone");
        await user.page.drawn();
        assert.equal(await copy(), `a${text.slice(0, -1)}q${text.slice(-1)}z`);
      });

    test("a caret that moves far leaves what was shown, and types where it stands", async () => {
      const text = longText(30000);
      await withText(text);
      await user.press("Control+Home");
      for (let k = 0; k < 12; k++) await user.press("PageDown");
      await user.page.keys("x");
      await user.settled(1);
      const [before, x, behind] = await lastEdit();
      assert.equal(x, "x");
      assert.ok(before > 3000 && before + behind === 30000, `at ${before}`);
      const around = await user.run(`(() => {
        const { focusNode, focusOffset } = getSelection();
        return focusNode.data.slice(Math.max(0, focusOffset - 7), focusOffset);
      })()`);
      assert.equal(around.at(-1), "x");
      assert.ok(text.slice(0, before).endsWith(around.slice(0, -1)), `${around} at ${before}`);
      const isSeen = await user.run(`(() => {
        const range = getSelection().getRangeAt(0).cloneRange();
        range.setStart(range.startContainer, Math.max(0, range.startOffset - 1));
        const [caret, box] = [range, document.activeElement].map((it) => it.getBoundingClientRect());
        return caret.top >= box.top - 2 && caret.bottom <= box.bottom + 2;
      })()`);
      assert.ok(isSeen, "the caret is in sight");
    });

    test("the caret stands where it stood, after undo and redo", async () => {
      await user.openNew();
      await user.click(EDITOR);
      await user.page.keys("abcd");
      await user.settled(4);
      await user.press("ArrowLeft", "ArrowLeft");
      await user.page.keys("xy");
      await user.settled(6);
      await user.press("Backspace");
      await user.settled(7);
      for (const [key, place] of [["Control+z", 6], ["Control+z", 5], ["Control+z", 4], ["Control+Shift+Z", 5]]) {
        await user.press(key);
        await user.until(`document.getElementById("length").textContent === "of ${place}"`, `${place} instructions`);
        await user.page.drawn();
      }
      await user.page.keys("w");
      await user.settled(6);
      assert.deepEqual(await lastEdit(), [3, "w", 2]);
      await user.press("Control+z");
      await user.until('document.getElementById("length").textContent === "of 5"', "undone");
      await user.press("Control+z");
      await user.until('document.getElementById("length").textContent === "of 4"', "undone");
      await user.page.keys("v");
      await user.settled(5);
      assert.deepEqual(await lastEdit(), [2, "v", 2]);
    });
  });
}
