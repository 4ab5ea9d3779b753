/* Tests of what is done by hand, for any browser: notes, ends of messages, the order, clients. */

import assert from "node:assert/strict";
import { test } from "node:test";
import { suite } from "./suite.js";
import { quoted } from "./user.js";

const TIE = 'clients 2\nedit 0 ["a"]\nedit 1 ["b"]\ntake 0\ntake 1\ndeliver 1\n';

export function testByHand(name, openBrowser) {
  suite(`${name}, by hand`, openBrowser, (user) => {
    const opened = async (text, place) => {
      await user.open();
      await user.paste("body", text);
      await user.until(`document.getElementById("text").value === ${quoted(text)}`, "the session");
      await user.until('document.getElementById("length").textContent !== "of 0"');
      await user.run(`location.hash = "#at=${place}"`);
      await user.settled(place);
    };

    const note = async (client, text) => {
      await user.click(`[data-note="${client}"]`);
      await user.until('document.getElementById("noting").open');
      await user.run(`(() => { const field = document.getElementById("showed"); field.value = ${quoted(text)}; field.dispatchEvent(new Event("input")); })()`);
    };

    test("what an editor showed is compared at once, noted, shared and taken away", async () => {
      const ofNote = { verdict: "differs", at: 5, client: 1, key: "document" };
      await opened(TIE, 5);
      await note(1, "ab");
      await user.until('/ot.js has "ba" here.*: that is what transform gives if the text of its second argument goes first/.test(document.getElementById("noted-answer").textContent)', "the answer");
      await note(1, "ba");
      await user.until('/same text/.test(document.getElementById("noted-answer").textContent)', "the answer");
      await note(1, "<img src=x onerror=window.harm=1>\u202e");
      await user.click('#noting [value="note"]');
      await user.answered(ofNote);
      await user.until('/my editor.*ot.js has/s.test(document.querySelector(\'[data-card="1"]\').textContent)', "the card");
      assert.equal(await user.run('"harm" in window'), false);
      await user.run('document.getElementById("link").click()');
      await user.until('/port=/.test(location.hash)', "the link");
      const hash = await user.run("location.hash");
      await user.open(hash);
      await user.answered(ofNote);
      await user.until('document.getElementById("list-verdict").textContent !== "" && document.getElementById("outlook").textContent !== ""', "the verdicts");
      await user.settled(5);
      await user.click('[data-note="1"]');
      await user.until('document.getElementById("noting").open');
      assert.match(await user.run('document.getElementById("showed").value'), /^<img/);
      await user.click("#forget-note");
      await user.answered({ verdict: "none" });
    });

    test("where the other order at the server gives what was seen, the answer says so; the server's document is noted too", async () => {
      await opened(`${TIE}ack 1\nack 0\ndeliver 0\n`, 8);
      const data = (wanted) => user.until(`Object.entries(${quoted(wanted)}).every(([name, value]) => document.getElementById("conformance").dataset[name] === value)`, quoted(wanted));
      await note(1, "ab");
      const sentence = "ot.js has \"ba\" here, since the server took client 0’s edit first. With the other order, client 1’s edit first, it would have \"ab\".";
      await user.until(`document.getElementById("noted-answer").textContent.startsWith(${quoted(sentence)})`, sentence);
      await user.click('#noting [value="note"]');
      await data({ verdict: "differs", at: "5", client: "1", key: "document", order: "1 0" });
      assert.match(await user.text("#conformance"), /^Client 1’s editor differs from ot\.js, first at place 5 \(line 6\)$/);
      assert.match(await user.text("#answer"), /\nfound "ab"\not\.js "ba", since the server took client 0’s edit first\not\.js "ab", if it had taken client 1’s edit first\nthey differ from the first character on\n/);
      await note("server", "ba");
      await user.click('#noting [value="note"]');
      await user.until('/seen.*"ba" as ot.js has it/s.test(document.querySelector(\'[data-card="server"]\').textContent)', "the server's card");
      await data({ verdict: "differs", at: "5", client: "1" });
      assert.equal(await user.run('document.getElementById("conformance").dataset.order ?? null'), null, "the server's document is that of this order");
      await note("server", "ab");
      await user.click('#noting [value="note"]');
      await data({ verdict: "differs", at: "4", client: "server", key: "document", order: "1 0" });
    });

    test("from a report that one user sees ab and the other ba to its first difference, the page says what to do next, what is compared and what is not", async () => {
      const hint = (pattern) => user.until(`${pattern}.test(document.getElementById("notice").textContent) && document.getElementById("notice").checkVisibility()`, `${pattern} as the hint`);
      await user.openNew();
      await hint("/^Type what each user typed/");
      for (const [client, letter] of ["a", "b"].entries()) {
        await user.click(`.document[data-who="${client}"]`);
        await user.page.type(letter);
        await user.settled(client + 1);
      }
      await hint("/^Let the messages through in their order/");
      for (const [i, instruction] of ["take 0", "take 1", "ack 0", "deliver 0", "deliver 1", "ack 1"].entries()) {
        await user.click(`[data-play="${instruction}"]`);
        await user.settled(3 + i);
      }
      await hint("/^All messages have arrived here/");
      await note(0, "ba");
      await user.click('#noting [value="note"]');
      await user.answered({ verdict: "conforms" });
      await hint("/^Next is client 1: enter what its editor showed at the end, at I saw … on its card/");
      assert.equal(await user.text("#conformance"), "ot.js has the 1 text that you noted. Client 1: nothing noted yet.");
      assert.equal(await user.text("#conformance .good"), "ot.js has the 1 text that you noted.");
      assert.equal(await user.run('document.getElementById("conformance").classList.contains("good")'), false, "it is not green as a whole");
      assert.equal(await user.text("#answer"), "ot.js has the 1 text that you noted.\nClient 1: nothing noted yet.");
      await note(1, "ab");
      assert.match(await user.text("#noted"), /^At place 8, after ack 1, the editor of client 1 showed \(ot\.js’ text has been the same since place 7, after deliver 1; the note stands there\):$/);
      await user.click('#noting [value="note"]');
      await user.answered({ verdict: "differs", at: 7, client: 1, key: "document" });
      assert.equal(await user.text("#conformance"), "Client 1’s editor differs from ot.js, first at place 7 (line 8)");
      assert.equal(await user.text("#answer b"), 'Client 1’s editor differs from ot.js, first at place 7, after deliver 1 (line 8): from there up to place 8 ot.js has "ba", and the editor showed "ab".');
      await hint("/^The server may be the cause: enter what its document showed, .* Go to place 7, where it differs first/");
      await user.click("#answer");
      await user.settled(7);
      assert.equal(await user.text("#numbers .now"), "8", "the line in the text");
      await hint("/^Did the server take client 1’s edit first\\?/");
    });

    test("a button that is pressed stays until its click, whatever is told meanwhile", async () => {
      const typed = (text) => `clients 2\nedit 0 [${quoted(text)}]\nedit 1 ["b"]\n`;
      await opened(typed("a"), 2);
      const card = () => user.text('[data-card="0"]');
      await user.run('(window.pressed = document.querySelector(\'[data-play="take 0"]\')).dispatchEvent(new PointerEvent("pointerdown", { bubbles: true }))');
      await user.run(`((field) => ((field.value = ${quoted(typed("axy"))}), field.dispatchEvent(new Event("input", { bubbles: true }))))(document.getElementById("text"))`);
      await user.until('/axy/.test(document.getElementById("outlook").textContent)', "the other text's verdict");
      assert.equal(await user.run("window.pressed.isConnected"), true);
      assert.doesNotMatch(await card(), /axy/);
      await user.run("window.pressed.click()");
      await user.until('document.getElementById("length").textContent === "of 3" && /axy/.test(document.querySelector(\'[data-card="0"]\').textContent)', "the take");
    });

    test("what conform answers stands beside its sentence as data", async () => {
      await opened(TIE, 5);
      const compared = async (lines, wanted) => {
        await user.drop("port.ots", `${TIE}%%\n${lines.join("\n")}\n`);
        await user.answered(wanted);
      };
      await user.answered({ verdict: "none" });
      const lines = ['{"at":1,"document":"a"}', '{"at":2,"document":"b"}', '{"at":3,"document":"a"}', '{"at":4,"document":"ba"}', '{"at":5,"document":"ba"}'];
      await compared(lines, { verdict: "conforms" });
      await compared([...lines.slice(0, 4), '{"at":5,"document":"ab"}'], { verdict: "differs", at: 5, client: 1, key: "document" });
      await compared(lines.with(2, '{"at":3,"document":"x"}'), { verdict: "differs", at: 3, client: "server", key: "document" });
      await compared(['{"at":1,"client":5}'], { verdict: "differs", at: 1, key: "client" });
      await user.drop("port.ots", "clients 1\n%%\n");
      await user.answered({ verdict: "nothing compared" });
      await user.click("#new");
      await user.answered({ verdict: "none" });
    });

    test("one click says which operations were transformed, and which text went first; a key too", async () => {
      await opened(`; client 0 is <b>Ann</b>\n${TIE}`, 5);
      await user.until('/all will be "ba"/.test(document.getElementById("outlook").textContent)', "the verdict");
      assert.equal(await user.run('document.getElementById("reason").checkVisibility()'), false);
      await user.click("#why");
      const said = (pattern) => user.until(`${pattern}.test(document.getElementById("reason").innerText)`, `${pattern} as the reason`);
      await said('/^deliver 1, place 5: AwaitingConfirm\\.applyServer transforms \\["b"\\] \\(client 1, outstanding\\) against \\["a"\\] \\(client 0 \\(<b>Ann<\\/b>\\), log entry 0\\)\\.\\n*Both insert at the start: transform puts the text of its first argument first, "b" before "a"\\.$/');
      assert.equal(await user.run('document.getElementById("why").getAttribute("aria-expanded")'), "true");
      await user.run("document.activeElement.blur()");
      await user.press("k");
      await said('/^take 1, place 4: Server\\.receiveOperation transforms /');
      await user.press("k");
      await said('/^Nothing has been transformed up to here\\.$/');
      await user.press("w");
      assert.equal(await user.run('document.getElementById("reason").checkVisibility()'), false);
    });

    test("a click on the end of a message lets it through, with those before it", async () => {
      await opened(TIE, 5);
      await user.run('document.querySelector(\'[data-let="down 0 1"]\').dispatchEvent(new MouseEvent("click", { bubbles: true }))');
      await user.shown("/deliver 1\\nack 0\\ndeliver 0\\n$/");
      await user.until('document.getElementById("length").textContent === "of 7"', "the answer");
      assert.deepEqual((await user.documents()).slice(0, 2), ["ba", "ba"]);
    });

    const drag = (from, to) =>
      user.run(`(() => {
        const end = document.querySelector('[data-end="${from}"]').getBoundingClientRect();
        const rows = document.getElementById("rows").getBoundingClientRect();
        const at = [...document.querySelectorAll("#rows .texts text")].find((text) => text.textContent === "${to}").getBoundingClientRect();
        const send = (type, target, y) => target.dispatchEvent(new PointerEvent(type, { bubbles: true, clientX: end.x + 9, clientY: y, button: 0 }));
        send("pointerdown", document.querySelector('[data-end="${from}"]'), end.y + 9);
        send("pointermove", document.body, at.y + 6);
        send("pointerup", document.body, at.y + 6);
      })()`);

    test("the end of a message is dragged to another row where that order is possible", async () => {
      await opened('clients 2\nedit 0 ["a"]\nedit 1 ["b"]\ntake 0\ntake 1\n', 4);
      await drag(4, 3);
      await user.shown("/take 1\\ntake 0\\n$/");
      await user.settled(3);
      await drag(3, 1);
      await user.until('/This order is not possible/.test(document.getElementById("notice").textContent)', "the reason");
      assert.match(await user.schedule(), /edit 1 .*\ntake 1\ntake 0\n$/);
      await user.run('document.activeElement.blur()');
      await user.press("Alt+ArrowDown");
      await user.shown("/take 0\\ntake 1\\n$/");
      await user.press("Control+z");
      await user.shown("/take 1\\ntake 0\\n$/");
    });

    test("a client is added, joins later, and is left out", async () => {
      await opened(TIE, 0);
      await user.press("v");
      await user.click("#add-client");
      await user.shown("/^clients 3\\nedit/");
      await user.until('document.querySelectorAll("#shown-lanes p").length === 3', "its row");
      await user.click('[data-act="oneLate"][data-client="2"]');
      await user.shown("/^clients 3\\npresent 2\\n/");
      await user.until('document.querySelector(\'[data-act="onePresent"]\')', "its row");
      await user.click("#add-late");
      await user.shown("/^clients 4\\npresent 2\\n/");
      await user.until('document.querySelectorAll("#shown-lanes p").length === 4', "its row");
      await user.click('[data-act="leaveOutClient"][data-client="0"]');
      await user.shown('/^clients 3\\npresent 1\\nedit 0 \\["b"\\]\\ntake 0\\n/');
      await user.press("Escape");
    });
  });
}
