// What the page shows, as markup: words, cards and the diagram.

import assert from "node:assert/strict";
import fs from "node:fs";
import { test } from "node:test";
import { bugs } from "../../examples/port/bugs.js";
import { cardOf, cardParts } from "../src/cards.mjs";
import { quoted, seen, unseenIn, withEscapes } from "../../common/characters.mjs";
import { picture } from "../src/diagram.mjs";
import { SERVER, fold } from "../../common/fold.mjs";
import { layoutOf, rowCount } from "../src/layout.mjs";
import { Port } from "../../common/printed.mjs";
import { markupOf } from "../src/tree.mjs";
import * as words from "../src/words.mjs";
import { example, linesOf, portLinesOf, seededSchedule } from "./sessions.mjs";

const { apart, operationText, verdictOn } = words;
const sentence = (...given) => markupOf(words.sentence(...given));
const cardMarkup = (...given) => markupOf([cardOf(...given)]);

const ENTITIES = { "&lt;": "<", "&gt;": ">", "&quot;": '"', "&amp;": "&" };
const wordsOf = (markup) => markup.replace(/<[^>]*>/g, "").replace(/&\w+;/g, (entity) => ENTITIES[entity]);
const weakOrder = () => fold(linesOf(example("weak-order")));

test("each instruction in words", () => {
  const session = weakOrder();
  const rows = [
    [0, 'the opening: 2 of 2 clients joined, every document is "x".'],
    [1, 'edit 0: the user of client 0 edits [1,"z"]; it is sent at revision 0.'],
    [2, 'edit 0: the user of client 0 edits [1,"a",1]; it becomes the buffer.'],
    [3, 'edit 0: the user of client 0 edits [-1,2]; it is composed into the buffer ["a",-1,1].'],
    [5, 'take 1: the server takes ["c",1] of client 1, made at revision 0, and appends ["c",1] as log entry 0.'],
    [6, 'take 0: the server takes [1,"z"] of client 0, made at revision 0, transforms it over 1 concurrent operation, and appends [2,"z"] as log entry 1.'],
    [7, 'deliver 0: client 0 takes log entry 0 of client 1, ["c",1]; transformed against the outstanding operation and the buffer, it applies [1,"c",1].'],
    [8, 'ack 0: the outstanding operation of client 0 is confirmed; its buffer ["a",1,-1,1] is sent at revision 2.'],
    [13, "ack 0: the outstanding operation of client 0 is confirmed; it is synchronized."],
    [16, 'read-server: shows "acz".'],
  ];
  for (const [place, words] of rows) assert.equal(wordsOf(sentence(session, place)), words);
  const joined = fold(linesOf(example("late-join")));
  assert.equal(wordsOf(sentence(joined, 3)), "join 1: client 1 joins with the server’s document and revision 1.");
});

test("an operation in few characters", () => {
  assert.equal(operationText([1, "abc", -1], 20), '[1,"abc",-1]');
  assert.equal(operationText([1, "abcdefghijklmnopqrst", -1], 20), '[1,"abcde…",-1]');
  assert.equal([...operationText([1000, "abcdefgh", -1000, "abcdefgh"], 12)].length, 12);
});

test("a card shows the document, who inserted what, the state and the links", () => {
  const card = cardMarkup(weakOrder(), 0, { place: 7, picked: null, port: null });
  assert.match(card, /^<section class="card moved"/);
  assert.match(card, /title="client 0"[^>]*>a<.*class="inserted" title="client 1, inserted here"[^>]*>c<.*title="client 0"[^>]*>z</);
  assert.match(wordsOf(card), /client 0 awaiting-with-buffer rev 1 ≠ server/);
  assert.match(wordsOf(card), /outstanding\[2,"z"\]buffer\["a",1,-1,1\]from serverack$/);
  assert.match(wordsOf(card), /"a" by client 0; "c" inserted here, by client 1; "z" by client 0/);
  const deletes = cardMarkup(weakOrder(), 0, { place: 3, picked: null, port: null });
  assert.match(deletes, /class="deleted" title="the start, deleted here"[^>]*>x</);
  assert.match(wordsOf(deletes), /to server\[1,"z"\] at revision 0/);
});

test("a card shows what the port printed where that differs", () => {
  const session = weakOrder();
  const port = new Port(session, portLinesOf(example("weak-order"), bugs.tie), null);
  assert.match(wordsOf(cardMarkup(session, 0, { place: 7, picked: null, port })), /port: buffer\[1,"a",-1,1\] ot.js: \["a",1,-1,1\]/);
  assert.doesNotMatch(cardMarkup(session, SERVER, { place: 7, picked: null, port }), /port:/);
});

test("texts are shown as texts", () => {
  const session = fold(linesOf('clients 1\nstart "<b>&\\""\nedit 0 [5,"</script>"]\n'));
  const shown = sentence(session, 1) + cardMarkup(session, 0, { place: 1, picked: null, port: null });
  assert.doesNotMatch(shown, /<b>&|<\/script>/);
  assert.match(wordsOf(shown), /<b>&"/);
});

test("a long document is shown around its change", () => {
  const session = fold(linesOf(`clients 1\nstart "${"a".repeat(2000)}"\nedit 0 [1000,"b",1000]\n`));
  const card = cardMarkup(session, 0, { place: 1, picked: null, port: null });
  assert.match(card, /… 700 characters …<\/span>.*class="inserted"[^>]*>b<.*… 701 characters …/);
});

test("the diagram has a mark for each instruction and an arrow for each message", () => {
  const session = weakOrder();
  const drawn = picture(session, { from: 0, to: rowCount(session) - 1, place: 7, followed: null, port: null }, "light");
  const count = (pattern) => drawn.match(pattern).length;
  assert.equal(count(/ r="6" /g), 4, "edits");
  assert.equal(count(/width="12" height="12"/g), 3, "takes");
  assert.equal(count(/ r="5.5" /g), 3, "deliveries");
  assert.equal(count(/l7 7l-7 7l-7 -7z/g), 3, "acknowledgements");
  assert.equal(count(/<g opacity=/g), 3 + 6, "messages to the server and from it");
  assert.equal(count(/stroke-dasharray="5 4"/g), 3, "acknowledgements on their way");
  assert.doesNotMatch(drawn, /var\(|undefined|NaN/);
});

test("a message that is never received is drawn", () => {
  const session = fold(linesOf('clients 2\nedit 0 ["a"]\nedit 1 ["b"]\ntake 0\n'));
  const drawn = picture(session, { from: 0, to: rowCount(session) - 1, place: 3, followed: null, port: null }, "light");
  assert.equal(drawn.match(/r="3.5"/g).length, 3, "one to the server, two from it");
});

test("the end has the colour of success where no instruction was refused", () => {
  const lines = linesOf('clients 1\nstart "hello"\n').filter((line) => !line.includes('"end"'));
  const end = (stop) => {
    const session = fold([...lines, ...stop, '{"at":0,"end":"quiet"}']);
    const drawn = picture(session, { from: 0, to: rowCount(session) - 1, place: 0, followed: null, port: null }, "light");
    return /fill="([^"]*)">all arrived</.exec(drawn)[1];
  };
  assert.equal(end([]), "#15763a");
  assert.equal(end(['{"at":0,"do":"edit","client":0,"edit":[3,"a"],"stopped":"BadBase"}']), "#5f6875");
});

test("of a text with a fault the verdict is that on the text before, and without a colour", () => {
  const session = weakOrder();
  assert.deepEqual(verdictOn({ session, fault: null }), { front: "", look: "good" });
  assert.deepEqual(verdictOn({ session: { ...session, stop: { at: 1 } }, fault: null }), { front: "", look: "bad" });
  assert.deepEqual(verdictOn({ session: { ...session, end: "not quiet" }, fault: null }), { front: "", look: "" });
  assert.deepEqual(verdictOn({ session, fault: { line: 1, column: 1, kind: "NoClients", cause: "" } }), { front: "the text before: ", look: "" });
});

test("in a narrow window lanes are seen whole, as many as have room for their heads", () => {
  const lanes = (clients, room) => {
    const session = fold(linesOf(`clients ${clients}\n`));
    const { laneWidth, textWidth, width } = layoutOf(session, true, new Set(), room);
    return [laneWidth, textWidth + laneWidth * Math.floor((room - textWidth) / laneWidth) <= room, width <= room];
  };
  assert.deepEqual(lanes(2, 390), [74, true, true]);
  assert.deepEqual(lanes(2, 320), [77, true, false]);
  assert.deepEqual(lanes(2, 768), [150, true, true], "no wider than in a wide one");
  assert.deepEqual(lanes(3, 390), [74, true, false]);
  assert.deepEqual(lanes(20, 390), [24, true, false]);
  assert.deepEqual(lanes(2, 0), [60, true, false]);
  assert.equal(layoutOf(weakOrder(), true).laneWidth, 150, "where no room is given they are not fitted");
});

test("every place of a session can be drawn", () => {
  const session = fold(linesOf(seededSchedule({ seed: 7, clients: 10, late: 2, edits: 60, cut: true })));
  for (const followed of [null, SERVER, 1])
    for (let place = 0; place <= session.length; place++) {
      const view = { from: Math.max(0, place - 5), to: Math.min(rowCount(session) - 1, place + 5), place, followed, port: null };
      assert.doesNotMatch(picture(session, view, "dark"), /var\(|undefined|NaN/);
      for (const who of [SERVER, ...session.members.keys()])
        assert.doesNotMatch(cardMarkup(session, who, { place, picked: null, port: null }), /undefined|NaN/);
    }
});

test("docs/session.svg is the picture of examples/weak-order.ots", () => {
  const session = weakOrder();
  const view = { from: 0, to: rowCount(session) - 1, place: 7, followed: null, port: null };
  assert.equal(fs.readFileSync(new URL("../../docs/session.svg", import.meta.url), "utf8"), picture(session, view, "light"));
});

const base = { picked: null, port: null, draft: null, canPlay: true, names: new Map(), carets: new Map(), asked: [] };

test("where of a card nothing is another, its markup is the same", () => {
  for (const seed of [1, 2, 3]) {
    const session = fold(linesOf(seededSchedule({ seed, clients: 4, late: 1, edits: 60 })));
    for (const who of [SERVER, ...session.members.keys()]) {
      let last = null;
      for (let place = 0; place <= session.length; place++) {
        const view = { ...base, place };
        const now = { parts: cardParts(session, who, view), markup: cardMarkup(session, who, view) };
        if (last && now.parts.every((part, i) => part === last.parts[i])) assert.equal(now.markup, last.markup, `${who} at ${place}`);
        last = now;
      }
    }
  }
});

test("so it is in a session with other instructions behind a place, and those cards alone are others that show them", () => {
  const lines = linesOf(example("two-clients"));
  const session = fold(lines);
  const place = 4;
  const other = session.upTo(place - 1);
  for (const line of linesOf('clients 2\nedit 0 ["a"]\nedit 1 ["b"]\ntake 0\nedit 1 [1,"c"]\n').slice(4)) other.add(JSON.parse(line));
  const cardsOf = (one) => [SERVER, 0, 1].map((who) => ({ parts: cardParts(one, who, { ...base, place }), markup: cardMarkup(one, who, { ...base, place }) }));
  const [before, after] = [cardsOf(session), cardsOf(other)];
  for (const i of [0, 1, 2]) assert.equal(before[i].parts.every((part, k) => part === after[i].parts[k]), before[i].markup === after[i].markup, String(i));
  assert.notEqual(before[2].markup, after[2].markup);
});

test("what was played and is not answered yet is marked, and what is behind it on the link can be played", () => {
  const session = fold(linesOf('clients 2\nedit 0 ["a"]\ntake 0\nedit 0 [1,"b"]\nack 0\ntake 0\nedit 1 ["c"]\n'));
  const button = (markup, instruction) => [...markup.matchAll(new RegExp(`<button class="([^"]*)" data-play="${instruction}"[^>]*?( disabled="")?>`, "g"))].map(([, look, off]) => [look, Boolean(off)]);
  const idle = cardMarkup(session, 1, { ...base, place: 6 });
  assert.deepEqual([button(idle, "deliver 1"), button(idle, "take 1")], [[["play head", false]], [["play head", false]]]);
  const asked = cardMarkup(session, 1, { ...base, place: 6, asked: ["deliver 1", "take 1"] });
  assert.deepEqual(button(asked, "deliver 1"), [["play head asked", true], ["play head", false]]);
  assert.deepEqual(button(asked, "take 1"), [["play head asked", true]]);
});

test("where the page can play, a document is an editor and the heads of links are buttons", () => {
  const view = { ...base, place: 7, names: new Map([[0, "<i>"]]) };
  const card = cardMarkup(weakOrder(), 0, view);
  assert.match(card, /contenteditable="true" role="textbox" aria-multiline="true"[^>]* aria-label="document of client 0 \(&lt;i&gt;\)" data-first="0"/);
  assert.match(card, /data-play="ack 0"/);
  assert.match(card, /aria-label="client 0 \(&lt;i&gt;\)"/);
  assert.doesNotMatch(card, /<i>|data-play="take 0"/);
  assert.match(cardMarkup(weakOrder(), 1, { ...view, place: 4 }), /data-play="take 1"/);
  assert.doesNotMatch(cardMarkup(weakOrder(), SERVER, view), /contenteditable/);
  const late = fold(linesOf(example("late-join")));
  assert.match(cardMarkup(late, 1, { ...view, place: 1 }), /data-play="join 1"/);
});

test("two texts that differ and look the same are told apart by code points", () => {
  const rows = [
    ['"acz"', '"caz"', ['"acz"', '"caz"']],
    ['"\u00e9x"', '"e\u0301x"', ['"\\u{e9}x"', '"e\\u{301}x"']],
    ['"a\u200bb"', '"ab"', ['"a\\u{200b}b"', '"ab"']],
    ['"a\u200db"', '"ab"', ['"a\\u{200d}b"', '"ab"']],
    ['"a\u00a0b"', '"a b"', ['"a\\u{a0}b"', '"a b"']],
    ['"\u202ex"', '"y"', ['"\\u{202e}x"', '"y"']],
    ['"é\ufe0f"', '"é"', ['"é\\u{fe0f}"', '"é"']],
    ["none", '"é"', ["none", '"é"']],
  ];
  for (const [found, ours, expected] of rows) assert.deepEqual(apart(found, ours), expected);
});

test("names stand with the clients in cards and sentences, as texts", () => {
  const names = new Map([[0, "<b>"], [1, "a\u0007"]]);
  const session = weakOrder();
  assert.match(cardMarkup(session, 0, { ...base, place: 7, names }), /<span class="name">client 0<\/span> <span class="called">\(&lt;b&gt;\)<\/span>/);
  assert.match(sentence(session, 7, names), /client 0 \(&lt;b&gt;\) takes log entry 0 of client 1 \(a␇\), /);
  assert.match(sentence(session, 5, names), /the server takes .* of client 1 \(a␇\), made at revision 0/);
});

test("characters that are not seen have a sign, one for one", () => {
  const text = "a\u0000\t\n\u007f\u202e\u2028\u{e0041}👩‍👦";
  assert.equal(seen(text), "a␀␉\n␡␦␦\u{e0041}👩‍👦");
  assert.equal(quoted("\u202e\u007f\n<"), '"\\u202e\\u007f\\n<"');
  assert.equal(JSON.parse(quoted(text)), text);
});

test("characters that are not seen are found in lines, and written as escapes", () => {
  assert.equal(unseenIn('start "a\tb"\r'), null);
  assert.equal(unseenIn("👩‍👦"), null);
  assert.deepEqual(unseenIn("𝒳a\u202eb"), { column: 3, code: "U+202E" });
  assert.deepEqual(unseenIn("a\rb"), { column: 2, code: "U+000D" });
  assert.deepEqual(unseenIn("\u{e0041}"), { column: 1, code: "U+E0041" });
  assert.equal(withEscapes("a\tb\r\nc\u202e\rd\u{e0041}\n\r"), "a\tb\r\nc\\u202e\\u000dd\\udb40\\udc41\n\r");
});

test("a lane that is hidden is not drawn, and many messages of one place are no wedge", () => {
  const clients = 64;
  const session = fold(linesOf(`clients ${clients}\nedit 0 ["a"]\ntake 0\nack 0\n${Array.from({ length: 63 }, (_, i) => `deliver ${i + 1}`).join("\n")}\n`));
  const view = { from: 0, to: rowCount(session) - 1, place: 2, followed: null, port: null };
  const whole = (markup) => (markup.match(/stroke-width="2.6" fill="none"/g) || []).filter(Boolean).length;
  const drawn = picture(session, view, "light");
  assert.match(drawn, />65 messages</);
  assert.ok(whole(drawn) <= 70);
  const longest = Math.max(...[...drawn.matchAll(/d="M[\d.]+ ([\d.]+)L[\d.]+ ([\d.]+)" stroke="[^"]*" stroke-width="2.6"/g)].map(([, a, b]) => b - a));
  assert.ok(longest < 26 * 16, `an arrow over ${longest} pixels`);
  const hidden = new Set(Array.from({ length: 60 }, (_, i) => i + 4));
  const few = picture(session, { ...view, hidden }, "light");
  assert.equal(few.match(/class="lane"/g).length, 5);
  assert.doesNotMatch(few, /NaN|undefined/);
});
