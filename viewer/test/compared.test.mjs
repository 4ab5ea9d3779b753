// What the page says of conform's answer on what users noted, and how it names places.

import assert from "node:assert/strict";
import { test } from "node:test";
import { answerLines, answerParts, missingWords, notCompared } from "../src/compared.mjs";
import { SERVER, fold } from "../../common/fold.mjs";
import { outlineOf } from "../../common/outline.mjs";
import { Port } from "../../common/printed.mjs";
import { placeWords } from "../src/words.mjs";
import { opened, skip } from "./engines.mjs";
import { HOSTILE } from "./hostile.mjs";
import { example, linesOf, portLinesOf } from "./sessions.mjs";

/* Client 1's document is that of place 7 at place 8 too. */
const TIE = 'clients 2\nedit 0 ["a"]\nedit 1 ["b"]\ntake 0\ntake 1\nack 0\ndeliver 0\ndeliver 1\nack 1\n';

/* What is shown of conform's answer when it is there. */
async function toldOf(bench) {
  await bench.settled();
  for (let i = 0; i < 100 && (bench.state.verdict === null || !bench.state.beside); i++) await new Promise((done) => setTimeout(done, 50));
  const { session, port, beside, outline } = bench.state;
  return { session, port, beside, names: outline.names, line: beside.answer?.line };
}

const note = (bench, who, document) => bench.dispatch({ do: "note", who, document });

const at = (place, client, document) => JSON.stringify({ at: place, client, document });

test("a place has one name: its number, what led there, and that line", () => {
  const session = fold(linesOf(TIE));
  assert.equal(placeWords(session, 0), "place 0, the opening");
  assert.equal(placeWords(session, 7, 8), "place 7, after deliver 1 (line 8)");
  assert.equal(placeWords(session, 7, 0), "place 7, after deliver 1");
});

test("where a noted text differs the first sentence says whose, where, up to where, and both texts", { skip }, async () => {
  const bench = await opened(TIE, 8);
  note(bench, 1, "ab");
  const told = await toldOf(bench);
  const [first, second, ...more] = answerLines(told);
  assert.equal(first, 'Client 1’s editor differs from ot.js, first at place 7, after deliver 1 (line 8): from there up to place 8 ot.js has "ba", and the editor showed "ab".');
  assert.equal(second, "Client 0: nothing noted yet.");
  assert.deepEqual(more.slice(0, 4), ['found "ab"', 'ot.js "ba", since the server took client 0’s edit first', 'ot.js "ab", if it had taken client 1’s edit first', "they differ from the first character on"]);
  assert.ok(more.some((line) => line.startsWith("rule ")) && more.at(-1).startsWith("note "));
  assert.deepEqual(answerParts(told), [{ words: "Client 1’s editor differs from ot.js, first at place 7 (line 8)", look: "bad" }]);
});

test("so of a client with a name, at its last place, and of the server", { skip }, async () => {
  const bench = await opened(`; client 0 is Ann\n${TIE}`, 8);
  note(bench, 0, "bax");
  assert.equal(answerLines(await toldOf(bench))[0], 'Client 0 (Ann)’s editor differs from ot.js, first at place 6, after deliver 0 (line 8): from there up to place 8 ot.js has "ba", and the editor showed "bax".');
  note(bench, 0, null);
  bench.dispatch({ do: "go", place: 4 });
  note(bench, SERVER, "ab");
  const told = await toldOf(bench);
  assert.equal(answerLines(told)[0], 'The server’s document differs from ot.js, first at place 4, after take 1 (line 6): from there up to place 8 ot.js has "ba", and "ab" was noted.');
  const last = await opened("clients 1\nedit 0 [\"a\"]\n", 1);
  note(last, 0, "b");
  const [only, ...more] = answerLines(await toldOf(last));
  assert.equal(only, 'Client 0’s editor differs from ot.js, first at place 1, after edit 0 (line 2): ot.js has "a", and the editor showed "b".');
  assert.ok(more.every((line) => !/nothing noted/.test(line)));
});

test("of two long texts the sentence has what stands around the first character that differs", { skip }, async () => {
  const bench = await opened(`clients 1\nstart "${"a".repeat(600)}"\nedit 0 [500,"b",100]\n`, 1);
  note(bench, 0, `${"a".repeat(500)}c${"a".repeat(100)}`);
  const [first] = answerLines(await toldOf(bench));
  const [front, behind] = ["a".repeat(30), "a".repeat(100)];
  assert.ok(first.endsWith(`: ot.js has …${front}b${behind}", and the editor showed …${front}c${behind}".`), first);
});

test("what is compared is said, and of whom nothing is; green is what was compared alone", { skip }, async () => {
  const bench = await opened(TIE, 8);
  note(bench, 0, "ba");
  const one = await toldOf(bench);
  assert.equal(one.beside.answer.verdict, "conforms");
  assert.deepEqual(answerParts(one), [{ words: "ot.js has the 1 text that you noted.", look: "good" }, { words: " Client 1: nothing noted yet.", look: "" }]);
  assert.deepEqual(answerLines(one), ["ot.js has the 1 text that you noted.", "Client 1: nothing noted yet."]);
  bench.dispatch({ do: "go", place: 2 });
  note(bench, 1, "b");
  const early = await toldOf(bench);
  assert.deepEqual(answerParts(early)[1], { words: " Client 1: nothing noted after place 2.", look: "" }, "its later text is not compared");
  bench.dispatch({ do: "go", place: 8 });
  note(bench, 1, "ba");
  assert.deepEqual(answerParts(await toldOf(bench)), [{ words: "ot.js has the 3 texts that you noted.", look: "good" }]);
});

test("a client that never joins has no text, and of many clients the first ones are named", () => {
  const session = fold(linesOf('clients 3\npresent 2\nedit 0 ["a"]\ntake 0\nack 0\ndeliver 1\n'));
  assert.deepEqual(notCompared(session, [at(1, 0, "a")]), [{ client: 1, upTo: 0 }]);
  assert.equal(missingWords(session, [at(1, 0, "a"), at(4, 1, "a")], new Map()), "");
  const many = fold(linesOf("clients 64\n"));
  const names = new Map([[0, "Ann"]]);
  assert.equal(missingWords(many, [at(1, 5, "")], names), "Client 0 (Ann): nothing noted yet. Client 1: nothing noted yet. Client 2: nothing noted yet. The same of 60 more clients.");
});

test("of a port's lines the answer stays conform's, with the name of its place", () => {
  const text = example("two-clients");
  const session = fold(linesOf(text));
  const port = portLinesOf(text);
  const told = (answer, words) => ({ session, port, names: new Map(), line: 9, beside: new Port(session, port, answer && { answer, words }) });
  const differs = { verdict: "differs", at: 5, client: 1, key: "document", found: '"ab"', otjs: '"ba"', place: 0 };
  const words = ["differs at 5: deliver 1: client 1 document", 'found "ab"', 'ot.js "ba"', "place 0", "rule R"];
  assert.deepEqual(answerLines(told(differs, words)), ["differs at place 5: deliver 1: client 1 document", 'found "ab"', 'ot.js "ba"', "they differ from the first character on", "rule R"]);
  assert.deepEqual(answerParts(told(differs, words)), [{ words: "differs at place 5: deliver 1: client 1 document (line 9)", look: "bad" }]);
  assert.deepEqual(answerLines(told({ ...differs, place: 2 }, words))[3], "the first 2 characters are equal");
  assert.deepEqual(answerLines(told({ ...differs, place: 1 }, words))[3], "the first 1 character is equal");
  assert.deepEqual(answerParts({ ...told({ verdict: "stopped", at: 3 }, ["stopped at 3: ClientFull"]), line: 0 }), [{ words: "stopped at place 3: ClientFull", look: "bad" }]);
  assert.deepEqual([answerLines(told({ verdict: "conforms" }, [])), answerParts({ ...told({ verdict: "conforms" }, []), line: 0 })], [[], [{ words: "conforms", look: "good" }]]);
  assert.deepEqual(answerParts({ ...told(null), line: 0 }), [{ words: "the port's lines: no difference", look: "good" }]);
});

test("a note that names another client's place, and hostile texts, are words", { skip }, async () => {
  const bench = await opened(TIE, 8);
  bench.dispatch({ do: "compare", port: [at(7, 0, "ba")] });
  assert.match(answerLines(await toldOf(bench))[0], /^differs at place 7: deliver 1: client$/);
  bench.dispatch({ do: "compare", port: [at(99, 0, "ba")] });
  assert.doesNotMatch(answerLines(await toldOf(bench)).join("\n"), /undefined|null/);
  for (const value of HOSTILE.filter((it) => typeof it === "string")) {
    bench.dispatch({ do: "compare", port: null });
    note(bench, 1, value.toWellFormed());
    const lines = answerLines(await toldOf(bench));
    assert.ok(lines.every((line) => typeof line === "string"));
    assert.ok(lines[0].length < 900, `${lines[0].length}`);
    assert.doesNotMatch(lines[0], /undefined|[\u202e\u2066\u0007]/, value.slice(0, 40));
  }
  assert.equal(outlineOf(bench.state.text).lines.length, 8);
});
