// Whether the documents must agree at a place, and to what: what explain says of the text up to there.

import assert from "node:assert/strict";
import { test } from "node:test";
import { Bench } from "../src/bench.mjs";
import { reportOf } from "../src/report.mjs";
import { outlineOf, textUpTo } from "../../common/outline.mjs";
import { partsOf, reasonIn } from "../../common/told.mjs";
import { outlookNow } from "../src/state.mjs";
import { DirectEngine, skip } from "./engines.mjs";

const TIE = "; client 0 is Ann\nclients 2\nedit 0 [\"a\"]\nedit 1 [\"b\"]\n\n; both\ntake 0\ntake 1\ndeliver 1\nack 1\nack 0\ndeliver 0\n";

test("the parts of what explain prints, without the line of a cut", () => {
  const told = 'the opening: x\nline 2, instruction 0: read 0\n  client 0\'s document is "x"\n  more\nthe end: all is quiet\nAll documents must be "the end: ".\nclient 1 has not joined.\n';
  const parts = { opening: "the opening: x", instructions: [["line 2, instruction 0: read 0", '  client 0\'s document is "x"', "  more"]], verdict: ['All documents must be "the end: ".', "client 1 has not joined."] };
  assert.deepEqual(partsOf(told, 1, false), parts);
  assert.deepEqual(partsOf(`${told}the schedule ends before its logs: "x"\n`, 1, true), parts);
  assert.deepEqual(partsOf("", 0, false), { opening: undefined, instructions: [], verdict: [] });
});

test("what explain prints has these parts, and the reason of a refusal", { skip }, () => {
  const told = (text) => new TextDecoder().decode(new DirectEngine().serve(["explain"], new TextEncoder().encode(text)).output);
  const { opening, instructions, verdict } = partsOf(told('clients 2\nedit 0 ["a"]\ntake 0\ndeliver 0\n; cut: "x"\n'), 3, true);
  assert.match(opening, /^the opening: 2 of 2 clients joined/);
  assert.deepEqual(instructions.map(([head]) => head), ["line 2, instruction 0: edit 0", "line 3, instruction 1: take 0", "line 4, instruction 2: deliver 0"]);
  assert.deepEqual(instructions.slice(0, 2).map((lines) => lines.at(-1)), ['  client 0 at revision 0 awaits the confirmation of ["a"]; its document is "a"', '  the server\'s document is now "a"']);
  assert.equal(reasonIn(instructions[2]), "WrongHead: the next message to client 0 acknowledges its own operation: ack 0");
  assert.equal(verdict.length, 1);
  assert.match(verdict[0], /^They may still differ: client 0 has 1 message to receive; /);
});

test("a text up to a place", () => {
  const upTo = (place) => textUpTo(TIE, outlineOf(TIE), place);
  assert.equal(upTo(0), "; client 0 is Ann\nclients 2\n");
  assert.ok(upTo(2).endsWith('edit 1 ["b"]\n'));
  assert.ok(upTo(3).endsWith("\n\n; both\ntake 0\n"));
  assert.equal(upTo(8), TIE);
});

async function at(place) {
  const bench = new Bench(() => {}, async () => {});
  bench.use(new DirectEngine());
  bench.dispatch({ do: "open", text: TIE });
  await bench.settled();
  bench.dispatch({ do: "go", place });
  for (let i = 0; i < 100 && !outlookNow(bench.state).length; i++) await new Promise((done) => setTimeout(done, 30));
  return bench.state;
}

test("the page knows it at each place, and has it in its report", { skip }, async () => {
  assert.deepEqual(outlookNow(await at(0)), ['All documents must be "".']);
  const tied = await at(2);
  assert.match(outlookNow(tied)[0], /^They may still differ: client 0 \(Ann\)'s \["a"\] is on its way to the server; .*whose edit the server takes first, client 0 \(Ann\)'s or client 1's; complete takes client 0 \(Ann\)'s first\.$/);
  assert.match(reportOf(tied, { verdicts: [], outlook: outlookNow(tied), link: "link", isOfFile: false }), /They may still differ/);
  assert.match(outlookNow(await at(4))[0], /When everything has arrived, all will be "ba"\.$/);
  assert.deepEqual(outlookNow(await at(8)), ['All documents must be "ba".']);
});
