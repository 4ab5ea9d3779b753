// The session as Markdown.

import assert from "node:assert/strict";
import { test } from "node:test";
import { fold } from "../../common/fold.mjs";
import { Port } from "../../common/printed.mjs";
import { reportOf } from "../src/report.mjs";
import { emptyState, reduce } from "../src/state.mjs";
import { example, linesOf } from "./sessions.mjs";

/* The state of a session that was opened. */
function stateOf(text, more = {}) {
  const session = fold(linesOf(text));
  const open = reduce(emptyState(), { do: "open", text, ...more });
  return reduce(open, { do: "answer", text, session, refusal: null, took: 0 });
}

test("a report has the schedule, the verdict, the documents at the place, and the link", () => {
  const text = `; client 0 is Ann\n${example("two-clients")}`;
  const report = reportOf(stateOf(text, { title: "two", place: 3 }), { verdicts: ["ends quiet", "the weak list property holds"], link: "https:x#at=3", isOfFile: false });
  assert.equal(
    report,
    `**otbench** \`two\`: \`ends quiet\`; \`the weak list property holds\`

At place 3 of 8 (\`not quiet: client 0 is awaiting-confirm; 1 more client is not quiet\`)

\`\`\`
${text}\`\`\`

What ot.js has at place 3:

- server: \`"a"\`
- \`client 0 (Ann)\`: \`"a"\`
- \`client 1\`: \`"b"\`

[Open the session](<https:x#at=3>)
`,
  );
});

test("what a port has otherwise is in it, and a link of a file says where it opens", () => {
  const state = stateOf(example("two-clients"), { port: ["q"] });
  const beside = new Port(state.session, ["q"], { answer: { verdict: "differs", at: 1, found: "q", otjs: "{}" }, words: ["differs at 1: edit 0: line", "found q", "ot.js {}"] });
  const report = reportOf({ ...state, beside }, { verdicts: ["differs", "ends quiet", "holds"], link: "file:///a b#at=0", isOfFile: true });
  assert.match(report, /^\*\*otbench\*\*: `differs`; in ot\.js `ends quiet`; `holds`\n/);
  assert.match(report, /\n\nWhat the port printed, beside ot\.js:\n\n```\ndiffers at 1: edit 0: line\nfound q\not\.js \{\}\n```\n\n/);
  assert.match(report, /\n\nThe session opens only where the page's file is: `file:\/\/\/a b#at=0`\n$/);
});

test("a place is one of the session: where two texts begin to differ is said in characters", () => {
  const port = ['{"at":5,"client":1,"document":"bx"}'];
  const state = stateOf(example("two-clients"), { port, place: 8 });
  const answer = { verdict: "differs", at: 5, client: 1, key: "document", found: '"bx"', otjs: '"ba"', place: 1, line: 8 };
  const words = ["differs at 5: deliver 1: client 1 document", 'found "bx"', 'ot.js "ba"', "place 1", "rule AwaitingConfirm.applyServer"];
  const beside = new Port(state.session, port, { answer, words });
  const report = reportOf({ ...state, beside }, { verdicts: ["x"], link: "l", isOfFile: false });
  assert.doesNotMatch(report, /^place 1$/m);
  assert.match(report, /\ndiffers at 5: deliver 1: client 1 document\nfound "bx"\not\.js "ba"\nthe first 1 character is equal\nrule AwaitingConfirm\.applyServer\n```\n/);
});

test("no text ends its block or its line", () => {
  const text = 'clients 1\nstart "``` <b> ````"\n; ```\n';
  const report = reportOf(stateOf(text, { title: "`x`\n# y" }), { verdicts: ["`"], link: "l", isOfFile: true });
  assert.match(report, /^\*\*otbench\*\* `` `x`␊# y ``: `` ` ``\n\nAt place 0 of 0 \(`quiet`\)\n\n`````\nclients 1\n/);
  assert.match(report, /\n- server: `````"``` <b> ````"`````\n/);
  const long = `clients 1\n${'edit 0 ["a"]\nedit 0 [-1]\n'.repeat(2000)}`;
  assert.match(reportOf(stateOf(long), { verdicts: ["x"], link: "l", isOfFile: true }), /\n; \.\. 50010 characters in all; the link has the whole\n```\n/);
});

test("of a schedule that is long from its first line on nothing is left but how many characters it has", () => {
  const report = reportOf(stateOf(`; ${"\u{1f600}".repeat(25000)}\nclients 1\n`), { verdicts: ["x"], link: "l", isOfFile: true });
  assert.ok(report.length < 1000, `${report.length}`);
  assert.match(report, /\n```\n\n; \.\. 25013 characters in all; the link has the whole\n```\n/);
});

/* A report beside notes, to which conform answered this. */
function reportBeside(port, answer, words) {
  const state = stateOf(example("two-clients"), { port });
  return reportOf({ ...state, beside: new Port(state.session, port, { answer, words }) }, { verdicts: ["differs"], link: "l", isOfFile: true });
}

test("a long value of an answer is cut", () => {
  const words = ["differs at 1: edit 0: client 0 state", `found "${"x".repeat(100_000)}"`, 'ot.js "awaiting-confirm"'];
  const report = reportBeside(["q"], { verdict: "differs", at: 1, client: 0, key: "state" }, words);
  assert.ok(report.length < 4000, `${report.length}`);
  assert.match(report, /\nfound "x{1992}…\not\.js "awaiting-confirm"\n```\n/);
});

test("what ot.js has is said of a document alone, and not of the number of a note's client or place", () => {
  const told = (key, more) => reportBeside(['{"at":5,"client":1,"document":"ab"}'], { verdict: "differs", at: 5, key, ...more }, ["differs at 5"]);
  assert.match(told("document", { client: 1, found: '"ab"', otjs: '"ba"' }), /\n\n`?Place 5, `client 1`: `ot\.js has "ba" here\.`\n/);
  for (const key of ["client", "at"]) assert.doesNotMatch(told(key, { found: "0", otjs: "1" }), /ot\.js has 1 here/, key);
});

test("what was seen has its place and its client, and conform's verdict of it", () => {
  const port = [`{"at":4,"client":0,"document":"${"q".repeat(3000)}"}`, '{"at":5,"client":1,"document":"ab"}'];
  const report = reportBeside(port, { verdict: "conforms" }, []);
  assert.match(report, /\n\nWhat was seen:\n\n- place 4, `client 0`: `"q{1999}…"`\n- place 5, `client 1`: `"ab"`\n\nThat, beside ot\.js:\n\n```\nconforms\n```\n\n/);
});

test("a client that has not joined has no document; what is long is cut, and what is not seen has a sign", () => {
  const state = stateOf(`clients 2\npresent 1\nstart "${"s".repeat(3000)}"\n`, { title: "a\u202eb\u0007" });
  const report = reportOf(state, { verdicts: ["v".repeat(400)], link: "l", isOfFile: true });
  assert.match(report, /^\*\*otbench\*\* `a\u2426b\u2407`: `v{299}…`\n/);
  assert.match(report, /\n\nWhat ot\.js has at place 0:\n\n- server: `"s{1999}…"`\n- `client 0`: `"s{1999}…"`\n\nThe session opens/);
});
