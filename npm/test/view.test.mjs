// `otbench view`: the page with a session in it, over the engine and over the native program where it is built.

import assert from "node:assert/strict";
import { spawnSync } from "node:child_process";
import fs from "node:fs";
import path from "node:path";
import { test } from "node:test";
import { fileURLToPath } from "node:url";
import { fold } from "../../common/fold.mjs";
import { splitInput } from "../../common/input.mjs";
import { conform, steps } from "../otbench.mjs";
import { engineIfThere, viewer } from "../../command/parts.mjs";
import { pageOf } from "../../command/view.mjs";
import { example, NATIVE, temporaryFolder } from "./files.mjs";

const COMMAND = fileURLToPath(new URL("../../command/cli.mjs", import.meta.url));
const folder = temporaryFolder();
const WEAK = example("weak-order.ots");
const plain = await viewer();

/** Runs `view` over a program: { status, stdout, stderr }. */
const call = (words, input = "", program = "") => spawnSync(process.execPath, [COMMAND, "view", ...words], { input, encoding: "utf8", cwd: folder, env: { ...process.env, OTBENCH: program }, maxBuffer: 1 << 28 });

/** The lines in a page. */
const linesIn = (page) => splitInput(/<script type="application\/jsonl" id="lines"(?: data-sparse)?>\n([^]*?)<\/script>\n<\/body>\n<\/html>\n$/.exec(page)[1]);

/** The schedule in a page. */
const scheduleIn = (page) => /<pre hidden id="schedule">\n([^]*?)<\/pre>\n<script/.exec(page)[1].replaceAll("&lt;", "<").replaceAll("&amp;", "&");

const linesOf = (text) => steps(text).map((line) => JSON.stringify(line));

test("a page with a session in it: the page with the engine, and nothing else", async () => {
  for (const program of ["", NATIVE ?? ""]) {
    const { stdout, status, stderr } = call([], WEAK, program);
    assert.deepEqual([status, stderr], [0, ""]);
    assert.deepEqual(linesIn(stdout), { steps: linesOf(WEAK), port: null, answer: [] });
    assert.equal(scheduleIn(stdout), WEAK);
    const shown = { schedule: Buffer.from(WEAK), lines: Buffer.from(linesOf(WEAK).map((line) => `${line}\n`).join("")) };
    assert.equal(stdout, Buffer.from(pageOf(plain, shown, await engineIfThere())).toString());
  }
});

test("where no engine is built the page shows the session alone", () => {
  const page = Buffer.from(pageOf(plain, { schedule: Buffer.from("; unusual\n"), lines: Buffer.from("unusual\n") }, null)).toString();
  assert.equal(page.replace("; unusual\n", "").replace("unusual\n", ""), plain.replace("/* the module */", ""));
});

test("files, and standard input, give the same page", () => {
  fs.writeFileSync(path.join(folder, "s.ots"), WEAK);
  fs.writeFileSync(path.join(folder, "l"), '{"at":1}\n');
  const whole = call([], `${WEAK}%%\n{"at":1}\n`).stdout;
  assert.equal(call(["s.ots", "l"]).stdout, whole);
  assert.equal(call(["-", "l"], WEAK).stdout, whole);
  assert.equal(call(["--", "s.ots"]).stdout, call([], WEAK).stdout);
});

test("a page that cannot be written, and an input that cannot be read, are named in a line", { skip: !fs.existsSync("/dev/full") }, () => {
  const full = fs.openSync("/dev/full", "w");
  const { status, stderr } = spawnSync(process.execPath, [COMMAND, "view"], { input: WEAK, stdio: ["pipe", full, "pipe"], encoding: "utf8" });
  assert.deepEqual([status, stderr], [1, "otbench: WriteFault\n"]);
  fs.closeSync(full);
});

test("no text breaks out of its place", () => {
  const schedule = '; </pre></script><img src=x onerror=alert(1)> &lt;\nclients 1\nstart "</script><!--<script>"\n';
  const { stdout } = call([], schedule);
  for (const end of ["</script>", "</pre>", "<script", "<img"]) assert.equal(stdout.split(end).length, plain.split(end).length, end);
  assert.equal(fold(linesIn(stdout).steps).start, "</script><!--<script>");
  assert.equal(scheduleIn(stdout), schedule);
});

test("a port's lines and what conform answers stand behind", () => {
  const { stdout, status } = call([], `${WEAK} %% \r\n{"at":1}\ntrace <anonymous>`);
  assert.equal(status, 0);
  const { steps: lines, port, answer: [value, ...words] } = linesIn(stdout);
  assert.equal(lines.length, 18);
  assert.deepEqual(port, ['{"at":1}', "trace \\u003canonymous>"]);
  const { at, key, text } = conform(WEAK, '{"at":1}\ntrace <anonymous>');
  assert.deepEqual([JSON.parse(value).at, JSON.parse(value).key], [at, key]);
  assert.deepEqual(words, text.replaceAll("<", "\\u003c").trimEnd().split("\n"));
});

test("sparse lines", () => {
  const port = `${WEAK}%%\n{"at":12,"document":"acz"}\n`;
  assert.match(linesIn(call([], port).stdout).answer[1], /^differs at 1: /);
  const { stdout } = call(["--sparse"], port);
  const [value, ...words] = linesIn(stdout).answer;
  assert.deepEqual([JSON.parse(value).verdict, words], ["conforms", []]);
  assert.match(stdout, / id="lines" data-sparse>\n/);
});

test("a schedule that is refused gives its fault and no page, with the column, the cause, the line and a caret", () => {
  const { stdout, stderr, status } = call([], "clients 2\nedit 0 [1.5]\n");
  assert.deepEqual([stdout, stderr, status], ["", 'otbench: line 2: BadOperation\n  line 2, column 10: found ".5]"; wanted an operation, such as [1,"a",-2]; numbers are whole\n  edit 0 [1.5]\n           ^\n', 1]);
});
