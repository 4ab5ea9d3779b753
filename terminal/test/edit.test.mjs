// Edits that are written by the texts of a report.

import assert from "node:assert/strict";
import { spawn, spawnSync } from "node:child_process";
import { once } from "node:events";
import { mkdtempSync, readdirSync, readFileSync, rmSync, writeFileSync } from "node:fs";
import { tmpdir } from "node:os";
import path from "node:path";
import test from "node:test";
import { fileURLToPath } from "node:url";
import { Misfit, operationAt } from "../editing.mjs";
import { COMMAND, options, PROGRAM } from "./program.mjs";

const env = { ...process.env, OTBENCH: PROGRAM };

test("the operation spans the document, in Unicode scalars, the insertion before the deletion", () => {
  assert.deepEqual(operationAt("abc", 1, "b", "xy"), [1, "xy", -1, 1]);
  assert.deepEqual(operationAt("😀b", 1, "b", ""), [1, -1]);
  assert.deepEqual(operationAt("", 0, "", "a"), ["a"]);
  assert.deepEqual(operationAt("ab", 2, "", "c"), [2, "c"]);
});

test("a text that does not stand there is a misfit, which says where it stands", () => {
  assert.throws(() => operationAt("abc", 0, "b", ""), (fault) => fault instanceof Misfit && fault.message === 'at place 0 of "abc" stands "a", not "b": it stands at place 1');
  assert.throws(() => operationAt("abc", 4, "", "x"), Misfit);
});

/** Runs the script on a file of this text; answers what it printed and the file behind it. */
function edited(text, ...words) {
  const folder = mkdtempSync(path.join(tmpdir(), "edit-"));
  const file = path.join(folder, "session.ots");
  writeFileSync(file, text);
  const ran = spawnSync(process.execPath, [COMMAND, "edit", file, ...words], { encoding: "utf8", env });
  const now = readFileSync(file, "utf8");
  rmSync(folder, { recursive: true });
  return { status: ran.status, output: ran.stdout, errors: ran.stderr, now };
}

test("the edit is appended, on a line of its own", options, () => {
  const { status, output, now } = edited('clients 2\nstart "milk"', "1", "0", "mi", "si");
  assert.equal(status, 0);
  assert.equal(output, 'edit 1 ["si",-2,2]\nclient 1\'s document "milk" becomes "silk"\n');
  assert.equal(now, 'clients 2\nstart "milk"\nedit 1 ["si",-2,2]\n');
});

test("where it does not fit the file stays as it is", options, () => {
  const text = 'clients 1\nstart "milk"\n';
  const { status, errors, now } = edited(text, "0", "0", "x", "");
  assert.equal(status, 1);
  assert.equal(errors, 'otbench edit: at place 0 of "milk" stands "m", not "x": it does not stand in the document\n');
  assert.equal(now, text);
  assert.equal(edited(text, "3", "0", "", "a").status, 1);
  assert.equal(edited("clients 1\npresent 0\n", "0", "0", "", "a").status, 1);
  assert.equal(edited("clients 1\nedti\n", "0", "0", "", "a").status, 1);
  assert.equal(edited(text, "0", "zero", "", "a").status, 2);
});

test("of edits of one file at once each that says so is in the file, which is not refused", options, async () => {
  const folder = mkdtempSync(path.join(tmpdir(), "edit-"));
  const file = path.join(folder, "session.ots");
  writeFileSync(file, "clients 2\n");
  const calls = Array.from({ length: 6 }, (_, i) => spawn(process.execPath, [COMMAND, "edit", file, "0", "0", "", `${i}`], { stdio: "ignore", env }));
  const statuses = (await Promise.all(calls.map((call) => once(call, "exit")))).map(([status]) => status);
  const { status, stdout } = spawnSync(PROGRAM, ["run"], { input: readFileSync(file), encoding: "utf8" });
  assert.deepEqual(statuses, [0, 0, 0, 0, 0, 0]);
  assert.equal(status, 0);
  assert.deepEqual([...JSON.parse(/"[0-9]*"/.exec(stdout)[0])].sort().join(""), "012345");
  assert.deepEqual(readdirSync(folder), ["session.ots"]);
  rmSync(folder, { recursive: true });
});

test("a lock that stays is named", options, () => {
  const folder = mkdtempSync(path.join(tmpdir(), "edit-"));
  const file = path.join(folder, "session.ots");
  writeFileSync(file, "clients 2\n");
  writeFileSync(`${file}.lock`, "");
  const ran = spawnSync(process.execPath, [COMMAND, "edit", file, "0", "0", "", "a"], { encoding: "utf8", env });
  assert.deepEqual([ran.status, ran.stderr], [1, `otbench edit: ${file}.lock is there: another edit is at work; if there is none, remove that file\n`]);
  assert.equal(readFileSync(file, "utf8"), "clients 2\n");
  rmSync(folder, { recursive: true });
});

test("a schedule that is no UTF-8 is refused, and stays as it is", options, () => {
  const { status, errors, now } = edited(Buffer.from('clients 1\nstart "\xff"\n', "latin1"), "0", "0", "", "a");
  assert.equal(status, 1);
  assert.match(errors, /^otbench: line 2: BadText\n/);
  assert.equal(now, 'clients 1\nstart "\ufffd"\n');
});

/* What a shell makes of a call of the command: status and standard error, output and all. */
const shell = (call) => spawnSync("sh", ["-c", call], { encoding: "utf8", env: { ...env, COMMAND, SCHEDULE: WEAK } });

const WEAK = fileURLToPath(new URL("../../examples/weak-order.ots", import.meta.url));

test("a folder is called one", options, () => {
  assert.equal(shell('node "$COMMAND" debug / </dev/null').stderr, "otbench debug: /: is a folder\n");
  assert.equal(shell('node "$COMMAND" debug "$SCHEDULE" --port / </dev/null').stderr, "otbench debug: /: is a folder\n");
  assert.equal(shell('node "$COMMAND" edit / 0 0 "" a').stderr, "otbench edit: /: is a folder\n");
});

test("an output that nobody reads any more ends the debugger, and of a full disk it is said", { skip: options.skip || process.platform !== "linux" }, () => {
  const cut = shell('(yes step | head -n 20000 | node "$COMMAND" debug "$SCHEDULE" || echo $? >&2) | head -n 1');
  assert.deepEqual([cut.stdout.split("\n").length, cut.stderr], [2, "1\n"]);
  for (const input of ["/dev/null", '"$SCHEDULE"']) {
    const full = shell(`node "$COMMAND" debug "$SCHEDULE" <${input} >/dev/full`);
    assert.deepEqual([full.status, full.stderr], [1, "otbench: WriteFault\n"]);
  }
  const appended = shell('cp "$SCHEDULE" "$0"; node "$COMMAND" edit "$0" 0 0 "" a >/dev/full; echo $?; rm "$0"'.replaceAll("$0", path.join(tmpdir(), `edit-${process.pid}.ots`)));
  assert.deepEqual([appended.stdout, appended.stderr], ["1\n", "otbench: WriteFault\n"]);
});

test("words that are not understood are named", () => {
  const call = (script, ...words) => {
    const { status, stderr } = spawnSync(process.execPath, [COMMAND, script, ...words], { encoding: "utf8", env });
    assert.match(stderr, /^error: .*\nusage: otbench (edit|debug) FILE/);
    return [status, stderr.split("\n")[0].slice("error: ".length)];
  };
  const rows = [
    [["edit"], "FILE C AT DELETED INSERTED are missing"],
    [["edit", "a.ots", "0", "0", "x"], "INSERTED is missing"],
    [["edit", "a.ots", "0", "0", "x", "y", "z"], "unexpected argument 'z' found; a text with blanks stands in quotes"],
    [["edit", "a.ots", "-1", "0", "", "y"], "invalid value '-1' for C: it takes a number of one to nine digits"],
    [["edit", "a.ots", "0", "end", "", "y"], "invalid value 'end' for AT: it takes a number of one to nine digits"],
    [["debug", "a.ots", "--prot", "x"], "unexpected argument '--prot' found; a similar argument exists: '--port'"],
    [["debug", "a.ots", "--spasre"], "unexpected argument '--spasre' found; a similar argument exists: '--sparse'"],
    [["debug", "a.ots", "--documents"], "unexpected argument '--documents' found"],
    [["debug", "a.ots", "--port"], "a value is required for '--port' but none was supplied"],
    [["debug", "--port", "a", "--port", "b", "c"], "the argument '--port' cannot be used multiple times"],
  ];
  for (const [words, said] of rows) assert.deepEqual(call(...words), [2, said]);
  for (const words of [["edit", "--help"], ["debug", "a.ots", "--help"]]) {
    const { status, stdout, stderr } = spawnSync(process.execPath, [COMMAND, ...words], { encoding: "utf8", env });
    assert.match(stdout, words[0] === "debug" ? /^usage: [^]*\n\nstep +performs one instruction, or N\n[^]*\nquit / : /^usage: /);
    assert.deepEqual([status, stderr], [0, ""]);
  }
});
