// otbench port: drivers of every kind, and what is said of them.

import assert from "node:assert/strict";
import { spawn, spawnSync } from "node:child_process";
import fs from "node:fs";
import path from "node:path";
import { test } from "node:test";
import { setTimeout as pause } from "node:timers/promises";
import { corpus } from "../../ports/testing.mjs";
import { portWords } from "../../ports/words.mjs";
import { temporaryFolder, TOP } from "./files.mjs";

const folder = temporaryFolder();
const CLI = path.join(TOP, "command/cli.mjs");
const SAMPLE = ["node", path.join(TOP, "examples/port/driver.js"), "--faults", path.join(TOP, "conformance/faults.js")];
const stored = (name) => path.join(TOP, `conformance/sessions/${name}.ots`);

/* What the command prints with these options and this driver. */
function port(options, driver, { input = "" } = {}) {
  const { OTBENCH, ...env } = process.env;
  const { status, stdout, stderr } = spawnSync(process.execPath, [CLI, "port", ...options, "--", ...driver], { input, env, encoding: "utf8", cwd: folder, maxBuffer: 1 << 26 });
  return { status, stdout, stderr };
}

/* What the command prints that a report names to replay its session. */
function again(report) {
  const words = /^to replay it: otbench port (.*)$/m.exec(report)[1];
  const { OTBENCH, ...env } = process.env;
  return spawnSync("sh", ["-c", `'${process.execPath}' '${CLI}' port --reduce-seconds 1 ${words}`], { env, encoding: "utf8", cwd: folder });
}

/* A driver in sh: `text` has the schedule, `says` prints the lines of ot.js. */
const sh = (script) => ["sh", "-c", `says() { printf '%s' "$text" | '${process.execPath}' '${CLI}' steps --documents; }; text=$(cat; echo); ${script}`];

/* Whether a process runs that has this number, where the system tells it. One that has ended has no words. */
function runs(id) {
  try {
    return fs.readFileSync(`/proc/${id}/cmdline`, "utf8") !== "";
  } catch {
    return false;
  }
}

/* A file with this text. */
function file(name, text) {
  const made = path.join(folder, name);
  fs.writeFileSync(made, text);
  return made;
}

const READS = file("reads.ots", "clients 1\nread 0\nread-server\n");
const JOINS = file("joins.ots", "clients 1\npresent 0\njoin 0\nread 0\nread-server\n");
const TAKES = file("takes.ots", "clients 1\nedit 0 []\ntake 0\nack 0\n");
const own = (...files) => files.flatMap((it) => ["--session", it]);

test("a port that conforms, in a process for each session and in one", () => {
  const sessions = own(stored("transform-tie"), stored("characters-past-the-plane"), stored("no-operations"));
  for (const words of [["--utf16"], ["--utf16", "--keep-driver"]]) {
    const { status, stdout, stderr } = port([...words, ...sessions], [...SAMPLE, ...(words.length > 1 ? ["--keep"] : [])]);
    assert.deepEqual([status, stderr], [0, ""]);
    assert.match(stdout, /^of one's own: 3 sessions conform\ncompared clients 3 present 3 start 3 do \d+ client .* document \d+ end 3\n$/);
  }
});

test("the sessions are those of `conforms`: the corpus, and then at random", () => {
  const { status, stdout } = port(["--utf16", "--keep-driver", "--sessions", "3", "--jobs", "2"], [...SAMPLE, "--keep"]);
  assert.equal(status, 0);
  const small = /^corpus: \d+ sessions conform\n((?:every session of \d clients(?:, the last of whom joins late,)? with up to \d edits over [^\n]*: [\d,]+ conform\n)+)at random: 3 sessions conform\ncompared /.exec(stdout);
  assert.ok(stdout.startsWith(`corpus: ${[...corpus()].length} sessions conform\n`) && small, stdout);
});

test("a port that differs is reduced, the schedule is saved, and the words that are given try it again", () => {
  const saved = path.join(folder, "smaller one.ots");
  const driver = [...SAMPLE, "--bug", "compose-insert-delete-longer"];
  const { status, stdout } = port(["--utf16", "--reduce-seconds", "600", "--save-to", saved], driver);
  assert.equal(status, 1);
  assert.match(stdout, /^fails: [a-z-]+: \d+ instructions, here reduced to 3\n\nclients 1\n/);
  assert.match(stdout, /\ndiffers at 3: edit 0: client 0 buffer\n[^]*\nplace 3 is behind line \d+, instruction 2: edit 0\n/);
  assert.match(stdout, /^to replay it: otbench port --session '.*smaller one\.ots' --utf16 -- node /m);
  const replayed = again(stdout);
  assert.match(replayed.stdout, /^fails: .*smaller one\.ots: 3 instructions\n/, replayed.stderr);
});

test("a session made at random is tried again by the words that are given", () => {
  const { stdout } = port(["--no-corpus", "--clients", "3", "--seed", "5", "--sessions", "4", "--reduce-seconds", "0.001"], sh("echo wrong"));
  assert.match(stdout, /^as it was found it is tried by otbench port --no-corpus --sessions 1 --seed 5 -- sh -c '/m);
});

test("how a driver ends, with the line of its standard error that says why", () => {
  const rows = [
    ["says; echo gone >&2; exit 7", "the driver ended with status 7: gone"],
    ["says; echo 'TypeError: a' >&2; echo '  at b' >&2; exit 1", "the driver ended with status 1: TypeError: a"],
    ["says; kill -SEGV $$", "the driver was ended by signal SIGSEGV"],
    ["yes", "the driver was ended: it printed more than 100,000 bytes"],
  ];
  for (const [script, trouble] of rows) {
    const { status, stdout } = port([...own(READS), "--most-bytes", "100000", "--reduce-seconds", "0.001"], sh(script));
    assert.equal(status, 1);
    assert.ok(stdout.includes(`\n\n${trouble}\n`), stdout);
  }
  const { stdout } = port([...own(READS), "--reduce-seconds", "0.001"], sh("echo wrong; exit 7"));
  assert.match(stdout, /\n\nthe driver ended with status 7\ndiffers at 1: read 0: line\n/);
});

test("a port that hangs is reduced while it does, and what it has started is ended with it", () => {
  const started = path.join(folder, "started");
  const driver = sh(`case $text in *join*) sh -c 'echo $$ >>"$0"; exec sleep 1000' '${started}' & sleep 1000;; *) says;; esac`);
  const began = performance.now();
  const { status, stdout } = port([...own(READS, JOINS, TAKES), "--seconds", "4", "--reduce-seconds", "600"], driver);
  assert.ok(performance.now() - began < 900_000);
  assert.equal(status, 1);
  assert.match(stdout, /^fails: .*joins\.ots: 3 instructions, here reduced to 1\n\nclients 1\npresent 0\njoin 0\n\nthe driver was ended: it took more than [\d.]+ s\n/);
  assert.match(stdout, /\nas it was found the driver was ended: it took more than [\d.]+ s; a smaller session has less time, and --seconds gives more\n/);
  assert.match(stdout, /\nlines that the driver had not flushed when it was ended are not seen: it may have come further\n/);
  const ids = fs.readFileSync(started, "utf8").trim().split("\n");
  assert.deepEqual(ids.filter(runs), []);
});

test("a port that is slow once is told as one", () => {
  const seen = path.join(folder, "seen");
  const { stdout } = port([...own(READS), "--seconds", "2", "--jobs", "1"], sh(`if mkdir '${seen}' 2>/dev/null; then sleep 300; fi; says`));
  assert.match(stdout, /\nthe driver did not do this each time; on a busy machine --seconds gives it more time\n/);
});

test("a session that takes longer than others conforms", () => {
  const { status, stdout } = port([...own(READS, JOINS, READS), "--seconds", "120"], sh("case $text in *join*) sleep 3;; esac; says"));
  assert.equal(status, 0, stdout);
});

test("drivers under way are not waited for", () => {
  const began = performance.now();
  const driver = sh("case $text in *take*) sleep 300;; *join*) echo wrong;; *) says;; esac");
  const { stdout } = port([...own(READS, JOINS, TAKES), "--seconds", "300", "--jobs", "3", "--reduce-seconds", "1"], driver);
  assert.match(stdout, /\ndiffers at 1: join 0: line\n/);
  assert.ok(performance.now() - began < 100_000);
});

test("reducing ends where its time is over", () => {
  const driver = sh("case $text in *join*) case $text in *server*) echo wrong;; *) sleep 300;; esac;; *) says;; esac");
  const began = performance.now();
  const { stdout } = port([...own(JOINS), "--seconds", "300", "--reduce-seconds", "1"], driver);
  assert.match(stdout, /\nthe time for reducing was over; --reduce-seconds gives it more\n/);
  assert.ok(performance.now() - began < 100_000);
});

test("a port that fails once is shown as it failed", () => {
  const seen = path.join(folder, "failed");
  const { stdout } = port([...own(JOINS), "--jobs", "1"], sh(`if mkdir '${seen}' 2>/dev/null; then echo wrong; else says; fi`));
  assert.match(stdout, /: 3 instructions\n[^]*\nthe driver did not do this each time\n/);
});

/* A driver that keeps its process: what it does at a session with `join`. */
const keeps = (does) => [
  process.execPath,
  "--input-type=module",
  "-e",
  `import { steps } from "${new URL("../otbench.mjs", import.meta.url)}";
   let text = "", sessions = 0;
   const says = (given) => steps(given, { documents: true }).map((line) => JSON.stringify(line) + "\\n").join("");
   for await (const piece of process.stdin.setEncoding("utf8")) {
     text += piece;
     for (let at; (at = text.indexOf("%%\\n")) >= 0; text = text.slice(at + 3)) {
       const given = text.slice(0, at);
       sessions++;
       if (given.includes("join")) { ${does} }
       process.stdout.write(says(given) + "%%\\n");
     }
   }`,
];

test("a kept process that ends is followed by another one; one that does not answer is ended", () => {
  const rows = [
    ["console.error('gone'); process.exit(7);", "the driver ended with status 7: gone"],
    ["process.exit(0);", "the driver ended before the line %%"],
    ["while (true);", "the driver was ended: it took more than 8 s"],
  ];
  for (const [does, trouble] of rows) {
    const { status, stdout } = port([...own(READS, JOINS, READS), "--keep-driver", "--all", "--jobs", "1", "--seconds", "8", "--reduce-seconds", "0.001"], keeps(does));
    assert.equal(status, 1);
    assert.match(stdout, /^of one's own: 2 of 3 sessions conform\n/);
    assert.ok(stdout.includes(trouble.replace("8 s", "")) || stdout.includes(trouble), stdout);
  }
});

test("how a kept process ends", () => {
  const ends = (does) => [...keeps("").slice(0, -1), `${keeps("").at(-1)}\n${does}`];
  const { status, stderr } = port([...own(READS), "--keep-driver"], ends("process.exit(3);"));
  assert.deepEqual([status, stderr], [1, "otbench: the driver ended with status 3 behind its last session\n"]);
  assert.equal(port([...own(READS), "--keep-driver"], ends("")).status, 0);
});

test("a kept driver that reads to the end of its input is told what it has to do", () => {
  const { stdout } = port([...own(READS), "--keep-driver", "--seconds", "1", "--reduce-seconds", "1"], ["sh", "-c", "lines=$(cat); echo %%"]);
  assert.match(stdout, /\nwith --keep-driver a driver has to answer each session at its line %%, before the end of its input\n/);
});

test("state that leaks from one session to the next, and the words that are given show it again", () => {
  const sessions = own(stored("join-an-empty-log"), stored("transform-tie"));
  const saved = path.join(folder, "leaks.ots");
  const kept = port([...sessions, "--jobs", "1", "--reduce-seconds", "600", "--utf16", "--keep-driver", "--save-to", saved], [...SAMPLE, "--keep", "--bug", "log-shared"]);
  assert.equal(kept.status, 1, kept.stderr);
  assert.match(kept.stdout, /^fails: .*transform-tie\.ots: \d+ instructions, here reduced to \d+; the last of 2 in one process\n\nclients \d\n(.*\n)*take \d\n(.*\n)*%%\nclients \d\n(.*\n)*differs at /);
  const [, line, words] = /\nplace \d+ is (?:behind|before) line (\d+), instruction \d+: (.*)\n/.exec(kept.stdout);
  assert.ok(kept.stdout.split("\n\n")[1].split("\n")[line - 1].startsWith(words), kept.stdout);
  assert.equal(port([...sessions, "--utf16"], [...SAMPLE, "--bug", "log-shared"]).status, 0);
  const replayed = again(kept.stdout);
  const differs = /\ndiffers at [^]*?\nplace .*\n/;
  assert.equal(differs.exec(replayed.stdout)?.[0], differs.exec(kept.stdout)[0], replayed.stderr);
  assert.match(replayed.stdout, /^fails: .*leaks\.ots, session 2: .*; the last of 2 in one process\n/);
  assert.equal(replayed.status, 1);
});

test("a file of several sessions, and one with a port's lines behind its session", () => {
  const [first, last] = [READS, JOINS].map((it) => fs.readFileSync(it, "utf8"));
  const rows = [
    [`${first}%%\n; the second\n\n${last}%%\n`, 2],
    [`${first}\t%% \r\n${last}`, 2],
    [`${first}%%\n{"at":1,"document":""}\n%%\n`, 1],
    [`${first}%%\nclient 0 is gone\n`, 1],
  ];
  for (const [text, count] of rows) assert.match(port(own(file("several.ots", text)), sh("says")).stdout, new RegExp(`^of one's own: ${count} sessions? conforms?\n`), text);
  const { stdout } = port([...own(file("several.ots", rows[0][0])), "--reduce-seconds", "0.001"], sh("case $text in *join*) echo wrong;; *) says;; esac"));
  assert.match(stdout, /^fails: .*several\.ots, session 2: 3 instructions/);
  const { status, stderr } = port(own(file("wrong.ots", `${first}%%\nclients 0\n`)), sh("says"));
  assert.equal(status, 2);
  assert.match(stderr, /^otbench: .*wrong\.ots, session 2: /);
});

const DRIVER = sh("case $text in *join*) echo wrong;; *take*) says; exit 7;; *) says;; esac");

test("--all: of each kind the shortest is reduced", () => {
  const longer = file("longer.ots", "clients 2\npresent 0\njoin 0\njoin 1\nread 0\nread-server\n");
  const { status, stdout } = port([...own(longer, JOINS, READS, TAKES), "--all", "--reduce-seconds", "600"], DRIVER);
  assert.equal(status, 1);
  assert.match(stdout, /^of one's own: 1 of 4 sessions conform\n\njoin: line: 2 sessions; the shortest\n.*joins\.ots: 3 instructions, here reduced to 1\n\nclients 1\npresent 0\njoin 0\n\ndiffers at 1: join 0: line\n/);
  assert.match(stdout, /\n\ndriver: ended with status 7: 1 session; the shortest\n.*takes\.ots: 3 instructions, here reduced to 2\n\nclients 1\nedit 0 \[\]\ntake 0\n\nthe driver ended with status 7\n/);
});

test("--known: what is known is counted and tolerated, and an unknown one fails beside it", () => {
  const known = file("known", "# one of them\njoin: line\n\n  driver: ended with status 7 \nread: document\n");
  const all = port([...own(JOINS, READS, TAKES), "--known", known], DRIVER);
  assert.equal(all.status, 0, all.stdout + all.stderr);
  assert.ok(all.stdout.startsWith("of one's own: 1 of 3 sessions conform\nknown: join: line: 1 session\nknown: driver: ended with status 7: 1 session\nknown, and no longer there: read: document\ncompared "), all.stdout);
  const one = port([...own(JOINS, READS, TAKES), "--known", file("one", "join: line\n"), "--reduce-seconds", "1"], DRIVER);
  assert.equal(one.status, 1);
  assert.match(one.stdout, /^fails: .*takes\.ots: /);
  const none = file("none", "join\n");
  assert.deepEqual(port([...own(JOINS), "--known", none], DRIVER), { status: 2, stdout: "", stderr: `otbench: ${none}: "join" is no kind of failures, as --all names them\n` });
});

test("--tap: a test point for each session, and one for the run", () => {
  const { status, stdout } = port([...own(JOINS, READS, TAKES), "--tap", "--known", file("line", "join: line\n"), "--reduce-seconds", "1"], DRIVER);
  const lines = stdout.split("\n");
  const points = lines.filter((line) => /^(not )?ok /.test(line)).map((line) => line.replace(`${folder}/`, ""));
  assert.deepEqual(points, [
    "not ok 1 - joins.ots # TODO known: join: line",
    "ok 2 - reads.ots",
    "not ok 3 - takes.ots",
    "ok 4 - what is needed was compared, and the driver ended well",
  ]);
  assert.deepEqual([status, lines[0], lines.at(-2), lines.at(-1)], [1, "TAP version 13", "1..4", ""]);
  assert.deepEqual(lines.slice(1, -2).filter((line) => !/^(not )?ok |^# |^ {2}|^#$/.test(line)), []);
  assert.ok(lines.includes("    the driver ended with status 7") && lines.includes("# clients 1"), stdout);
});

test("--junit: a test case for each session, and one for the run", () => {
  const written = path.join(folder, "junit.xml");
  const { status, stdout } = port([...own(JOINS, READS, TAKES), "--junit", written, "--known", file("seven", "driver: ended with status 7\n"), "--reduce-seconds", "1"], DRIVER);
  const xml = fs.readFileSync(written, "utf8");
  assert.equal(status, 1);
  assert.match(xml, /^<\?xml version="1\.0" encoding="UTF-8"\?>\n<testsuite name="conformance" tests="4" failures="1" skipped="1">/);
  assert.match(xml, /<testcase classname="of one's own" name="[^"]*joins\.ots"><failure message="differs at 1: join 0: line" type="join: line">/);
  assert.match(xml, /takes\.ots"><skipped message="known: driver: ended with status 7"\/>/);
  assert.match(xml, /<system-out>[^]*joins\.ots: 3 instructions[^]*<\/system-out><\/testsuite>\n$/);
  assert.match(stdout, /joins\.ots: 3 instructions/);
});

/* What the driver prints, changed by a script of sed. */
const prints = (script, ...words) => {
  const { status, stdout, stderr } = port([...own(stored("no-operations"), stored("transform-tie")), ...words], sh(`says | sed '${script}'`));
  return [status, stdout.split("\n")[0], stderr];
};

test("what is needed and was not compared, and keys that are none", () => {
  const conform = "of one's own: 2 sessions conform";
  assert.deepEqual(prints(""), [0, conform, ""]);
  assert.deepEqual(prints('s/,"document".*}/}/'), [1, conform, "otbench: never compared: document\n"]);
  assert.deepEqual(prints('/take\\|server/s/,"document".*}/}/'), [1, conform, "otbench: never compared: document of the server in 2 of 2 sessions\n"]);
  assert.deepEqual(prints('/"client":1/s/,"document".*}/}/', "--need", "document,sent"), [1, conform, "otbench: never compared: document of a client in 2 of 2 sessions\n"]);
  assert.deepEqual(prints("", "--need", "message"), [1, conform, "otbench: never compared: message\n"]);
  assert.equal(port([...own(stored("transform-tie")), "--need", "message"], SAMPLE).status, 0);
  assert.deepEqual(prints('s/"document"/"documents"/'), [
    1,
    conform,
    'otbench: the key "documents" is none of steps, and was not compared: is it document?\notbench: never compared: document\n',
  ]);
});

test("a port that counts units without the word is told of it", () => {
  const noted = /\na text has characters past U\+FFFF: a port that counts UTF-16 units is tried with --utf16\n/;
  assert.match(port(own(stored("characters-past-the-plane")), SAMPLE).stdout, noted);
  assert.doesNotMatch(port([...own(stored("transform-tie")), "--reduce-seconds", "1"], [...SAMPLE, "--bug", "tie"]).stdout, noted);
});

test("names of a recording stand in what is said of it", () => {
  const named = file("named.ots", `; client 0 is ann\n; client 1 is ben\n${fs.readFileSync(`${TOP}examples/weak-order.ots`, "utf8")}`);
  const { stdout } = port(["--utf16", ...own(named), "--reduce-seconds", "600"], [...SAMPLE, "--bug", "buffer-kept"]);
  assert.match(stdout, /\n; client 0 is ann\n(.*\n)*clients 2\n(.*\n)*differs at \d+: deliver 0: client 0 \(ann\) buffer\n/);
});

/* The sample driver with something done to each line that has a message. */
const changing = (name, change) => [
  "node",
  file(`${name}.mjs`, `import fs from "node:fs";
import { drive } from ${JSON.stringify(`${TOP}examples/port/drive.js`)};
import { makePort } from ${JSON.stringify(`${TOP}oracle/otjs.js`)};
const lines = drive(fs.readFileSync(0, "utf8"), makePort()).map((line) => JSON.parse(line));
for (const [i, line] of lines.entries()) if (line.message) ${change};
process.stdout.write(lines.map((line) => JSON.stringify(line) + "\\n").join(""));
`),
];

test("a message that was changed on its way is told", () => {
  const driver = changing("changed", 'if (line.do === "take") line.message.operation.push("!")');
  const { status, stdout } = port([...own(stored("client-awaiting-confirm-deliver")), "--reduce-seconds", "5"], driver);
  assert.equal(status, 1);
  assert.match(stdout, /\nthe message was changed on its way: between where it was sent and where it was taken\n/);
});

test("where each session has a process of its own, --keep-driver is named", () => {
  const words = ["--utf16", "--no-corpus", "--sessions", "1"];
  assert.match(port(words, SAMPLE).stdout, /\ncompared .*\n(?:not tried, .*\n)+each session had a process of its own: with --keep-driver state that one session leaves to the next is found too\n$/);
  assert.match(port([...words, "--keep-driver"], [...SAMPLE, "--keep"]).stdout, /\ncompared .*\n(?:not tried, .*\n)+$/);
});

test("a message that is a later one of its link is told as such", () => {
  const lost = file("lost.ots", 'clients 2\nedit 0 ["a"]\ntake 0\nack 0\nedit 0 [1,"b"]\ntake 0\nack 0\ndeliver 1\ndeliver 1\nread 0\nread 1\nread-server\n');
  const driver = changing("losing", 'if (line.do === "deliver") line.message = lines[i + 1].message ?? line.message');
  const { status, stdout } = port([...own(lost), "--reduce-seconds", "0"], driver);
  assert.equal(status, 1);
  assert.match(stdout, /\nthe message is a later one of its link: one before it was lost, or they came in another order\n/);
});

test("sessions of one's own: folders, what stands behind a line %%, and what is none", () => {
  const some = path.join(folder, "some");
  fs.mkdirSync(some);
  fs.writeFileSync(path.join(some, "0.ots"), "clients 1\nread 0\nread-server\n");
  fs.writeFileSync(path.join(some, "1.ots"), "; a recording\nclients 2\nread 0\nread-server\n%%\n{}\n");
  assert.match(port(own(some), sh("says")).stdout, /^of one's own: 2 sessions conform\n/);
  const none = file("none.ots", "edit 0 []\n");
  assert.deepEqual(port(own(none), ["true"]), { status: 2, stdout: "", stderr: `otbench: ${none}: line 1: NoClients\n` });
  const empty = path.join(folder, "empty");
  fs.mkdirSync(empty);
  assert.deepEqual(port(own(empty), ["true"]), { status: 2, stdout: "", stderr: `otbench: ${empty}: the folder has no schedules, files *.ots\n` });
});

test("--lines: what a driver prints over one schedule, its lengths in scalars", () => {
  const { status, stdout } = port(["--lines", stored("characters-past-the-plane"), "--utf16"], SAMPLE);
  const lines = path.join(folder, "lines.jsonl");
  fs.writeFileSync(lines, stdout);
  assert.equal(status, 0);
  const { stdout: said } = spawnSync(process.execPath, [CLI, "conform", stored("characters-past-the-plane"), lines], { encoding: "utf8" });
  assert.match(said, /^conforms\n/);
});

test("words that are not understood", () => {
  const rows = [
    [["--sessions", "0"], "--sessions is 0; it takes a whole number from 1 to 1,000,000"],
    [["--sessions", "-1"], "--sessions is -1; it takes a whole number from 1 to 1,000,000"],
    [["--every", "4"], "--every is 4; it takes a whole number from 0 to 3"],
    [["--every=all"], "--every is all; it takes a whole number from 0 to 3"],
    [["--seed", "9999999999"], "--seed is 9999999999; it takes a whole number from 0 to 999,999,999"],
    [["--clients=65"], "--clients is 65; it takes a whole number from 1 to 64"],
    [["--instructions", "200000"], "--instructions is 200000; it takes a whole number from 0 to 100,000"],
    [["--jobs", "two"], "--jobs is two; it takes a whole number from 1 to 1,024"],
    [["--most-bytes", "0"], "--most-bytes is 0; it takes a whole number from 1 to 2,147,483,648"],
    [["--seconds", "0"], "--seconds is 0; it takes a number of seconds above 0, to 1,000,000"],
    [["--seconds", "inf"], "--seconds is inf; it takes a number of seconds above 0, to 1,000,000"],
    [["--reduce-seconds", "-1"], "--reduce-seconds is -1; it takes a number of seconds, 0 to 1,000,000"],
    [["--need", "documents"], /^--need is documents; it takes a list of keys, of clients, .*, message$/],
    [["--save-to", "/there/is/none/x"], "--save-to is /there/is/none/x; there is no folder /there/is/none"],
    [["--junit", folder], `--junit is ${folder}; that is a folder`],
    [["--session", "/there/is/none"], "--session is /there/is/none; it is not there"],
    [["--known", "/there/is/none"], "--known is /there/is/none; it is not there"],
    [["--sessoins", "3"], "unexpected argument '--sessoins': is it --sessions?; otbench port --help lists the options"],
    [["--keep-drivers=1"], "unexpected argument '--keep-drivers=1': is it --keep-driver?; otbench port --help lists the options"],
    [["--utf16=1"], /^unexpected argument '--utf16=1'/],
    [["--constructor"], "unexpected argument '--constructor'; otbench port --help lists the options"],
    [["--json"], "unexpected argument '--json'; otbench port --help lists the options"],
  ];
  for (const [words, message] of rows) assert.throws(() => portWords([...words, "--", "true"]), typeof message === "string" ? { message } : message instanceof RegExp ? (error) => message.test(error.message) : message);
  assert.throws(() => portWords(["--seconds"]), { message: "--seconds takes a value; otbench port --help says which" });
  assert.deepEqual(port(["--sessions", "0"], ["true"]), { status: 2, stdout: "", stderr: "otbench: --sessions is 0; it takes a whole number from 1 to 1,000,000\n" });
});

test("drivers that are no programs", () => {
  const readme = `${TOP}README.md`;
  for (const [driver, message] of [
    [[], "which command is the driver? otbench port [options] -- my-driver .."],
    [["/there/is/none"], "the driver /there/is/none is not there"],
    [["no-such-program"], "the driver no-such-program is not there"],
    [[folder], `the driver ${folder} is a folder, and no program`],
    [[readme], `the driver ${readme} is no program: it may not be executed`],
  ])
    assert.throws(() => portWords(["--", ...driver]), { message });
});

test("the driver stands behind --, or is the first word that is no option", () => {
  assert.deepEqual(portWords(["--seed", "3", "node", "--keep"]).command, ["node", "--keep"]);
  assert.deepEqual(portWords(["--seed", "3", "--", "node", "--", "x"]).command, ["node", "--", "x"]);
  const { stdout } = port(own(READS), ["sh", "-c", "echo wrong", "sh", "--utf16", "x", "--seed=3"]);
  assert.match(stdout, /\nthe driver was given --utf16 --seed=3: what is meant for otbench port stands in front of the driver\n/);
});

test("help is printed, with status 0", () => {
  const { status, stdout, stderr } = spawnSync(process.execPath, [CLI, "port", "--help"], { encoding: "utf8" });
  assert.deepEqual([status, stderr], [0, ""]);
  assert.match(stdout, /^usage: otbench port \[options\] \[--\] DRIVER \.\.\n/);
});

test("a signal ends the drivers, too", async () => {
  const [begun, mark] = ["begun", "survived"].map((name) => path.join(folder, name));
  const child = spawn(process.execPath, [CLI, "port", ...own(READS), "--seconds", "300", "--", ...sh(`echo >'${begun}'; sleep 8; echo >'${mark}'; sleep 300`)], { stdio: "ignore" });
  while (!fs.existsSync(begun)) await pause(50);
  child.kill("SIGTERM");
  const signal = await new Promise((resolve) => child.on("exit", (_, by) => resolve(by)));
  assert.equal(signal, "SIGTERM");
  await pause(9000);
  assert.ok(!fs.existsSync(mark));
});
