// The command: words, files, streams and statuses, over the engine and over the native program where it is built.

import assert from "node:assert/strict";
import { spawn, spawnSync } from "node:child_process";
import fs from "node:fs";
import path from "node:path";
import { test } from "node:test";
import { fileURLToPath } from "node:url";
import { generate, steps } from "../otbench.mjs";
import { example, NATIVE, temporaryFolder, TOP } from "./files.mjs";

const COMMAND = fileURLToPath(new URL("../../command/cli.mjs", import.meta.url));
const folder = temporaryFolder();

const TWO_CLIENTS = 'client 0 rev 2 synchronized "ba"\nclient 1 rev 2 synchronized "ba"\nserver rev 2 "ba"\nquiet\n';
const WEAK = example("weak-order.ots");

/** Runs the command: [status, output, errors]. */
function call(words, input = "", program = "") {
  const env = { ...process.env, OTBENCH: program };
  const { status, stdout, stderr } = spawnSync(process.execPath, [COMMAND, ...words], { input, encoding: "utf8", cwd: folder, env, maxBuffer: 1 << 28 });
  return [status, stdout, stderr];
}

/** The programs that the command is tried over: the engine, and the native program where it is built. */
const PROGRAMS = ["", NATIVE].filter((it) => it !== null);

/** A file of the folder. */
function file(name, content) {
  fs.writeFileSync(path.join(folder, name), content);
  return name;
}

test("standard input, and a file as a word", () => {
  assert.deepEqual(call(["run"], example("two-clients.ots")), [0, TWO_CLIENTS, ""]);
  assert.deepEqual(call(["run", file("two clients.ots", example("two-clients.ots"))]), [0, TWO_CLIENTS, ""]);
  assert.deepEqual(call(["run", "-"], example("two-clients.ots")), [0, TWO_CLIENTS, ""]);
  assert.deepEqual(call(["run", "--", file("-x", example("two-clients.ots"))]), [0, TWO_CLIENTS, ""]);
});

test("an option and a file, in both orders", () => {
  const image = `${TOP}examples/late-join.img`;
  const [status, output] = call(["run", "--image", image]);
  assert.equal(status, 0);
  assert.match(output, /^(read|client)/);
  assert.deepEqual(call(["run", image, "--image"]), [status, output, ""]);
});

test("two files: a schedule and what stands behind a line %%", () => {
  const lines = file("lines.jsonl", steps(WEAK).map((line) => `${JSON.stringify(line)}\n`).join(""));
  const schedule = file("weak.ots", WEAK.trimEnd()); // without an end of its last line
  for (const words of [[schedule, lines], [schedule, "-"], ["-", lines]]) {
    const input = words[0] === "-" ? WEAK : fs.readFileSync(path.join(folder, lines));
    const [status, output] = call(["conform", ...words], input);
    assert.deepEqual([status, output.split("\n")[0]], [0, "conforms"]);
  }
  assert.match(call(["conform", schedule])[1], /^differs at 1: edit 0: line\nfound nothing\n/);
  assert.deepEqual(call(["debug", schedule, "-"], "step 3\nwhere\n"), [0, "at 3: count\nat 3\n", ""]);
});

test("files that are not there, are folders, or are too many", () => {
  assert.deepEqual(call(["run", "none.ots"]), [1, "", "otbench: none.ots: there is no such file\n"]);
  assert.deepEqual(call(["conform", file("w.ots", WEAK), "none"]), [1, "", "otbench: none: there is no such file\n"]);
  assert.deepEqual(call(["view", "none.ots"]), [1, "", "otbench: none.ots: there is no such file\n"]);
  assert.deepEqual(call(["run", "."]), [1, "", "otbench: .: is a folder\n"]);
  assert.deepEqual(call(["debug", "."]), [1, "", "otbench debug: .: is a folder\n"]);
  assert.deepEqual(call(["edit", ".", "0", "0", "", "a"]), [1, "", "otbench edit: .: is a folder\n"]);
  const [status, , errors] = call(["steps", "a", "b"]);
  assert.equal(status, 2);
  assert.match(errors, /^error: unexpected argument 'b' found\n/);
  for (const word of ["run", ""]) assert.deepEqual(call(["run", "", word]).slice(0, 2), [1, `==> '' <==\n\n==> ${word || "''"} <==\n`]);
});

test("a plan of several workers is refused: there are no threads", () => {
  const plan = example("two-typists.json");
  const said = (workers) => `otbench: this program has no threads, and the plan has ${workers} workers: give it "workers":1, or give the plan to ./otbench threads of the repository, built with the toolchain\n`;
  for (const workers of [2, 4, 8]) assert.deepEqual(call(["threads"], plan.replace('"workers":1', `"workers":${workers}`)), [1, "", said(workers)]);
  assert.equal(call(["threads"], plan)[0], 0);
  assert.deepEqual(call(["threads"], plan.replace('"workers":1', '"workers":9')), [1, "", "otbench: BadNumber\n  workers: found 9; wanted a number from 1 to 8\n"]);
  assert.match(call(["help", "threads"])[1], /\nThis program has no threads: it performs plans with "workers":1\. /);
});

test("a refused text, and words that are not understood", () => {
  const place = '  line 2, column 2: found "bogus\\u202e"; wanted present, start, edit, take, deliver, ack, read, read-server or join\n';
  for (const program of PROGRAMS) {
    for (const word of ["run", "check", "steps", "asm", "complete", "explain"])
      assert.deepEqual(call([word], "clients 1\n\tbogus\u202e 0\r\n", program), [1, "", `otbench: line 2: UnknownWord\n${word === "explain" ? place.replace("\\u202e", "\u202e") : place}  \tbogus\\u202e 0\n  \t^\n`], word);
    assert.deepEqual(call(["run"], "\n", program), [1, "", "otbench: line 2: NoClients\n  line 2, column 1: found nothing; wanted clients; no line says `clients N`\n"]);
    const long = call(["run"], `clients 1\nedit 0 ["${"é".repeat(100_000)}",0]\n`, program)[2].split("\n");
    assert.deepEqual([long.length, long[2].length, long[3].length], [5, 74, long[2].indexOf("0]") + 1]);
  }
  assert.equal(call(["bogus"])[0], 2);
  assert.equal(call(["run", "--bogus"])[0], 2);
  assert.equal(call([])[0], 2);
});

test("standard input that cannot be read", () => {
  const stdin = fs.openSync(folder, "r");
  const run = (words) => {
    const { status, stderr } = spawnSync(process.execPath, [COMMAND, ...words], { stdio: [stdin, "pipe", "pipe"], encoding: "utf8" });
    return [status, stderr];
  };
  assert.deepEqual(run(["run"]), [1, "otbench: line 1: ReadFault\n"]);
  assert.deepEqual(run(["view"]), [1, "otbench: ReadFault\n"]);
  fs.closeSync(stdin);
});

test("help on the output with status 0, --help as the program has it, and the version", () => {
  const [status, output, errors] = call(["help"]);
  assert.deepEqual([status, errors], [0, ""]);
  assert.match(output, /^A proved test bench[^]*\n {2}otbench conform \[SCHEDULE\] \[LINES\]\n/);
  for (const words of [["--help"], ["-h"], ["help", "--help"]]) assert.deepEqual(call(words), [0, output, ""]);
  assert.deepEqual(call(["run", "x", "--image", "-h"]), [0, call(["help", "run"])[1], ""]);
  assert.equal(call(["bogus", "--help"])[0], 2);
  assert.match(call(["help", "run"])[1], /^Run a schedule/);
  assert.deepEqual(call(["help", "bogus"]).slice(0, 2), [2, ""]);
  assert.match(call(["help", "view"])[1], /^usage: otbench view/);
  assert.match(call(["help", "edit"])[1], /^usage: otbench edit/);
  assert.deepEqual(call(["view", "--help"]), [0, call(["help", "view"])[1], ""]);
  for (const [words, said] of [
    [["a", "b", "c"], "error: unexpected argument 'c' found\n"],
    [["a", "--image"], "error: unexpected argument '--image' found\n"],
  ])
    assert.deepEqual(call(["view", ...words]), [2, "", said + call(["help", "view"])[1]]);
  const { version } = JSON.parse(fs.readFileSync(new URL("../package.json", import.meta.url)));
  for (const word of ["version", "--version", "-V", "-v"]) assert.deepEqual(call([word]), [0, `otbench ${version} (no release, not proved)\n`, ""]);
});

test("the help of both debuggers", () => {
  assert.match(call(["help", "debug"])[1], /^(?!usage)[^]*\nAt a terminal 'otbench debug SCHEDULE \[--port LINES\]' has other commands: /);
  for (const words of [["w.ots", "--help"], ["w.ots", "--port", "x", "-h"]]) assert.match(call(["debug", ...words])[1], /^usage: otbench debug FILE [^]*\n\nstep +performs one instruction, or N\n[^]*\nuntil /);
});

/* The recorder's log of a session in which nothing happens. */
const LOG =
  '{"who":"server","n":0,"do":"open","role":"server","revision":0,"document":"a"}\n' +
  '{"who":"ann","n":0,"do":"open","role":"client","revision":0,"state":"synchronized","outstanding":null,"buffer":null,"document":"a"}\n';

/* The longest output of these tests, some megabytes. */
const LONG = generate({ clients: 8, instructions: 20_000, seed: 5 });

test("a long output on a pipe that is read slowly, and that another program made non-blocking", () => {
  const reader = `
import os, subprocess, sys, time
words, given = sys.argv[2:], open(sys.argv[1], "rb")
reads, writes = os.pipe()
os.set_blocking(writes, False)
child = subprocess.Popen(words, stdin=given, stdout=writes)
os.close(writes)
time.sleep(1)
while piece := os.read(reads, 1 << 16):
    sys.stdout.buffer.write(piece)
    time.sleep(0.001)
sys.exit(child.wait())`;
  const session = path.join(folder, file("long.ots", LONG));
  const { status, stdout } = spawnSync("python3", ["-c", reader, session, process.execPath, COMMAND, "steps"], { encoding: "utf8", maxBuffer: 1 << 28 });
  assert.equal(status, 0);
  assert.equal(stdout.length > 1_000_000, true);
  assert.deepEqual(stdout.trimEnd().split("\n").map((line) => JSON.parse(line)), steps(LONG));
});

test("input that comes late, on a pipe that another program made non-blocking", () => {
  const writer = `
import os, subprocess, sys, time
reads, writes = os.pipe()
os.set_blocking(reads, False)
child = subprocess.Popen(sys.argv[1:], stdin=reads)
time.sleep(1)
for piece in (b"clients 1\\n", b"re", b"ad 0\\n"):
    os.write(writes, piece)
    time.sleep(0.2)
os.close(writes)
sys.exit(child.wait())`;
  const { status, stdout } = spawnSync("python3", ["-c", writer, process.execPath, COMMAND, "run"], { encoding: "utf8" });
  assert.deepEqual([status, stdout.split("\n")[0]], [0, 'read 0 ""']);
});

test("answers come before the input ends", async () => {
  const child = spawn(process.execPath, [COMMAND, "debug"], { stdio: ["pipe", "pipe", "inherit"] });
  child.stdout.setEncoding("utf8");
  const answer = () => new Promise((resolve) => child.stdout.once("data", resolve));
  child.stdin.write("clients 1\nread 0\n%%\n");
  for (const [command, reply] of [["where", "at 0\n"], ["step 1", "at 1: count\n"], ["back 1", "at 0: count\n"]]) {
    child.stdin.write(`${command}\n`);
    assert.equal(await answer(), reply);
  }
  child.stdin.end();
  assert.equal(await new Promise((resolve) => child.on("exit", resolve)), 0);
});

test("an output that nobody reads any more, and a full disk: status 1; the latter is said", { skip: process.platform !== "linux" }, () => {
  const session = path.join(folder, file("long.ots", LONG));
  const over = (program) => (script) => {
    const { stdout, stderr } = spawnSync("sh", ["-c", script, process.execPath, COMMAND, session], { encoding: "utf8", cwd: folder, env: { ...process.env, OTBENCH: program } });
    return [stdout, stderr];
  };
  const sh = over("");
  file("two.log", LOG);
  for (const program of PROGRAMS) {
    assert.deepEqual(over(program)('(status=0; "$0" "$1" steps "$2" || status=$?; echo $status >&2) | head -c 5'), ['{"at"', "1\n"]);
    assert.deepEqual(over(program)('status=0; "$0" "$1" run none.ots 2>/dev/full || status=$?; echo $status'), ["1\n", ""]);
    for (const words of ["steps", "conform", "run", "view", "steps -", "check --json", "explain", "generate"]) assert.deepEqual(over(program)(`status=0; "$0" "$1" ${words} <"$2" >/dev/full || status=$?; echo $status`), ["1\n", "otbench: WriteFault\n"], words);
  }
  for (const words of ["help", "run --help", "version", "completion zsh", "merge two.log", "help edit", "debug $2", "edit $2 0 0 '' a"])
    assert.deepEqual(sh(`status=0; "$0" "$1" ${words.replace("$2", '"$2"')} >/dev/full </dev/null || status=$?; echo $status`), ["1\n", "otbench: WriteFault\n"], words);
  const [shown, status] = sh('(status=0; "$0" "$1" view "$2" || status=$?; echo $status >&2) | head -c 5');
  assert.deepEqual([shown.length, status], [5, "1\n"]);
  const typed = '(status=0; yes step | head -n 20000 | "$0" "$1" debug "$2" || status=$?; echo $status >&2) | head -n 1';
  assert.match(sh(typed).join(""), /^the opening: [^\n]*\n1\n$/);
});

/* Words and an input, of every subcommand. */
function runs() {
  const texts = ["weak-order.ots", "late-join.ots", "one-client-open.ots"].map(example);
  const commands = "%%\nwatch doc 0\nrun\nshow\nback 2\nbreak 3\nrun\nbogus\n";
  const ofTexts = texts.flatMap((text) => [
    ...[["run"], ["steps"], ["steps", "--documents"], ["explain"], ["check"], ["asm"]].map((words) => [words, text]),
    [["conform"], `${text}%%\n{"at":1,"document":"?"}\n`],
    [["debug"], text + commands],
    [["run"], text.slice(0, text.length / 2)],
  ]);
  const traces = ["weak-order.json", "reversed.json", "two-typists.json"].map((name) => [["judge"], example(name)]);
  const image = fs.readFileSync(`${TOP}examples/late-join.img`);
  const images = [image, image.subarray(0, 30)].flatMap((it) => [[["dis"], it], [["run", "--image"], it]]);
  const generated = [["--seed", "3"], ["--clients", "99"], ["--start=é😀"], ["--open", "--present", "0"]].map((words) => [["generate", ...words], ""]);
  const words = [[], ["bogus"], ["run", "--help"], ["steps", "-h"], ["generate", "--seed"], ["--bogus"]].map((it) => [it, ""]);
  return [...ofTexts, ...traces, ...images, ...generated, ...words];
}

test("the same bytes and statuses as the native program, with hints behind, and the same over it", { skip: NATIVE === null && "no native program" }, () => {
  for (const [words, input] of runs()) {
    const { status, stdout, stderr } = spawnSync(NATIVE, words, { input, encoding: "utf8", argv0: "otbench" });
    const [ourStatus, output, errors] = call(words, input);
    const isHelp = words.some((it) => it === "-h" || it === "--help");
    if (isHelp) assert.deepEqual([ourStatus, output, errors], [0, stderr, ""], words.join(" "));
    else assert.deepEqual([ourStatus, output, errors.startsWith(stderr)], [status, stdout, true], words.join(" "));
    assert.deepEqual(call(words, input, NATIVE), [ourStatus, output, errors], words.join(" "));
  }
});

test("several files are answered one behind the other, with the worst status", () => {
  const [good, bad] = [file("good one.ots", "clients 1\n"), file("bad.ots", "clients 1\ntake 0\n")];
  for (const program of PROGRAMS) {
    const [status, output, errors] = call(["run", good, "none.ots", bad], "", program);
    const ends = (name) => `==> ${name} <==\n`;
    assert.equal(status, 1);
    assert.equal(output, `${ends("'good one.ots'")}${call(["run", good])[1]}\n${ends("none.ots")}\n${ends("bad.ots")}${call(["run", bad])[1]}`);
    assert.equal(errors, `otbench: none.ots: there is no such file\n${call(["run", bad])[2]}`);
  }
  assert.equal(call(["check", good, good])[0], 0);
  assert.equal(call(["judge", `${TOP}examples/weak-order.json`, `${TOP}examples/reversed.json`])[0], 1);
  assert.deepEqual(call(["run", "-", good], "clients 2\n").slice(0, 2), [0, `==> standard input <==\n${call(["run"], "clients 2\n")[1]}\n==> 'good one.ots' <==\n${call(["run", good])[1]}`]);
});

test("a schedule ends at a line %%, as recorded ones do; conform, view and debug read on", () => {
  const lines = steps(WEAK).map((line) => `${JSON.stringify(line)}\n`).join("");
  const recorded = file("recorded.ots", `${WEAK}%%\n${lines}`);
  for (const program of PROGRAMS) {
    for (const word of ["run", "check", "steps", "explain", "asm", "complete"]) assert.deepEqual(call([word, recorded], "", program), call([word], WEAK, program), word);
    assert.equal(call(["conform", recorded], "", program)[1].split("\n")[0], "conforms");
    assert.equal(call(["conform", recorded, "-"], lines, program)[1].split("\n")[0], "conforms");
    assert.deepEqual(call(["debug", recorded, file("commands", "step 3\n")], "", program), [0, "at 3: count\n", ""]);
    const faulty = file("faulty.ots", `${WEAK}%%\n${lines.replace('"buffer":["a",1,-1,1],"applied"', '"buffer":["a",-1,1],"applied"')}`);
    assert.match(call(["debug", faulty], "run\n", program)[1], /the port's first difference is at place 7, line 11: run stops there\n[^]*differs at 7: deliver 0: client 0 buffer\n/);
    assert.doesNotMatch(call(["debug", faulty, "--port", "-x", "--"], "", program)[2], /usage/);
  }
  assert.deepEqual(call(["run", "--image"], "a\n%%\nb"), [1, "", "otbench: byte 0: BadMagic\n  magic: found 61 0a 25 25; wanted 4f 54 53 31 (OTS1) or 4f 54 53 32 (OTS2)\n"]);
});

test("an edit stands in front of a line %%", () => {
  const name = file("edited.ots", 'clients 1\nstart "a"\n%%\n{"at":1}\n');
  assert.equal(call(["edit", name, "0", "1", "", "b"])[0], 0);
  assert.equal(fs.readFileSync(path.join(folder, name), "utf8"), 'clients 1\nstart "a"\nedit 0 [1,"b"]\n%%\n{"at":1}\n');
});

test("a port's lines in which nothing is compared, or a key is unknown: status 1, or the key is named", () => {
  const schedule = file("named.ots", 'clients 1\nedit 0 ["a"]\n');
  for (const program of PROGRAMS) {
    for (const flags of [[], ["--sparse"]]) {
      const conform = (line) => call(["conform", ...flags, schedule, file("named.jsonl", `${line}\n`)], "", program);
      const [status, output, errors] = conform('{"at":1,"client":0,"docment":"WRONG"}');
      assert.deepEqual([status, output.split("\n")[0], output.split("\n")[2]], [1, "nothing compared", "unknown docment in line 4"]);
      assert.match(errors, /^otbench: no line has a value that is counted/);
      assert.match(conform('{"at":1,"document":"a","docment":"WRONG"}').join("\n"), /^0\nconforms\n.*\nunknown docment in line 4\n\n$/);
      assert.match(conform("[]").join("\n"), /\nnote the line is no JSON object\n\notbench: place 1 is behind line 2, instruction 0: edit 0\notbench: each line of a port is one JSON object/);
    }
  }
});

test("lines for some instructions", () => {
  const name = file("sparse.ots", `${WEAK}%%\n{"at":12,"document":"acz"}\n`);
  for (const program of PROGRAMS) {
    assert.match(call(["debug", name], "", program)[1], /the port's first difference/);
    assert.doesNotMatch(call(["debug", "--sparse", name], "", program)[1], /first difference/);
    const [status, output, errors] = call(["conform", "--sparse", name], "", program);
    assert.deepEqual([status, output.split("\n")[0], errors], [0, "conforms", "otbench: the port's lines end at place 12, before line 17, instruction 12: ack 0; nothing is compared from there on\n"]);
    assert.match(call(["debug", "--sparse", name], "", program)[1], /\nthe port conforms; its lines end at place 12, before line 17, instruction 12: ack 0; nothing is compared from there on\n/);
  }
});

test("what is larger than its kind may be is refused while it is read", { skip: !fs.existsSync("/dev/zero") }, () => {
  const said = (name, most, kind) => [1, "", `otbench: ${name}: it has more than ${most} bytes, which is the most of ${kind}\n`];
  for (const program of PROGRAMS) {
    assert.deepEqual(call(["run", "/dev/zero"], "", program), said("/dev/zero", "268,435,456", "a schedule"));
    assert.deepEqual(call(["run", "--image", "/dev/zero"], "", program), said("/dev/zero", "268,435,456", "an image"));
    assert.deepEqual(call(["threads", "/dev/zero"], "", program), said("/dev/zero", "67,108,864", "a plan"));
    assert.deepEqual(call(["debug", file("short.ots", "clients 1\n"), "/dev/zero"], "", program), said("/dev/zero", "67,108,864", "commands"));
  }
  const { status, stderr } = spawnSync(process.execPath, [COMMAND, "judge"], { stdio: [fs.openSync("/dev/zero", "r"), "pipe", "pipe"], encoding: "utf8" });
  assert.deepEqual([status, "", stderr], said("standard input", "268,435,456", "a trace"));
});

test("completion lists what the help lists", { skip: spawnSync("bash", ["-c", "true"]).status !== 0 && "no bash" }, () => {
  const [status, script] = call(["completion", "bash"]);
  assert.equal(status, 0);
  const completed = (...words) => spawnSync("bash", ["-c", `${script}\nCOMP_WORDS=("$@") COMP_CWORD=$(($# - 1)); _otbench; printf '%s\\n' "\${COMPREPLY[@]}"`, "bash", "otbench", ...words], { encoding: "utf8" }).stdout.trim().split("\n");
  assert.deepEqual(completed("co"), ["conform", "complete", "completion"]);
  assert.deepEqual(completed("run", "--i"), ["--image"]);
  assert.deepEqual(completed("generate", "--s"), ["--seed", "--start"]);
  assert.deepEqual(completed("debug", "--s"), ["--sparse"]);
  assert.deepEqual(completed("run", "a"), [""]);
  assert.match(call(["completion", "zsh"])[1], /^#compdef otbench\n[^]* {8}check\) words_here=\(--all --json --help\) ;;\n/);
  for (const words of [[], ["fish"], ["bash", "zsh"]]) assert.deepEqual(call(["completion", ...words]).slice(0, 2), [2, ""]);
});

test("a native program that is not there, or is this script", () => {
  assert.deepEqual(call(["run", "-"], "", "/none"), [1, "", "otbench: /none: there is no such file\n"]);
  for (const program of [COMMAND, "other.mjs"]) assert.equal(call(["version"], "", program)[1], call(["version"])[1]);
});
