// What the command says below an answer of status 1 or 2, on a terminal or not.

import assert from "node:assert/strict";
import { spawnSync } from "node:child_process";
import fs from "node:fs";
import path from "node:path";
import { test } from "node:test";
import { fileURLToPath } from "node:url";
import { hintsOf } from "../../command/hints.mjs";
import { kindOf } from "../../command/kinds.mjs";
import { serve } from "../otbench.mjs";
import { fileWord, quoted } from "../../command/shell.mjs";
import { meant, similarTo } from "../../command/usage.mjs";
import { example, temporaryFolder, TOP } from "./files.mjs";

delete process.env.OTBENCH; // the engine is what runs

const COMMAND = fileURLToPath(new URL("../../command/cli.mjs", import.meta.url));
const folder = temporaryFolder();
const hasPty = spawnSync("python3", ["-c", "import pty"]).status === 0;

const TWICE = 'clients 1\n; a note\nedit 0 ["a"]\ntake 0\ntake 0\n';
fs.writeFileSync(path.join(folder, "twice.ots"), TWICE);
fs.writeFileSync(path.join(folder, "lines.jsonl"), '{"at":1,"document":"b"}\n');

/* The hints to an answer of the engine, without `otbench: ` in front. */
function hints(word, flags, files, text, wanted = 1) {
  const input = Buffer.from(text);
  const { status, output, errors } = serve([word, ...flags], input);
  assert.equal(status, wanted, word);
  return hintsOf({ word, flags, files, name: "otbench", ask: serve }, status, { input, output, errors }).map((line) => line.replace(/^otbench: /, ""));
}

/* What `explain` says below the fault of a schedule without a number of clients, and the line. */
const NO_NUMBER = ["  line 1, column 8: found nothing; wanted a number from 1 to 64", "  clients", "         ^"];

const THERE = "what ot.js does there, in words: otbench explain a.ots";

/* The hints to these lines of a port. */
const ofLines = (lines) => hints("conform", [], ["a.ots", "b"], `${TWICE} %%\r\n${lines}`);

test("of a refused instruction its line, and how to ask explain", () => {
  const line = "instruction 2 is line 5: take 0";
  for (const word of ["run", "check", "steps", "complete"]) {
    assert.deepEqual(hints(word, [], ["a.ots"], TWICE), [line, "what happened, in words: otbench explain a.ots"]);
    assert.deepEqual(hints(word, [], [], TWICE), [line, "what happened, in words: give the schedule to otbench explain"]);
  }
  for (const word of ["run", "check", "steps", "complete", "asm"]) assert.deepEqual(hints(word, [], ["a.ots"], "clients\n"), NO_NUMBER);
  assert.deepEqual(hints("conform", [], ["a.ots", "b"], "clients\n%%\n"), NO_NUMBER);
  assert.deepEqual(hints("explain", [], ["a.ots"], "clients\n"), NO_NUMBER.slice(1));
  assert.deepEqual(hints("explain", ["--json"], ["a.ots"], "clients\n"), NO_NUMBER);
  assert.deepEqual(hints("conform", ["--json"], ["a.ots"], "clients\n"), NO_NUMBER);
});

test("of a trace, a plan and a port's lines a key that is near another one", () => {
  const below = (word, flags, value) => hints(word, flags, ["a.json"], JSON.stringify(value)).at(-1);
  assert.equal(below("judge", [], { replicas: 1, start: [], evnts: [] }), 'the key "evnts"; nearest: events');
  const event = { replica: 0, kind: "read", seen: [0], lst: [] };
  assert.equal(below("explain", ["--trace"], { replicas: 1, start: [], events: [event] }), 'the key "lst" of event 0; nearest: list');
  assert.equal(below("threads", [], { clients: 1, wokers: 1, typing: [[]] }), 'the key "wokers"; nearest: workers');
  assert.equal(below("explain", ["--plan"], { clients: 1, workers: 1, typing: [[], [{ att: 0 }]] }), 'the key "att" of typing[1][0]; nearest: at');
  assert.match(below("judge", [], { replicas: 1, start: [], other: [], constructor: 1, ["events".repeat(20_000)]: 1 }), /^ {2}events: found nothing; /);
  assert.ok(ofLines('{"at":1,"document":"b","docment":1,"\u202e":2}\n').includes('the key "docment" of line 7; nearest: document'));
});

test("of a difference the line that led to its place, or the one that ot.js refuses", () => {
  assert.deepEqual(ofLines('{"at":1,"document":"b"}\n'), ["place 1 is behind line 3, instruction 0: edit 0", THERE]);
  assert.deepEqual(ofLines('{"at":1}\n{"at":2}\n{"at":3}\n'), ["place 2 is before line 5, instruction 2: take 0", THERE]);
  assert.deepEqual(ofLines('{"at":0,"clients":2}\n'), [THERE]);
});

test("of lines that are none of a port what may be wrong", () => {
  const [, none] = ofLines("");
  assert.match(none, /^the port has no line there; /);
  assert.equal(ofLines('{"at":1}\n')[1], "the port's lines end there");
  for (const line of ["hello", "{'at': 1}", '{"do":"edit"}', '{"at":"1"}', '[{"at":1}]', "\ufeff{\"at\":1}"]) assert.match(ofLines(`${line}\n`)[1], /^each line of a port is one JSON object /, line);
  for (const line of ['{"at":0,"do":"edit"}', '{"at":2}']) assert.match(ofLines(`${line}\n`)[1], /^at counts performed instructions, /, line);
  const all = '{"at":1}\n{"at":2}\n{"at":2,"stopped":"x"}\n';
  for (const more of ['{"at":3}\n', '{"at":2,"end":"not quiet"}\n{"at":3}\n']) assert.equal(ofLines(all + more)[1], "the port has more lines than the schedule has instructions", more);
  assert.deepEqual(ofLines(all), ["no line has a value that is counted: docs/FORMATS.md, What a port prints", THERE]);
});

test("of a port's line in the schedule that a line %% is missing", () => {
  const wanted = "wanted edit, take, deliver, ack, read, read-server or join";
  const below = (line, near = "") => [`  line 6, column ${line.search(/\S/) + 1}: found ${JSON.stringify(line.trim().split(" ")[0])}; ${wanted}${near}`, `  ${line}`, `  ${line.match(/^\s*/)[0]}^`];
  const said = "line 6 is a line of a port: conform wants a line '%%' in front of those";
  for (const line of ['{"at":1}', ' \t{"at":1}']) assert.deepEqual(hints("conform", [], ["a"], `${TWICE}${line}\n`), [...below(line), said]);
  assert.deepEqual(hints("conform", [], ["a", "b"], `${TWICE}{"at":1}\n%%\n{"at":1}\n`), [...below('{"at":1}'), said]);
  assert.deepEqual(hints("run", [], ["a"], `${TWICE}{"at":1}\n`), [...below('{"at":1}'), said]);
  assert.deepEqual(hints("conform", [], [], `${TWICE}edti 0 {}\n{"at":1}\n`), below("edti 0 {}", "; nearest: edit"));
});

const IMAGE = fs.readFileSync(`${TOP}examples/late-join.img`);
const PLAN = '{"typing":[[{"at":0,"insert":"a"}]],\n"clients":1,"workers":2}';
const KINDS = {
  image: [IMAGE, "this is an image, which run --image and dis read; in words: otbench explain --image a"],
  schedule: [` \r\n;clients\r\n\tclients\t1\n`, "this is a schedule's text, which run, check and asm read; in words: otbench explain a"],
  trace: ['{"events": [],"replicas":1}', "this is a trace, which judge reads; in words: otbench explain --trace a"],
  plan: [PLAN, "this is a plan, which threads reads; in words: otbench explain --plan a"],
  lines: ['{"do":"edit","at":1,"document":"\\"typing\\":"}\n', "these are lines of a port, which conform reads behind the schedule, or in a second file"],
};

test("of an input that is something else what it is, and how to ask explain", () => {
  for (const [kind, [input]] of Object.entries(KINDS)) assert.equal(kindOf(Buffer.from(input), null), kind);
  for (const other of ["", "clients", "; clients 1\n", "edit 0\nclients 1\n", "{}", '[{"at":1}]', " OTS2", '{"a":"at:"}', "\ufeffclients 1\n"]) assert.equal(kindOf(Buffer.from(other), null), null, other);
  const readers = [["run", [], "schedule"], ["explain", [], "schedule"], ["conform", [], "schedule"], ["debug", [], "schedule"], ["dis", [], "image"], ["run", ["--image"], "image"], ["judge", [], "trace"], ["explain", ["--trace"], "trace"], ["threads", [], "plan"], ["explain", ["--plan"], "plan"]];
  for (const [word, flags, reads] of readers)
    for (const [kind, [input, said]] of Object.entries(KINDS))
      if (kind !== reads) assert.deepEqual(hints(word, flags, ["a"], input), [said], `${word} ${flags} of a ${kind}`);
  assert.deepEqual(hints("run", [], ["-"], IMAGE), [KINDS.image[1].replace(/otbench explain.*/, "give the image to otbench explain --image")]);
  assert.deepEqual(hints("judge", [], ["a"], '{"at":1,"replicas":0}'), ["  replicas: found 0; wanted a number from 1 to 65"]); // what is awaited, with more keys
  assert.match(hints("debug", [], ["a.ots", "b"], `${TWICE}%%\n{"at":1}\n`)[0], /^the second file has commands: /);
  assert.deepEqual(hints("debug", [], [], `${TWICE}%%\nbogus\n`), []);
});

test("of images, traces and plans how to ask explain", () => {
  const cut = ["  clients: found 0 of 2 bytes"];
  for (const [word, flags] of [["dis", []], ["run", ["--image"]]]) assert.deepEqual(hints(word, flags, ["a.img"], "OTS2"), cut);
  assert.deepEqual(hints("explain", ["--image"], [], "OTS2"), []); // said already
  const stopped = serve(["asm"], Buffer.from(TWICE)).output;
  assert.deepEqual(hints("run", ["--image"], ["a.img"], stopped), ["what happened, in words: otbench explain --image a.img"]);
  assert.deepEqual(hints("judge", [], [], "{}"), ["  replicas: found nothing; wanted a number from 1 to 65"]);
  assert.deepEqual(hints("judge", [], ["a.json"], example("reversed.json")), ["what the verdict says, in words: otbench explain --trace a.json"]);
  assert.deepEqual(hints("threads", [], ["a.json"], PLAN.replace('"workers":2', '"workers":9')), ["  workers: found 9; wanted a number from 1 to 8"]);
});

test("of words that are refused what may be meant", () => {
  fs.writeFileSync(path.join(folder, "an.img"), IMAGE);
  const at = (name) => path.join(folder, name);
  const subcommands = "the subcommands are run, check, debug, asm, dis, judge, steps, explain, conform, threads, complete, generate, view, edit, merge, port, completion, version, help";
  const rows = [
    [["generate", "5"], "a number stands behind its option: otbench generate --instructions 5"],
    [["generate", "--open", "-n", "5"], "a number stands behind its option: otbench generate --instructions 5"],
    [["generate", "--seed", "7", "new.ots"], "generate reads no file; to write one: otbench generate > new.ots"],
    [["generate", "--seed", "-1"], "--seed takes one to nine digits, without a sign"],
    [["generate", "--clients", "-1"], "--clients takes 1 to 64, without a sign"],
    [["generate", "--clients", "3", "--present", "-1"], "--present takes 0 to the number of clients, without a sign"],
    [["generate", "--instructions", "-1"], "--instructions takes 0 to 100000, without a sign"],
    [["generate", "--edits", "-1", "--every"], "--edits takes 0 to 6, without a sign"],
    [["generate", "--every", "--part", "-1/2"], "--part takes two numbers, I from 1 to N, without a sign"],
    [["generate", "--edits", "-1"]],
    [["generate", "--start", "-x"], "a text that begins with '-' stands behind '=': --start=-x"],
    [["generate", "--seed"]],
    [["generate", "--bogus"]],
    [["generate", "5", "--help"]],
    [["check", "--image", at("an.img")], "--image is an option of run and explain; dis prints an image's text"],
    [["run", "--trace", "--documents"], "--documents is an option of steps"],
    [["dis", "--image", at("an.img")], "dis needs no --image"],
    [["judge", "--trace"], "judge needs no --trace"],
    [["threads", "--plan"], "threads needs no --plan"],
    [["threads", "--trace"], "--trace is an option of explain"],
    [["run", "--image", "--imgae"]],
    [["check", "--output"], "the options of check are --all --json --help"],
    [["complete", "--json"], "--json is an option of run, check, judge, explain and conform"],
    [["asm", "-o"], "the options of asm are --help"],
    [["run", "a", "b"]],
    [["run", "--image=a"]],
    [["check", "--image=a"], "--image is an option of run and explain; dis prints an image's text"],
    [["runn"]],
    [["nosuch"], subcommands],
    [["--nosuch"]],
    [[]],
    [[at("an.img")], `a command stands in front of a file: otbench run --image ${quoted(at("an.img"))}`],
    [[at("twice.ots"), "run"], `a command stands in front of a file: otbench run ${quoted(at("twice.ots"))}`],
  ];
  for (const [words, said] of rows) {
    assert.equal(serve(words, "").status, 2, words.join(" "));
    assert.deepEqual(meant(words, { name: "otbench", ask: serve }), said ? [said] : [], words.join(" "));
  }
  assert.equal(similarTo("runn", serve), "a similar subcommand exists: 'run'");
  assert.equal(similarTo("nosuch", serve), subcommands);
});

test("names of files are quoted for the shell", { skip: spawnSync("bash", ["-c", "true"]).status !== 0 && "no bash" }, () => {
  const names = ["a.ots", "a b", "it's", "$(echo x)`x`", "a\nb", "a\u202eb\x1b[2J", "é😀", "", "\\'\n", "*?[]", "~", "#x", "\u{e0001}", "a\u2028b"];
  for (const name of names) assert.equal(spawnSync("bash", ["-c", `printf %s ${quoted(name)}`], { encoding: "utf8", env: { ...process.env, LC_ALL: "C.UTF-8" } }).stdout, name, quoted(name));
  assert.equal(fileWord("-x y"), "'./-x y'");
  assert.deepEqual(hints("run", [], ["my session.ots"], TWICE)[1], "what happened, in words: otbench explain 'my session.ots'");
  assert.equal(meant(["generate", "a b"], { name: "'./my otbench'", ask: serve })[0], "generate reads no file; to write one: './my otbench' generate > 'a b'");
  for (const long of ["x".repeat(100_000), `-${"x".repeat(100_000)}`]) assert.deepEqual(meant(["generate", long], { name: "otbench", ask: serve }), []);
});

test("of a recording that is cut where, with each status", () => {
  const cut = 'clients 1\n; cut: "ann, event 9: ack"\n';
  for (const word of ["run", "check", "complete"]) {
    assert.deepEqual(hints(word, [], ["a b"], cut, 0), ["'a b' ends before its logs: ann, event 9: ack"]);
    assert.deepEqual(hints(word, [], [], cut.replace("ann", "\\u001bann"), 0), ['the schedule ends before its logs: "\\u001bann, event 9: ack"']);
  }
  assert.equal(hints("run", [], ["a"], `${TWICE}; cut: "x"\n`).at(-1), "a ends before its logs: x");
  for (const word of ["explain", "asm", "steps"]) assert.deepEqual(hints(word, [], ["a"], cut, 0), []);
  assert.deepEqual(hints("check", [], ["a"], 'clients 1\nread 0\n; cut: x\n', 0), []);
});

test("of lines for some instructions, which conform, where they end, if that is before the last instruction", () => {
  const schedule = 'clients 1\n; a note\nedit 0 ["a"]\n\n take  0\nack 0\n';
  const ofSparse = (lines, flags = [], text = schedule, wanted = 0) => hints("conform", ["--sparse", ...flags], ["a.ots", "b"], `${text} %%\r\n${lines}`, wanted);
  const told = "the port's lines end at place 1, before line 5, instruction 1: take 0; nothing is compared from there on";
  for (const lines of ['{"at":1,"document":"a"}', '{"at":0,"clients":1}\n{"at":1,"document":"a"}\r\n \t\r\n\n']) for (const flags of [[], ["--json"]]) assert.deepEqual(ofSparse(lines, flags), [told]);
  for (const lines of ['{"at":3,"revision":1}\n', '{"at":3,"end":"quiet"}\n']) assert.deepEqual(ofSparse(lines), [], lines);
  assert.deepEqual(ofSparse('{"at":1,"document":"a"}\n', [], `${schedule}; cut: "x"\n`, 1), [told]);
  const refused = TWICE.replace("take 0\n", "");
  assert.deepEqual(hints("conform", [], ["a.ots", "b"], `${refused}%%\n{"at":1,"document":"a"}\n{"at":2}\n`, 0), []);
  assert.ok(ofSparse('{"at":1,"document":"b"}\n', [], schedule, 1).every((line) => !line.includes("lines end")));
});

test("the same of many sessions: of the first one, and how many more there are", () => {
  const schedule = 'clients 1\nedit 0 ["a"]\ntake 0\n';
  const [early, whole] = ['{"at":1,"document":"a"}', '{"at":2,"revision":1}'].map((line) => `${schedule}%%\n${line}\n%%\n`);
  const ofMany = (sessions, flags = []) => hints("conform", ["--sparse", "--many", ...flags], ["a"], sessions.join(""), 0);
  const told = "the port's lines end at place 1, before line 3, instruction 1: take 0; nothing is compared from there on";
  assert.deepEqual(ofMany([whole, whole]), []);
  for (const flags of [[], ["--json"], ["--all"]]) assert.deepEqual(ofMany([whole, early], flags), [`session 2: ${told}`]);
  assert.deepEqual(ofMany([early, whole, early]), [`session 1: ${told}`, "the lines of 1 more session end before the last instruction, too"]);
  assert.deepEqual(ofMany([early, early, early])[1], "the lines of 2 more sessions end before the last instruction, too");
});

/* What a terminal shows of the command, where nothing is typed but the key that ends the input. */
function shown(...words) {
  const script = "import pty, sys; pty.spawn(sys.argv[1:])";
  const { stdout } = spawnSync("python3", ["-c", script, process.execPath, COMMAND, ...words], { input: "\x04", encoding: "utf8", cwd: folder, timeout: 60_000 });
  return stdout.replaceAll("\r\n", "\n");
}

test("what is awaited is said", { skip: !hasPty && "no pty of Python's" }, () => {
  const rows = [[["run"], "SCHEDULE"], [["run", "--image"], "IMAGE"], [["explain", "--trace"], "TRACE"], [["explain", "--image"], "IMAGE"], [["judge"], "TRACE"], [["conform"], "SCHEDULE, a line '%%', LINES"], [["conform", "-", "lines.jsonl"], "SCHEDULE"]];
  for (const [words, awaited] of rows) assert.ok(shown(...words).includes(`otbench: reading ${awaited} from the terminal; Ctrl-D ends it\n`), words.join(" "));
  assert.doesNotMatch(shown("run", "twice.ots"), /reading/);
});

test("a terminal is shown what it would obey by its number", { skip: !hasPty && "no pty of Python's" }, () => {
  fs.writeFileSync(`${folder}/bidi.ots`, 'clients 1\nstart "a\u202eb\u009b\u007f\u00e9"\n');
  assert.match(shown("run", "bidi.ots"), /^client 0 rev 0 synchronized "a\\u202eb\\u009b\\u007f\u00e9"\n/);
  assert.match(shown("explain", "bidi.ots"), /every document is "a\\u202eb\\u009b\\u007f\u00e9"\n/);
  const { stdout } = spawnSync(process.execPath, [COMMAND, "run", "bidi.ots"], { encoding: "utf8", cwd: folder });
  assert.match(stdout, /^client 0 rev 0 synchronized "a\u202eb\u009b\u007f\u00e9"\n/);
});

test("on a terminal, and in a pipe", { skip: !hasPty && "no pty of Python's" }, () => {
  const rows = [
    [["run", "twice.ots"], /^stopped at 2: LinkEmpty\n[^]*\notbench: instruction 2 is line 5: take 0\notbench: what happened, in words: otbench explain twice\.ots\n$/],
    [["conform", "twice.ots", "lines.jsonl"], /^differs at 1: edit 0: client 0 document\n[^]*\notbench: place 1 is behind line 3, instruction 0: edit 0\notbench: what ot\.js does there/],
    [["twice.ots"], /^error: unrecognized subcommand 'twice\.ots'\n[^]*\notbench: a command stands in front of a file: otbench run twice\.ots\n$/],
    [["generate", "5"], /^error: unexpected argument '5' found\n[^]*\notbench: a number stands behind its option: otbench generate --instructions 5\n$/],
    [["check", "--image", "twice.ots"], /^error: unexpected argument '--image' found\n[^]*\notbench: --image is an option of run and explain; /],
    [["run", "--imgae", "nosuch"], /^error: unexpected argument '--imgae' found\n\n {2}tip: a similar argument exists: '--image'\n/],
    [["help", "runn"], /^error: unrecognized subcommand 'runn'\n[^]*\notbench: a similar subcommand exists: 'run'\n$/],
  ];
  for (const [words, said] of rows) {
    assert.match(shown(...words), said);
    const { stdout, stderr } = spawnSync(process.execPath, [COMMAND, ...words], { encoding: "utf8", cwd: folder });
    assert.match(stdout + stderr, said);
  }
  for (const words of [["nosuch"], ["a".repeat(5000)]]) assert.doesNotMatch(shown(...words), /in front of a file/);
});
