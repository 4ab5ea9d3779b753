// The package: made, installed into an empty folder without network, and used as its README says.

import assert from "node:assert/strict";
import { spawnSync } from "node:child_process";
import fs from "node:fs";
import path from "node:path";
import { before, test } from "node:test";
import { pack, stage } from "../release/stage.mjs";
import { temporaryFolder, TOP } from "./files.mjs";

const folder = temporaryFolder();
const project = path.join(folder, "project");
const installed = path.join(project, "node_modules/otbench");
const RELEASE = { version: "0.1.0", commit: "0123456789abcdef", proved: false };

/* A command in the project. Nothing is fetched, and a test runner in it is one of its own. */
function run(command, ...words) {
  const { NODE_TEST_CONTEXT, OTBENCH, ...env } = process.env;
  env.npm_config_offline = "true";
  return spawnSync(command, words, { cwd: project, env, encoding: "utf8" });
}

before(() => {
  fs.mkdirSync(project);
  fs.writeFileSync(path.join(project, "package.json"), '{ "private": true, "type": "module" }\n');
  stage(path.join(folder, "staged"), fs.readFileSync(`${TOP}engine/out/otbench.wasm`), RELEASE);
  const archive = pack(path.join(folder, "staged"), folder);
  assert.equal(path.basename(archive), `otbench-${RELEASE.version}.tgz`);
  assert.ok(fs.statSync(archive).size < 1_050_000);
  const { status, stderr } = run("npm", "install", "--offline", "--no-audit", "--no-fund", archive);
  assert.equal(status, 0, stderr);
});

test("it has no dependencies, and no tests or tools of the repository", () => {
  const { dependencies, version } = JSON.parse(fs.readFileSync(path.join(installed, "package.json")));
  assert.deepEqual([dependencies, version], [undefined, RELEASE.version]);
  assert.deepEqual(fs.readdirSync(path.join(project, "node_modules")).filter((name) => !name.startsWith(".")), ["otbench"]);
  const files = fs.readdirSync(installed, { recursive: true });
  assert.deepEqual(files.filter((file) => /(^|\/)(test|release|__pycache__)(\/|$)/.test(file)), []);
  for (const file of ["LICENSE", "README.md", "CHANGELOG.md", "docs/FORMATS.md"]) assert.ok(files.includes(file), file);
});

/* The commands of the README's blocks, and what each prints. */
function story() {
  const blocks = [...fs.readFileSync(path.join(installed, "README.md"), "utf8").matchAll(/^```console\n([^]*?)^```$/gm)];
  const lines = blocks.flatMap(([, block]) => block.trimEnd().split("\n"));
  const commands = [];
  for (const line of lines) {
    if (line.startsWith("$ ")) commands.push({ command: line.slice(2), printed: "" });
    else commands.at(-1).printed += `${line}\n`;
  }
  return commands;
}

test("the commands of its README print what stands there", () => {
  const commands = story();
  assert.ok(commands.length >= 7);
  const whole = path.join(project, "whole.txt"); // what `grep` leaves out
  const script = commands.map(({ command }) => `${command.replace(/\| grep /, `| tee '${whole}' $&`)}\necho "[$?]"\n`).join("");
  const { stdout, stderr } = run("sh", "-c", script);
  const expected = commands.map(({ command, printed }) => `${printed}[${/^npx otbench conform/.test(command) ? 1 : 0}]\n`).join("");
  const anyCorpus = (text) => text.replace(/^corpus: \d+/m, "corpus: N");
  assert.equal(anyCorpus(stdout), anyCorpus(expected), stderr + fs.readFileSync(whole, "utf8"));
  assert.equal(stderr, "otbench: place 7 is behind line 11, instruction 6: deliver 0\notbench: what ot.js does there, in words: otbench explain session.ots\n");
  const page = fs.readFileSync(path.join(project, "session.html"), "utf8");
  assert.ok(page.startsWith("<!") && page.includes('"buffer":["a",-1,1]') && page.includes("AwaitingWithBuffer.applyServer"));
});

test("recorded logs become a schedule that runs, and a page", () => {
  fs.writeFileSync(
    path.join(project, "record.mjs"),
    `import { appendFileSync } from "node:fs";
     import { recordClient, recordServer } from "otbench/recorder";
     import { makePort } from "./node_modules/otbench/oracle/otjs.js";
     const { Client, Server, TextOperation } = makePort();
     const [client, server] = [new Client(0), new Server("")];
     let [text, message] = [""];
     client.sendOperation = (revision, operation) => (message = [revision, operation]);
     client.applyOperation = (operation) => (text = operation.apply(text));
     recordClient(client, { who: "ann", document: () => text, write: (line) => appendFileSync("ann.log", line + "\\n") });
     recordServer(server, { write: (line) => appendFileSync("server.log", line + "\\n") });
     const edit = new TextOperation().insert("a");
     text = edit.apply(text);
     client.applyClient(edit);
     server.receiveOperation(...message);
     client.serverAck();\n`,
  );
  const script = `node record.mjs
    npx otbench merge server.log ann.log | npx otbench run
    npx otbench merge server.log ann.log | npx otbench conform | head -1
    npx otbench merge server.log ann.log | npx otbench view | grep -c '"do":"edit"'`;
  const { stdout, stderr } = run("sh", "-c", script);
  assert.equal(stdout, 'client 0 rev 1 synchronized "a"\nserver rev 1 "a"\nquiet\nconforms\n2\n', stderr);
});

test("the recorder, by require", () => {
  const { stdout, stderr } = run(process.execPath, "--input-type=commonjs", "-e", 'console.log(Object.keys(require("otbench/recorder")).join())');
  assert.equal(stdout, "recordClient,recordServer\n", stderr);
});

test("a port in the test suite of its project, and the example of it", () => {
  fs.writeFileSync(path.join(project, "port.mjs"), 'import { makePort } from "./node_modules/otbench/oracle/otjs.js";\nexport const { TextOperation, Client, Server } = makePort();\n');
  fs.writeFileSync(
    path.join(project, "port.test.js"),
    `import { test } from "node:test";
     import { conforms } from "otbench/testing";
     import { TextOperation, Client, Server } from "./port.mjs";
     test("the port is ot.js", () => conforms({ TextOperation, Client, Server }, { sessions: 5 }));
     test("this one is not", () => conforms({ TextOperation, Client: class extends Client { serverAck() {} }, Server }));\n`,
  );
  const { status, stdout } = run(process.execPath, "--test", "--test-reporter=tap", "port.test.js");
  assert.equal(status, 1);
  assert.match(stdout, /^ *ok 1 - the port is ot\.js$/m);
  assert.match(stdout, /^ *not ok 2 - this one is not$[^]*differs at 3: ack 0: client 0 revision/m);
  assert.equal(run(process.execPath, "--test", path.join(installed, "examples/testing/port.test.mjs")).status, 0);
});

test("the functions, the worker, the types and the engine by their names", () => {
  const script = `import { run } from "otbench"; import { check, close } from "otbench/worker"; import fs from "node:fs";
    console.log(run("clients 1\\n").quiet, (await check("clients 1\\n")).quiet);
    const wasm = import.meta.resolve("otbench/otbench.wasm");
    console.log(fs.readFileSync(new URL(wasm)).subarray(1, 4).toString()); close();`;
  const { stdout, stderr } = run(process.execPath, "--input-type=module", "-e", script);
  assert.equal(stdout, "true true\nasm\n", stderr);
  const { exports } = JSON.parse(fs.readFileSync(path.join(installed, "package.json")));
  for (const target of Object.values(exports).flatMap((it) => (typeof it === "string" ? it : Object.values(it))))
    assert.ok(fs.existsSync(path.join(installed, target)), target);
});

test("the types, by TypeScript's compiler where it is there", { skip: spawnSync("tsc", ["--version"]).status !== 0 && "no compiler of TypeScript" }, () => {
  fs.writeFileSync(
    path.join(project, "use.ts"),
    `import { run, conform } from "otbench";
     import { conforms } from "otbench/testing";
     import type { Port } from "otbench/testing";
     import { recordClient, recordServer } from "otbench/recorder";
     declare const port: Port;
     export const all: Promise<unknown> = conforms(port, { sessions: 2 }) as Promise<unknown>;
     export const quiet: boolean = run("clients 1\\n").quiet && conform("clients 1\\n", []).conforms;
     const client = { revision: 0, state: {}, applyClient() {}, applyServer() {}, serverAck() {}, sendOperation() {}, applyOperation() {} };
     recordClient(client, { who: "ann", document: () => "", write: (line: string) => void line.length });
     recordServer({ document: "", operations: [], receiveOperation() {} }, { write() {} });
     // @ts-expect-error: a client's own text is wanted
     recordClient(client, { who: "ann", write() {} });\n`,
  );
  const { status, stdout } = run("tsc", "--noEmit", "--strict", "--target", "es2022", "--module", "node16", "--moduleResolution", "node16", "use.ts");
  assert.equal(status, 0, stdout);
});

test("the version", () => {
  assert.deepEqual(run("npx", "otbench", "--version").stdout, "otbench 0.1.0 (commit 0123456789abcdef, not proved)\n");
});
