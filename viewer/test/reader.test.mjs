// What a file or a paste is.

import assert from "node:assert/strict";
import fs from "node:fs";
import { test } from "node:test";
import { kindOf, scheduleOf, splitSchedule, textOfSchedule } from "../src/reader.mjs";
import { example, linesOf } from "./sessions.mjs";

const file = (name) => new Uint8Array(fs.readFileSync(new URL(`../../examples/${name}`, import.meta.url)));
const bytes = (text) => new TextEncoder().encode(text);

test("what is what", () => {
  const rows = [
    [file("weak-order.ots"), "schedule"],
    [file("late-join.img"), "image"],
    [file("reversed.json"), "trace"],
    [file("two-typists.json"), "plan"],
    [bytes(linesOf(example("weak-order")).join("\n")), "lines"],
    [bytes('{"at":1}\n'), "lines"],
    [bytes('{"who":"ann","n":0,"do":"open"}\n'), "log"],
    [bytes("{broken"), "bad"],
    [bytes('{"name":"otbench","version":"1"}'), "bad"],
    [bytes('{"at":"noon"}\n{"at":1}\n'), "bad"],
    [bytes("; a comment\n\nclients 2\nwhat\n"), "schedule"],
    [bytes("\ufeffclients 2\n"), "schedule"],
    [bytes("<script>alert(1)</script>"), "other"],
    [bytes("# A page\n\nclients 2\n"), "other"],
    [bytes(" \n"), "bad"],
    [bytes(""), "bad"],
    [new Uint8Array([0xff, 0xfe, 0x41, 0]), "bad"],
  ];
  for (const [input, kind] of rows) assert.equal(kindOf(input).kind, kind);
});

test("a schedule with a port's lines behind it", () => {
  assert.deepEqual(splitSchedule("clients 1\n %% \r\na\n\nb\n"), { schedule: "clients 1\n", port: ["a", "b"] });
  assert.deepEqual(splitSchedule("\ufeffclients 1\nread 0"), { schedule: "clients 1\nread 0", port: null });
});

test("the schedule that lines tell", () => {
  for (const name of ["weak-order", "late-join", "one-client", "shopping-list"]) {
    const canonical = example(name).split("\n").filter((line) => !line.startsWith(";")).join("\n");
    assert.equal(textOfSchedule(scheduleOf(linesOf(example(name)))), canonical, name);
  }
  const stopped = linesOf('clients 2\nedit 0 ["a"]\ntake 0\ndeliver 0\n');
  assert.equal(textOfSchedule(scheduleOf(stopped)), 'clients 2\nedit 0 ["a"]\ntake 0\ndeliver 0\n');
  assert.equal(scheduleOf(['{"at":1}']), null);
  assert.equal(scheduleOf(["x"]), null);
  assert.equal(scheduleOf(['{"at":0,"clients":1,"present":"1\\nread 0","start":""}']), null);
});

test("lines tell no more than instructions", () => {
  const lines = ['{"at":0,"clients":1,"present":1,"start":""}', '{"at":1,"do":"read 0\\nedit","client":0}'];
  assert.equal(textOfSchedule(scheduleOf(lines)), "clients 1\n");
});
