// Damaged links and files: each is opened, or refused with a message. OTBENCH_DAMAGED says how many are tried.

import assert from "node:assert/strict";
import { test } from "node:test";
import { chance } from "../../recorder/test/live_session.js";
import { Bench } from "../src/bench.mjs";
import { takeIn } from "../src/intake.mjs";
import { linkTo, openLink } from "../src/linking.mjs";
import { traceTable } from "../src/trace.mjs";
import { damaged, files } from "./damaging.mjs";
import { drawn, isOwn } from "./drawing.mjs";
import { DirectEngine, skip } from "./engines.mjs";
import { example } from "./sessions.mjs";

const COUNT = Number(process.env.OTBENCH_DAMAGED ?? 60);

async function opened(bench, state) {
  await bench.settled();
  const { session, fault, notice, text } = bench.state;
  assert.ok(notice !== "" || fault !== null || text !== state.text || bench.state.port !== state.port || session === state.session, "it is opened, or there is a message");
  if (session) drawn(session, { names: bench.state.outline.names });
}

function benchOf() {
  const bench = new Bench(
    () => {},
    async () => {},
  );
  bench.use(new DirectEngine());
  return bench;
}

test("damaged links", { skip }, async () => {
  const random = chance(3);
  const bench = benchOf();
  bench.dispatch({ do: "open", text: `; client 0 is Ann\n${example("weak-order")}`, port: ["{}"], title: "a" });
  await bench.settled();
  const link = await linkTo(bench);
  for (let k = 0; k < COUNT * 5; k++) {
    const hash = new TextDecoder().decode(damaged(Buffer.from(link), random));
    const before = bench.state;
    try {
      if (await openLink(bench, hash)) await opened(bench, before);
      else assert.match(hash, /^[;&]*(at=\d{1,9})?[;&]*$/, "a place alone");
    } catch (fault) {
      assert.match(fault.message, /^its? (has|image|port) .*[a-zA-Z`"]/s, hash);
      assert.equal(bench.state.text, before.text);
    }
  }
});

test("damaged files", { skip }, async () => {
  const random = chance(4);
  const bench = benchOf();
  for (let k = 0; k < COUNT; k++) {
    const [name, bytes] = files[random(files.length)];
    bench.dispatch({ do: "notice", notice: "" });
    const before = bench.state;
    const judged = await takeIn(bench, damaged(bytes, random), name);
    if (judged) isOwn(traceTable(judged.trace, judged.verdict));
    else await opened(bench, before);
  }
});
