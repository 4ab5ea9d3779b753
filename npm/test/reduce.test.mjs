// Reducing alone: what is left of a session.

import assert from "node:assert/strict";
import { test } from "node:test";
import { bugs } from "../../conformance/faults.js";
import { comparable, faultyPort, firstDifference } from "../../conformance/lines.js";
import { reduced } from "../../common/reduce.mjs";
import { valuesOf, written } from "../../common/schedule.mjs";
import { caseOf } from "../../ports/reducing.mjs";

/* What is left of a session over which ot.js with a fault differs. */
async function leftOf(schedule, fault) {
  const port = faultyPort(bugs[fault]);
  const neededOf = (values) => firstDifference(comparable(written(values)), port);
  const firstShown = async (candidates) => {
    let number = 0;
    for (const [values] of candidates) {
      const needed = neededOf(values);
      if (needed !== null) return { number, sessions: [values], needed };
      number++;
    }
    return null;
  };
  const values = valuesOf(schedule);
  return written((await reduced([values], neededOf(values), firstShown, () => false))[0]);
}

test("characters of the start that several edits pass are left out together", async () => {
  const schedule = 'clients 1\nstart "aaaa"\nedit 0 [4]\nedit 0 [4,"a"]\nedit 0 [-4,1]\n';
  assert.equal(await leftOf(schedule, "order"), 'clients 1\nstart "a"\nedit 0 [1]\nedit 0 [1,"a"]\nedit 0 [-1,1]\n');
});

/* What is noted of a session of ten reads that fails whatever is left of it, where each try holds this process up for so many milliseconds. */
async function notesWhereEachTakes(milliseconds) {
  const failing = (schedule) => ({ schedule, process: { performed: [schedule], count: 1 }, fails: true, isEnded: false, isRefused: false, answer: { verdict: "differs", at: 1, key: "document" }, took: 0 });
  const judge = {
    jobs: 2,
    isKept: false,
    isProcess: false,
    pace: { found: () => 1000 },
    async *verdicts(candidates) {
      for (const [schedule] of candidates) {
        for (const end = performance.now() + milliseconds; performance.now() < end; ) continue;
        yield failing(schedule);
      }
    },
  };
  const words = { more: { reduceSeconds: "--reduce-seconds" } };
  const first = failing(`clients 1\n${"read 0\n".repeat(10)}`);
  const { notes } = await caseOf({ judge, secondsToReduce: () => 1, words, spaces: [] }, first, () => true);
  return notes;
}

test("where reducing ends by its time a line says so, even if this process was held up when it was over", async () => {
  assert.deepEqual(await notesWhereEachTakes(1100), ["the time for reducing was over; --reduce-seconds gives it more"]);
  assert.deepEqual(await notesWhereEachTakes(0), []);
});
