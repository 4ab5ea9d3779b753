/*
 * Tests of a port of ot.js, in the process of the test or in a worker:
 *
 *     test("the port is ot.js", () => conforms({ TextOperation, Client, Server }));
 *
 *     sessions ── drive ──▶ the port's lines ── conform ──▶ conforms, or the first difference ── reduced ──▶ an AssertionError
 */

import { conforming } from "./conforming.mjs";
import { driverOf } from "./driving.mjs";
import { conformsOptions, driveOptions } from "./options.mjs";
import { conform, conformMany, generate, steps } from "../npm/otbench.mjs";
import { checkPort } from "./port.mjs";
import { corpus, randomBy } from "./sessions.mjs";
import { triedInWorker } from "./watching.mjs";

export { LAW_NAMES as laws } from "./laws.mjs";
export { corpus };

/** Sessions made at random. */
export const random = (options = {}) => randomBy(options, generate);

/* What a subject prints, whose parts are looked at before it runs. */
async function drivenBy(subject, schedule, options) {
  checkPort(subject, options);
  const { lines, trouble } = await driverOf(subject, options, steps).perform(schedule, {});
  if (trouble !== undefined) throw new Error(trouble);
  return lines;
}

/** Performs a schedule on a port, and gives its lines, in scalars. */
export const drive = async (subject, schedule, options = {}) => drivenBy(subject, schedule, driveOptions("drive", options));

/** Compares a port, or what a driver makes of it, over one schedule with ot.js. */
export const compare = async (subject, schedule, options = {}) => conform(schedule, await drivenBy(subject, schedule, driveOptions("compare", options)));

/** Tries a port; the promise is rejected at the first session that fails. A port that may hang is given by its module's URL. */
export async function conforms(subject, options = {}) {
  if (subject instanceof URL) return triedInWorker(subject, conformsOptions(options));
  return conforming(subject, conformsOptions(options), { conform, conformMany, generate, steps });
}
