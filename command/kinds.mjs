/* What an input is, where the command reads something else: told by its first bytes, its first word, or the keys of its JSON. */

import { textOf } from "../common/text.mjs";

const KEYS = { workers: "plan", typing: "plan", replicas: "trace", events: "trace", at: "lines" };
const KEY = /"(workers|typing|replicas|events|at)"[ \t]*:/;
const OWN_KEY = { plan: /"(?:workers|typing)"[ \t]*:/, trace: /"(?:replicas|events)"[ \t]*:/ };

const SCHEDULE = /^(?:[ \t\r]*(?:;[^\n]*)?\n)*[ \t]*clients[ \t]/;

const MOST = 1 << 28; // bytes that are looked at

/**
 * What an input is; what is read where it may be that.
 * @param {Uint8Array} input
 * @param {string | null} reads what the command reads: schedule, image, trace or plan
 * @returns {string | null} one of these, lines (of a port), or null where it cannot be told
 */
export function kindOf(input, reads) {
  const text = textOf(input.subarray(0, MOST));
  if (/^OTS[12]/.test(text)) return "image";
  if (SCHEDULE.test(text)) return "schedule";
  if (!/^\s*\{/.test(text)) return null;
  if (OWN_KEY[reads]?.test(text)) return reads;
  return KEYS[KEY.exec(text)?.[1]] ?? null;
}
