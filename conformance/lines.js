/* The lines that `otbench steps` prints of a schedule, by ot.js itself; and where a port parts from ot.js. */

import { drive as driveUnits } from "../examples/port/drive.js";
import { makePort } from "../oracle/otjs.js";
import { drive, inUnits } from "../oracle/scalars.js";

const otjs = makePort();

const KEYS = "at clients present start do client edit stopped revision state outstanding buffer sent applied appended document end".split(" ");
const STATE = ["revision", "state", "outstanding", "buffer"];
const WITH_DOCUMENT = ["read", "join", "read-server"];

/* The line of `steps`: its keys in their order, without those that its instruction's line does not have. */
function asStep(line) {
  const values = JSON.parse(line);
  const dropped = values.do === "read" ? STATE : WITH_DOCUMENT.includes(values.do) ? [] : ["document"];
  const shown = KEYS.filter((key) => key in values && values[key] !== null && !dropped.includes(key));
  return JSON.stringify(Object.fromEntries(shown.map((key) => [key, values[key]])));
}

export const stepsOf = (text) => drive(text, otjs).map((line) => asStep(line) + "\n").join("");

/* A schedule in UTF-16 units, to be compared: its text, and the lines of ot.js. */
export const comparableUnits = (given) => ({ given, ours: driveUnits(given, otjs) });

/* The same of one in scalars. */
export const comparable = (text) => comparableUnits(inUnits(text));

/* The place of the first line that a port prints otherwise than ot.js, or null. */
export function firstDifference({ given, ours }, port) {
  const theirs = driveUnits(given, port);
  const index = ours.findIndex((line, number) => line !== theirs[number]);
  return index < 0 ? null : JSON.parse(ours[index]).at;
}

/* ot.js with a fault of faults.js. */
export function faultyPort(plant) {
  const port = makePort();
  plant(port);
  return port;
}
