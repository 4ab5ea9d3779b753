// ot.js' compose of two operations, of which the second one is of the document that the first one makes.

import { add, lengthOf, Rest } from "./components.mjs";

/**
 * @typedef {import("./components.mjs").Component} Component
 * @typedef {{ place: number, one: Component | null, other: Component | null, made: Component | null }} Step what an iteration of the loop takes of both operations, and
 *   what it adds to the result; the place counts the characters before it in the document between the two
 */

/** @param {Component[]} first @param {Component[]} second @param {((step: Step) => void) | null} [seen] is given each step @returns {Component[]} */
export function compose(first, second, seen = null) {
  const [one, other] = [new Rest(first), new Rest(second)];
  const operation = [];
  for (let place = 0; one.head !== undefined || other.head !== undefined; ) {
    if (one.head < 0) {
      const part = one.take();
      add(operation, part);
      seen?.({ place, one: part, other: null, made: part });
    } else if (typeof other.head === "string") {
      const text = other.take();
      add(operation, text);
      seen?.({ place, one: null, other: text, made: text });
    } else {
      if (one.head === undefined || other.head === undefined) throw new Error("the second operation is of another document than the first one makes");
      const part = one.takeAtMost(Math.abs(other.head));
      const count = lengthOf(part);
      const otherPart = other.takeAtMost(count);
      const made = otherPart > 0 ? part : typeof part === "string" ? null : otherPart;
      if (made !== null) add(operation, made);
      seen?.({ place, one: part, other: otherPart, made });
      place += count;
    }
  }
  return operation;
}
