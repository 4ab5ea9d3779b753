// ot.js' transform of two operations of one document, with its ties: places at which both insert. There the text of the first argument goes first.
// `steps` says what a method makes in the end; this says what it makes on the way. Lengths and places count Unicode scalars.

import { add, lengthOf, Rest } from "./components.mjs";

/**
 * @typedef {import("./components.mjs").Component} Component
 * @typedef {import("./components.mjs").Operation} Operation
 * @typedef {{ place: number, one: Component | null, other: Component | null, first: Component | null, second: Component | null, isTie: boolean }} Step what an iteration of
 *   the loop takes of both operations, and what it adds to what becomes of each; the place counts the characters before it in the document of both
 */

/**
 * @param {Operation} first @param {Operation} second of one document @param {((step: Step) => void) | null} [seen] is given each step
 * @returns {{ first: Operation, second: Operation, ties: { place: number, first: string, second: string }[] }} what becomes of each, and where both insert
 */
export function transform(first, second, seen = null) {
  const [one, other] = [new Rest(first), new Rest(second)];
  const made = { first: [], second: [], ties: [] };
  for (let place = 0; one.head !== undefined || other.head !== undefined; ) {
    const [isInsert, isOtherInsert] = [one, other].map(({ head }) => typeof head === "string");
    if (isInsert && isOtherInsert) made.ties.push({ place, first: one.head, second: other.head });
    if (isInsert) {
      const text = one.take();
      const length = lengthOf(text);
      add(made.second, length);
      add(made.first, text);
      seen?.({ place, one: text, other: null, first: text, second: length, isTie: isOtherInsert });
    } else if (isOtherInsert) {
      const text = other.take();
      const length = lengthOf(text);
      add(made.first, length);
      add(made.second, text);
      seen?.({ place, one: null, other: text, first: length, second: text, isTie: false });
    } else {
      if (one.head === undefined || other.head === undefined) throw new Error("the operations are of two documents");
      const count = Math.min(Math.abs(one.head), Math.abs(other.head));
      const [part, otherPart] = [one.takeAtMost(count), other.takeAtMost(count)];
      if (otherPart > 0) add(made.first, part);
      if (part > 0) add(made.second, otherPart);
      seen?.({ place, one: part, other: otherPart, first: otherPart > 0 ? part : null, second: part > 0 ? otherPart : null, isTie: false });
      place += count;
    }
  }
  return made;
}
