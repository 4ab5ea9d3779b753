/* Operations of ot.js, whose lengths are UTF-16 units, with lengths in Unicode scalar values. */

/* What a schedule has no words for. */
export class Unwritable extends Error {}

const isHigh = (unit) => unit >= 0xd800 && unit < 0xdc00;
const isLow = (unit) => unit >= 0xdc00 && unit < 0xe000;
const cutsPair = (text, place) => isHigh(text.charCodeAt(place - 1)) && isLow(text.charCodeAt(place));

/* Whether each surrogate of a text stands in a pair. */
export function isWellFormed(text) {
  return !/[\ud800-\udbff](?![\udc00-\udfff])|(?<![\ud800-\udbff])[\udc00-\udfff]/.test(text);
}

/* An operation as faults tell it, which stand beside schedules: its lengths are UTF-16 units, and those of a schedule are not. */
export const inUnits = (operation) => `${JSON.stringify(operation)}${operation.some((component) => typeof component === "number") ? " (UTF-16 units)" : ""}`;

/* An operation over a text, its lengths in scalars. */
export function toScalars(operation, text) {
  let place = 0;
  const counted = operation.map((component) => {
    if (typeof component === "string") {
      if (!isWellFormed(component)) throw new Unwritable("inserts half of a surrogate pair");
      return component;
    }
    const end = place + Math.abs(component);
    if (cutsPair(text, end)) throw new Unwritable(`cuts the surrogate pair at unit ${end - 1} in two`);
    const scalars = [...text.slice(place, end)].length;
    place = end;
    return Math.sign(component) * scalars;
  });
  if (place === text.length) return counted;
  throw new Unwritable(`has base length ${place} over a document of ${text.length} units`);
}

/* The text that an operation makes of a text, lengths in UTF-16 units. */
export function apply(operation, text) {
  let place = 0;
  let result = "";
  for (const component of operation) {
    if (typeof component === "string") result += component;
    else {
      const end = place + Math.abs(component);
      if (component > 0) result += text.slice(place, end);
      place = end;
    }
  }
  return result;
}
