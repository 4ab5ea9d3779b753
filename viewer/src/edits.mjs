// What a person types, as the least operation that does it. Lengths are Unicode scalars.

/** A text in which each half of a surrogate pair that stands alone is U+FFFD, as in UTF-8. */
export const wellFormed = (text) => text.replace(/\p{Surrogate}/gu, "\ufffd");

/**
 * The operation that puts a text in the place of the characters from..to of a document; null where nothing changes. What is equal
 * at the front and at the end of both is kept.
 * @param {string[]} document its characters
 * @returns {(number|string)[] | null}
 */
export function editOf(document, from, to, text) {
  const added = [...wellFormed(text)];
  let front = 0;
  while (front < Math.min(added.length, to - from) && added[front] === document[from + front]) front++;
  let back = 0;
  while (back < Math.min(added.length, to - from) - front && added[added.length - 1 - back] === document[to - 1 - back]) back++;
  const [first, last] = [from + front, to - back];
  const inserted = added.slice(front, added.length - back).join("");
  if (inserted === "" && first === last) return null;
  return [first, inserted, first - last, document.length - last].filter((component) => component !== 0 && component !== "");
}

/**
 * What became of a text, where the caret stands behind the change: { from, to, text }, the characters from..to replaced by text.
 * @param {string[]} before
 * @param {string[]} after
 * @param {number} caret how many characters stand in front of it afterwards
 */
export function changeBetween(before, after, caret) {
  const kept = after.length - caret;
  const isBehind = kept <= before.length && after.slice(caret).every((character, i) => character === before[before.length - kept + i]);
  let back = isBehind ? kept : 0;
  const least = Math.min(before.length, after.length);
  let front = 0;
  while (front < least - back && before[front] === after[front]) front++;
  while (back < least - front && before[before.length - 1 - back] === after[after.length - 1 - back]) back++;
  return { from: front, to: before.length - back, text: after.slice(front, after.length - back).join("") };
}
