/**
 * Where two texts or lists part, and how many items they have in common at the end behind that.
 * @param {ArrayLike<unknown>} one @param {ArrayLike<unknown>} other
 */
export function parting(one, other) {
  const least = Math.min(one.length, other.length);
  let at = 0;
  while (at < least && one[at] === other[at]) at++;
  let same = 0;
  while (same < least - at && one[one.length - 1 - same] === other[other.length - 1 - same]) same++;
  return { at, same };
}
