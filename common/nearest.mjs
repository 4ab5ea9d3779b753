// The words nearest to one that is none of them.

/** How many letters have to be changed, put in or left out to make one word of the other. */
function distance(one, other) {
  let row = Array.from({ length: other.length + 1 }, (_, i) => i);
  for (let i = 1; i <= one.length; i++) {
    const above = row;
    row = [i];
    for (let j = 1; j <= other.length; j++) row[j] = Math.min(above[j] + 1, row[j - 1] + 1, above[j - 1] + (one[i - 1] === other[j - 1] ? 0 : 1));
  }
  return row[other.length];
}

/** How far a word that is meant may be: a letter in two of the word, or in three where the first one is another, and at most two. */
const reach = (word, name) => Math.min(2, Math.floor(word.length / (word[0] === name[0] ? 2 : 3)));

/** How far a word is from a name; Infinity where it is beyond reach, and does not begin with the name. */
function farness(word, name) {
  const isLonger = word.startsWith(name);
  const far = isLonger ? word.length - name.length : Math.abs(word.length - name.length) > reach(word, name) ? Infinity : distance(word, name);
  return isLonger || far <= reach(word, name) ? far : Infinity;
}

/**
 * The words nearest to this one, at most three, the nearest first: those that are within reach, or that it begins with.
 * @param {string} word @param {string[]} names
 */
export function nearest(word, names) {
  const all = names.map((name) => ({ name, far: farness(word, name) })).filter(({ far }) => far < Infinity);
  return all.sort((a, b) => a.far - b.far).slice(0, 3).map(({ name }) => name);
}
