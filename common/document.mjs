// A document is a list of elements. An element is one inserted character, { character, maker, born }: the same object in
// every document that it stands in, so that "the same insertion" is identity. Its maker is a client's number or START.

export const START = -1;

export const makeElements = (text, maker, born) => Array.from(text, (character) => ({ character, maker, born }));

export const textOf = (elements) => elements.map((element) => element.character).join("");

export const sameText = (a, b) => a === b || (a.length === b.length && a.every((e, i) => e.character === b[i].character));

/* Leads through an operation's components: keep(count), insert(count) and drop(count), counts in scalars. */
export function walk(operation, { keep, insert, drop }) {
  for (const component of operation) {
    if (typeof component === "string") insert([...component].length);
    else if (component > 0) keep(component);
    else drop(-component);
  }
}

export const baseLength = (operation) => operation.reduce((n, x) => (typeof x === "string" ? n : n + Math.abs(x)), 0);

export const insertedText = (operation) => operation.filter((x) => typeof x === "string").join("");

/* What an operation has inserted, in the list that it has led to. */
export function insertionsIn(elements, operation) {
  const found = [];
  let place = 0;
  walk(operation, {
    keep: (count) => (place += count),
    insert: (count) => {
      found.push(...elements.slice(place, place + count));
      place += count;
    },
    drop: () => {},
  });
  return found;
}

/* Changes a list by an operation that fits it, whose insertions are these elements. */
function patch(list, operation, insertions) {
  let place = 0;
  let used = 0;
  walk(operation, {
    keep: (count) => (place += count),
    insert: (count) => {
      list.splice(place, 0, ...insertions.slice(used, used + count));
      place += count;
      used += count;
    },
    drop: (count) => list.splice(place, count),
  });
}

/* The list that an operation which fits it leads to, with these insertions. */
export function patched(list, operation, insertions) {
  const after = list.slice();
  patch(after, operation, insertions);
  return after;
}

/* The last index whose value is at most x, in a rising list whose first value is. */
export function lastUpTo(list, x) {
  let from = 0;
  let to = list.length;
  while (to - from > 1) {
    const middle = (from + to) >> 1;
    if (list[middle] <= x) from = middle;
    else to = middle;
  }
  return from;
}

/*
 * The versions of a document, each with the place from which it holds and the change that led to it. Some lists are kept;
 * between two of them the changes are made again.
 */
export class Versions {
  constructor(elements) {
    this.now = elements.slice();
    this.places = [0];
    this.changes = [null];
    this.kept = new Map([[0, elements]]);
    this.lastKept = 0;
    this.memo = { version: 0, elements };
  }

  change(place, operation, insertions) {
    patch(this.now, operation, insertions);
    this.#push(place, { operation, insertions });
    if (this.places.length - 1 - this.lastKept >= Math.max(32, this.now.length >> 7)) this.#keep();
  }

  replace(place, elements) {
    this.now = elements.slice();
    this.#push(place, null);
    this.#keep();
  }

  /* The versions up to a place, for changes of their own. */
  upTo(place) {
    const version = this.versionAt(place);
    const elements = version === this.places.length - 1 ? this.now.slice() : this.#elements(version);
    const front = new Versions(elements);
    front.places = this.places.slice(0, version + 1);
    front.changes = this.changes.slice(0, version + 1);
    front.kept = new Map([...this.kept].filter(([number]) => number <= version));
    front.lastKept = Math.max(...front.kept.keys());
    front.memo = { version, elements };
    return front;
  }

  /* The change that was made at a place: { operation, insertions, before }, or null. */
  changeAt(place) {
    const version = this.versionAt(place);
    if (this.places[version] !== place || !this.changes[version]) return null;
    return { ...this.changes[version], before: this.#elements(version - 1) };
  }

  at(place) {
    return this.#elements(this.versionAt(place));
  }

  /* What the version at a place is known by: the change that led to it, or the list that the first one is. */
  markAt(place) {
    const version = this.versionAt(place);
    return this.changes[version] ?? this.kept.get(version);
  }

  /* The number of the version at a place. */
  versionAt(place) {
    return lastUpTo(this.places, place);
  }

  #push(place, change) {
    this.places.push(place);
    this.changes.push(change);
  }

  #keep() {
    this.lastKept = this.places.length - 1;
    this.kept.set(this.lastKept, this.now.slice());
  }

  #elements(version) {
    if (this.memo.version === version) return this.memo.elements;
    let from = version;
    while (!this.kept.has(from)) from--;
    let elements = this.kept.get(from);
    if (this.memo.version > from && this.memo.version < version) ({ version: from, elements } = this.memo);
    if (from < version) elements = elements.slice();
    for (let v = from + 1; v <= version; v++) patch(elements, this.changes[v].operation, this.changes[v].insertions);
    this.memo = { version, elements };
    return elements;
  }
}
