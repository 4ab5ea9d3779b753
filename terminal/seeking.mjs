// Places of a session at which there is something, found once, in their order, as far as is wanted; a person may end the search meanwhile.

import { lastUpTo } from "../common/document.mjs";

export class Search {
  /** @param {number} length how many places there are @param {() => boolean} isStopped whether a person ends the search */
  constructor(length, isStopped = () => false) {
    Object.assign(this, { length, isStopped });
    this.seen = 0; // the last place that was looked at
    this.places = [0];
    this.found = new Map(); // by place what is there
  }

  /** What is at a place; undefined where there is nothing. @param {number} place */
  at(place) {
    while (this.seen < place) this.#go();
    return this.found.get(place);
  }

  /** The next place behind this one with something; undefined where there is none, null where the search was ended. @param {number} place */
  after(place) {
    while (this.places.at(-1) <= place && this.seen < this.length) {
      if (this.isStopped()) return null;
      this.#go();
    }
    return this.places[lastUpTo(this.places, place) + 1];
  }

  /** The last such place up to this one. @param {number} place */
  upTo(place) {
    while (this.seen < place) {
      if (this.isStopped()) return null;
      this.#go();
    }
    return this.places[lastUpTo(this.places, place)] || undefined;
  }

  #go() {
    const found = this.look(++this.seen);
    if (found === undefined) return;
    this.places.push(this.seen);
    this.found.set(this.seen, found);
  }
}
