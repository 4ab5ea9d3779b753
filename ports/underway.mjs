/* What is done of each of a list, so many at a time, taken in the list's order. */

/** @template Given, Result */
export class UnderWay {
  /**
   * @param {Iterable<Given>} list
   * @param {number} most
   * @param {(given: Given) => Promise<Result>} perform
   */
  constructor(list, most, perform) {
    this.source = list[Symbol.iterator]();
    Object.assign(this, { most, perform });
    /** @type {{ given: Given, result: Promise<Result> }[]} */
    this.under = [];
  }

  /** The first under way, or undefined behind the last. */
  first() {
    for (let next; this.under.length < this.most && !(next = this.source.next()).done; ) {
      const result = this.perform(next.value);
      result.catch(() => {});
      this.under.push({ given: next.value, result });
    }
    return this.under[0];
  }

  /** Takes the first one away, once it is done: what it gave. */
  async taken() {
    return this.under.shift().result;
  }

  /** Ends once nothing is under way any more. */
  async settled() {
    await Promise.allSettled(this.under.map(({ result }) => result));
  }
}
