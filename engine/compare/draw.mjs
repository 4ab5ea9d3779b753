/** Draws at random that follow from a seed. */

/** A source of draws: the same seed gives the same draws. */
export class Draw {
    /** @param {number} seed */
    constructor(seed) {
        this.state = seed >>> 0;
    }

    /** @returns {number} from 0 to 1, without 1 (mulberry32) */
    unit() {
        this.state = (this.state + 0x6d2b79f5) >>> 0;
        let t = this.state;
        t = Math.imul(t ^ (t >>> 15), t | 1);
        t ^= t + Math.imul(t ^ (t >>> 7), t | 61);
        return ((t ^ (t >>> 14)) >>> 0) / 2 ** 32;
    }

    /** @param {number} count @returns {number} from 0 to below the count */
    below(count) {
        return Math.floor(this.unit() * count);
    }

    /** @template T @param {T[]} list @returns {T} one of the list */
    of(list) {
        return list[this.below(list.length)];
    }

    /** @param {number} one whether a draw of one in so many comes */
    once(one) {
        return this.below(one) === 0;
    }
}
