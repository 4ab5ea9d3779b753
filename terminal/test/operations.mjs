/* Operations that a test makes. */

import { makePort } from "../../oracle/otjs.js";

/** ot.js' operations. */
export const { TextOperation } = makePort();

/**
 * An operation of a seeded choice over a text of a length, of letters, so that ot.js' units are scalars.
 * @param {number} length @param {(count: number) => number} choose a number from 0, below the count
 */
export function operationOf(length, choose) {
  const operation = new TextOperation();
  for (let left = length; ; ) {
    if (choose(3) === 0) operation.insert("abc"[choose(3)].repeat(1 + choose(3)));
    if (left === 0) return operation;
    const count = 1 + choose(Math.min(3, left));
    if (choose(2)) operation.retain(count);
    else operation.delete(count);
    left -= count;
  }
}
