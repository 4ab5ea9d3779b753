// The fault of a schedule's text, as `check --json` says it.

/**
 * @typedef {object} TextFault
 * @property {string} fault its name
 * @property {number} line counted from 1
 * @property {number} [column] the character of the line, counted from 1; a fault that is not the text's has none of these
 * @property {string} [found] what stands there
 * @property {string} [wanted]
 * @property {string} [nearest] of the words that are wanted the one nearest to what stands there
 * @property {string} [note]
 */

/** The fault that an answer of `check --json` is; null where it is none. @param {string} told @returns {TextFault | null} */
export const readFault = (told) => (told.startsWith('{"fault":') ? JSON.parse(told) : null);

/** What stands at a fault and what is wanted there, as `explain` has it; "" where the text is not at fault. @param {TextFault} fault */
export function causeOf({ found, wanted, nearest, note }) {
  return found === undefined ? "" : [`found ${found}; wanted ${wanted}`, nearest && `nearest: ${nearest}`, note].filter(Boolean).join("; ");
}
