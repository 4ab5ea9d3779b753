// What `conform` answers, as a value and in words. Code reads the value; the words are for people (docs/FORMATS.md, "The answer of conform").

/**
 * @typedef {object} Answer what `conform --json` prints
 * @property {"conforms" | "nothing compared" | "differs" | "stopped"} verdict
 * @property {number} [at] of a difference its place, of a limit the number of the instruction
 * @property {string} [instruction] of a difference `opening`, the instruction, `end` or `after the end`
 * @property {number | null} [client] whose value it is; null of the server's
 * @property {string} [key]
 * @property {string} [found]
 * @property {string} [otjs]
 * @property {string} [rule]
 * @property {{ name: string, value: string }[]} [given]
 * @property {string} [note]
 * @property {{ first: number, then: number }} [order] of a note in the page: the clients whose edits the server would have to take in this order, so that ot.js has it
 * @property {number} [line] in the schedule, from 1
 * @property {{ key: string, line: number }[]} unknown
 * @property {string} [cut]
 *
 * @typedef {{ answer: Answer | null, words: string[] }} Told the value, null where nothing was answered, and its words
 */

/** The program's words for it. @param {boolean} isSparse whether instructions without a line are skipped */
export const conformCall = (isSparse) => (isSparse ? ["conform", "--sparse"] : ["conform"]);

/** The answer in what `conform --json` printed; null where that is the fault of a refused schedule, or nothing. @param {string} printed @returns {Answer | null} */
export function readAnswer(printed) {
  const answer = printed === "" ? null : JSON.parse(printed);
  return answer?.fault === undefined ? answer : null;
}

/** Whether a port conforms. The lines of a schedule that is cut may conform so far. @param {Answer} answer */
export const isConforming = ({ verdict, cut }) => verdict === "conforms" && cut === undefined;

/** The lines of an answer's words, without that which says that the schedule is cut; the last ones name the unknown keys. @param {Answer} answer @param {string} printed */
export const wordsOf = ({ cut }, printed) => printed.split("\n").slice(0, cut === undefined ? -1 : -2);

/** Whether the words of an answer say more than its verdict. @param {Answer} answer */
export const isWordy = ({ verdict, unknown }) => verdict !== "conforms" || unknown.length > 0;
