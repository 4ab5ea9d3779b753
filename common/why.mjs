// Why an instruction led where it did: the method of ot.js, each transform that it makes, and the ties. The method and what it is given come from `conform`.
//
//     AwaitingConfirm.applyServer
//       transform(outstanding ["b"], operation ["a"]) makes ["b",1] and [1,"a"]
//         tie at 0: "b", of the first argument, goes before "a"

import { transform } from "./transform.mjs";

const MOST = 8; // transforms that are all shown

/**
 * @typedef {{ rule: string, given: { name: string, value: string }[] }} Call a method of ot.js and what it was given
 * @typedef {ReturnType<typeof transform> & { named: [string, import("./transform.mjs").Operation][], words: string }} Transform what it makes, its arguments with their names, and its call in words
 */

/** The values that a call was given by a name. @param {Pick<Call, "given">} call @param {string} wanted */
export const valuesOf = ({ given }, wanted) => given.filter(({ name }) => name === wanted).map(({ value }) => JSON.parse(value));

/** @param {[string, import("./transform.mjs").Operation][]} named the two arguments */
function transformOf(named) {
  const words = named.map(([name, operation]) => `${name} ${JSON.stringify(operation)}`).join(", ");
  return { ...transform(...named.map(([, operation]) => operation)), named, words: `transform(${words})` };
}

/** The server's transforms: the message against each operation of the log that its client did not know. */
function transformsOfTake(call, log) {
  let [message] = valuesOf(call, "operation");
  const [revision] = valuesOf(call, "revision");
  return valuesOf(call, "concurrent").map((concurrent, i) => {
    const made = transformOf([["operation", message], [`revision ${revision + i + 1} of client ${log[revision + i].maker}`, concurrent]]);
    message = made.first;
    return made;
  });
}

/** A client's transforms: its outstanding operation, and then its buffer, against the operation that came. */
function transformsOfDelivery(call) {
  let [operation] = valuesOf(call, "operation");
  const pending = ["outstanding", "buffer"].flatMap((name) => valuesOf(call, name).map((value) => [name, value]));
  return pending.map((first) => {
    const made = transformOf([first, ["operation", operation]]);
    operation = made.second;
    return made;
  });
}

/** The transforms of a call, in their order. @param {Call} call @param {{ maker: number }[]} log the server's @returns {Transform[]} */
export function transformsOf(call, log) {
  if (call.rule === "Server.receiveOperation") return transformsOfTake(call, log);
  return call.rule.endsWith(".applyServer") ? transformsOfDelivery(call) : [];
}

/** The lines of a transform. @param {Transform} transform */
function linesOf({ words, first, second, ties }) {
  const tied = ties.map(({ place, first, second }) => `      tie at ${place}: ${JSON.stringify(first)}, of the first argument, goes before ${JSON.stringify(second)}`);
  return [`    ${words} makes ${JSON.stringify(first)} and ${JSON.stringify(second)}`, ...tied];
}

/** Whether a call composes. @param {Call} call */
export const isComposing = ({ rule }) => rule === "AwaitingWithBuffer.applyClient";

/** The lines for a call: the method, and its transforms; of many those that have a tie. @param {Call} call @param {{ maker: number }[]} log the server's */
export function reasonsOf(call, log) {
  if (isComposing(call)) return [`  ${call.rule}: compose(buffer, operation)`];
  const all = transformsOf(call, log);
  if (all.length === 0) return [`  ${call.rule}: nothing is transformed`];
  const tied = all.filter(({ ties }) => ties.length > 0);
  const shown = all.length <= MOST ? all : tied.slice(0, MOST);
  const more = all.length - shown.length;
  return [`  ${call.rule}`, ...shown.flatMap(linesOf), ...(more ? [`    .. ${more} more transforms, ${tied.length > MOST ? tied.length - MOST : "none"} of them with a tie`] : [])];
}
