/*
 * Laws of ot.js that no session shows: what a session never calls, and what ot.js refuses. Each has a name, by which a port
 * declines it. A law throws where the port breaks it.
 */

import { accessorsOf } from "./port.mjs";
import { operationOf } from "../examples/port/session.js";

const json = (value) => JSON.stringify(value) ?? String(value);

class Broken extends Error {}

/* Throws unless a call gave what ot.js gives. */
function expect(call, found, otjs) {
  if (json(found) !== json(otjs)) throw new Broken(`${call} gives ${json(found)}, that of ot.js ${json(otjs)}`);
}

/* Throws unless a call is refused. */
async function expectRefusal(call, perform) {
  let given;
  try {
    given = await perform();
  } catch {
    return;
  }
  throw new Broken(`${call} gives ${json(given)}, that of ot.js throws`);
}

/* An operation with its components, the method of it that a law is about being there. */
function made(port, components, method) {
  const operation = operationOf(port, components);
  if (method && typeof operation[method] !== "function") throw new Broken(`TextOperation.prototype.${method} is not there`);
  return operation;
}

/* Operation, document, inverse. `pair` is the length of a character past U+FFFF. */
const inverses = (pair) => [
  [[], "", []],
  [["ab"], "", [-2]],
  [[-2], "ab", ["ab"]],
  [[3], "abc", [3]],
  [[1, "x", 1], "ab", [1, -1, 1]],
  [[1, -1, 1], "abc", [1, "b", 1]],
  [["x", -1, 2], "abc", ["a", -1, 2]],
  [[2, "xyz", -2], "abcd", [2, "cd", -3]],
  [[-1, 1, -1, 1, "z"], "abcd", ["a", 1, "c", 1, -1]],
  [["\u{1f600}", 1], "a", [-pair, 1]],
  [[pair, "e", -pair], "\u{1f600}\u{1d4b3}", [pair, "\u{1d4b3}", -1]],
];

const NOOPS = [
  [[], true],
  [[3], true],
  [["a"], false],
  [[-1], false],
  [["a", -1], false],
  [[1, "a"], false],
  [[1, -1], false],
];

const EQUALS = [
  [[], [], true],
  [[1, "a", -1], [1, "a", -1], true],
  [["a"], ["b"], false],
  [["a"], ["ab"], false],
  [[1, "a"], ["a", 1], false],
  [[1], [2], false],
  [[1, -1], [-1, 1], false],
  [[1, "a", 1], [1, "a", 2], false],
  [["a", -1], ["b", -1], false],
  [[1, "1"], [1, "2"], false],
];

/* First and second, of which the lengths do not fit. */
const UNFIT = [
  [[1, "a"], [1]],
  [[1, "a"], [3]],
  [[], [1]],
  [[-2], ["a", 1]],
  [["a"], []],
];

const OTHER_BASE = [
  [[1], [2]],
  [[-1], []],
  [["a"], ["b", 1]],
  [[3, "a"], [-2]],
];

/* Revisions that a log of one operation over "ab" does not have, with an operation that fits at the nearest one. */
const REVISIONS = [
  [2, [3]],
  [3, [3]],
  [-1, [2]],
];

const OTHER_LENGTH = [
  [[1, "a"], ""],
  [[1, "a"], "bc"],
  [[], "a"],
  [["a"], "b"],
  [[-1], ""],
  [[-1], "ab"],
];

const named = (components) => json(components);

const LAWS = {
  invert(port, { utf16 = true }) {
    for (const [components, document, inverse] of inverses(utf16 ? 2 : 1)) {
      const operation = made(port, components, "invert");
      const found = operation.invert(document);
      expect(`${named(components)}.invert(${json(document)})`, found, inverse);
      expect(`${named(components)}, then its inverse, applied to ${json(document)},`, found.apply(operation.apply(document)), document);
    }
  },
  isNoop(port) {
    for (const [components, isNoop] of NOOPS) expect(`${named(components)}.isNoop()`, made(port, components, "isNoop").isNoop(), isNoop);
  },
  equals(port) {
    for (const [one, other, isEqual] of EQUALS)
      for (const [first, second] of [[one, other], [other, one]])
        expect(`${named(first)}.equals(${named(second)})`, made(port, first, "equals").equals(made(port, second)), isEqual);
  },
  async "apply-of-another-length"(port) {
    for (const [components, document] of OTHER_LENGTH)
      await expectRefusal(`${named(components)}.apply(${json(document)})`, () => made(port, components).apply(document));
  },
  async "compose-of-unfit-operations"(port) {
    for (const [first, second] of UNFIT)
      await expectRefusal(`${named(first)}.compose(${named(second)})`, () => made(port, first).compose(made(port, second)));
  },
  async "transform-of-unfit-operations"(port) {
    for (const [one, other] of OTHER_BASE)
      for (const [first, second] of [[one, other], [other, one]])
        await expectRefusal(`transform(${named(first)}, ${named(second)})`, () => port.TextOperation.transform(made(port, first), made(port, second)));
  },
  async "revision-not-in-the-log"(port, { accessors }) {
    const { document, operations } = accessorsOf(accessors);
    const server = new port.Server("ab");
    await server.receiveOperation(0, made(port, [2, "c"]));
    for (const [revision, components] of REVISIONS)
      await expectRefusal(`receiveOperation(${revision}, ${named(components)}) at revision 1`, () => server.receiveOperation(revision, made(port, components)));
    expect("the document behind refused operations", document(server), "abc");
    expect("the number of operations behind refused ones", operations(server).length, 1);
  },
  async "acknowledgement-when-synchronized"(port) {
    const client = new port.Client(0);
    Object.assign(client, { sendOperation() {}, applyOperation() {} });
    await expectRefusal("serverAck() of a client that sent nothing", () => client.serverAck());
    const other = new port.Client(0);
    Object.assign(other, { sendOperation() {}, applyOperation() {} });
    await other.applyClient(made(port, ["a"]));
    await other.serverAck();
    await expectRefusal("a second serverAck() for one operation", () => other.serverAck());
  },
  async "server-with-operations"(port, { accessors }) {
    const { document, operations } = accessorsOf(accessors);
    const server = new port.Server("ab", [made(port, ["a"]), made(port, [1, "b"])]);
    expect('the number of operations of new Server("ab", two operations)', operations(server).length, 2);
    expect('receiveOperation(1, [1,"c"]) over the log ["a"], [1,"b"]', await server.receiveOperation(1, made(port, [1, "c"])), [1, "c", 1]);
    expect('receiveOperation(0, ["z"]) over the log ["a"], [1,"b"], [1,"c",1]', await server.receiveOperation(0, made(port, ["z"])), ["z", 3]);
    expect("the document behind these", document(server), "zacb");
  },
};

/** The names of all laws. */
export const LAW_NAMES = Object.keys(LAWS);

/* What a law finds wrong, or null: { said, cause }. */
async function brokenIn(law, port, options) {
  try {
    await LAWS[law](port, options);
    return null;
  } catch (error) {
    if (error instanceof Broken) return { said: error.message };
    return { said: `the port throws ${error}`, cause: error };
  }
}

/**
 * Tries each law that the port does not decline.
 * @param {import("./testing.mjs").Port} port
 * @param {{ known?: string[], utf16?: boolean, accessors?: import("./testing.mjs").Accessors }} options
 * @returns {Promise<{ tried: string[], broken: { law: string, said: string, cause?: unknown }[] }>}
 */
export async function triedLaws(port, options) {
  const tried = LAW_NAMES.filter((law) => !(options.known ?? []).includes(law));
  const broken = [];
  for (const law of tried) {
    const its = await brokenIn(law, port, options);
    if (its) broken.push({ law, ...its });
  }
  return { tried, broken };
}
