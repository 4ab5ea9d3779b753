/* What a port has to have, looked for before the first session. */

import { ACCESSORS, operationOf } from "../examples/port/session.js";

/** The accessors of ot.js, with those that are given in their place. */
export const accessorsOf = (given = {}) => ({ ...ACCESSORS, ...given });

const isFunction = (value) => typeof value === "function";

/* What a call gives, or the words for what it throws. */
function attempt(call) {
  try {
    return { value: call() };
  } catch (thrown) {
    return { failed: `throws ${thrown}` };
  }
}

/* Which of the methods an object does not have. */
const methodsMissing = (name, object, methods) =>
  methods.filter((method) => !isFunction(object[method])).map((method) => `${name}.prototype.${method}`);

function missingInOperation({ TextOperation }, known) {
  const builder = ["retain", "insert", "delete"];
  if (!isFunction(TextOperation.fromJSON) && !builder.every((method) => isFunction(TextOperation.prototype?.[method])))
    return ["TextOperation.fromJSON, or TextOperation.prototype.retain, insert and delete"];
  const made = attempt(() => operationOf({ TextOperation }, ["a"]));
  if (made.failed) return [`TextOperation: making ["a"] ${made.failed}`];
  const operation = made.value ?? {};
  const missing = methodsMissing("TextOperation", operation, ["toJSON", "apply", "compose", ...(known.includes("invert") ? [] : ["invert"])]);
  if (!isFunction(TextOperation.transform)) missing.push("TextOperation.transform");
  for (const length of ["baseLength", "targetLength"])
    if (typeof operation[length] !== "number") missing.push(`TextOperation.prototype.${length}, a number`);
  return missing;
}

/* What a client or a server does not give by an accessor. */
function unreadable(name, object, accessors, rows) {
  return rows.flatMap(([key, isRight, what]) => {
    const { value, failed } = attempt(() => accessors[key](object));
    return !failed && isRight(value) ? [] : [`${name}'s ${key}, ${what}: ${failed ?? `it is ${String(value)}`}`];
  });
}

const isAbsent = (value) => !value;

/* Whether a method can be assigned to an object, as the harness does. */
function isAssignable(object, method) {
  const own = () => {};
  return !attempt(() => (object[method] = own)).failed && object[method] === own;
}

function missingInClient({ Client }, accessors) {
  const { value: client, failed } = attempt(() => new Client(0));
  if (failed) return [`Client: new Client(0) ${failed}`];
  const assigned = ["sendOperation", "applyOperation"].filter((method) => !isAssignable(client, method));
  return [
    ...methodsMissing("Client", client, ["applyClient", "applyServer", "serverAck"]),
    ...assigned.map((method) => `Client: ${method}, to which a function can be assigned`),
    ...unreadable("Client", client, accessors, [
      ["revision", (value) => value === 0, "0 in new Client(0)"],
      ["outstanding", isAbsent, "none in new Client(0)"],
      ["buffer", isAbsent, "none in new Client(0)"],
    ]),
  ];
}

function missingInServer({ Server }, accessors) {
  const { value: server, failed } = attempt(() => new Server("a"));
  if (failed) return [`Server: new Server("a") ${failed}`];
  return [
    ...methodsMissing("Server", server, ["receiveOperation"]),
    ...unreadable("Server", server, accessors, [
      ["document", (value) => value === "a", '"a" in new Server("a")'],
      ["operations", (value) => Number.isInteger(value?.length), 'a list in new Server("a")'],
    ]),
  ];
}

const PARTS = { TextOperation: missingInOperation, Client: missingInClient, Server: missingInServer };

/**
 * Throws a TypeError that names each missing part of a port.
 * @param {import("./testing.mjs").Subject} subject a driver needs none
 * @param {{ accessors?: object, known?: string[] }} options laws that the port declines need no part
 */
export function checkPort(subject, { accessors, known = [] } = {}) {
  if (isFunction(subject)) return;
  const missing = Object.keys(PARTS).flatMap((part) => {
    if (!isFunction(subject?.[part])) return [part];
    return PARTS[part](subject, part === "TextOperation" ? known : accessorsOf(accessors));
  });
  if (missing.length > 0) throw new TypeError(`the port lacks\n${missing.map((part) => `    ${part}\n`).join("")}`);
}
