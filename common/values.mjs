// Which values the keys of a line of `otbench steps` may have, and which keys a line needs (docs/FORMATS.md, "Steps").

const MOST_CLIENTS = 64;

const isCount = (value) => Number.isSafeInteger(value) && value >= 0;
const isText = (value) => typeof value === "string";
const isObject = (value) => value !== null && typeof value === "object" && !Array.isArray(value);

const isComponent = (value) => (isText(value) ? value !== "" : Number.isSafeInteger(value) && value !== 0);
const isOperation = (value) => Array.isArray(value) && value.every(isComponent);

/* Which pending operations a client has in each state. */
const PENDING = new Map([
  ["synchronized", []],
  ["awaiting-confirm", ["outstanding"]],
  ["awaiting-with-buffer", ["outstanding", "buffer"]],
]);

const VALUES = {
  at: isCount,
  clients: (value) => isCount(value) && value > 0 && value <= MOST_CLIENTS,
  present: isCount,
  start: isText,
  do: isText,
  client: isCount,
  edit: isOperation,
  stopped: isText,
  revision: isCount,
  state: (value) => PENDING.has(value),
  outstanding: isOperation,
  buffer: isOperation,
  sent: (value) => isObject(value) && isCount(value.revision) && isOperation(value.operation),
  applied: isOperation,
  appended: isOperation,
  document: isText,
  end: (value) => value === "quiet" || value === "not quiet",
};

/* Keys without a value are left out; a port's driver may write null for them. */
const isGiven = (line, key) => Object.hasOwn(line, key) && line[key] !== null && line[key] !== undefined;

const NEEDED = new Map([
  ["edit", ["client", "revision", "state"]],
  ["take", ["client", "revision"]],
  ["deliver", ["client", "revision", "state"]],
  ["ack", ["client", "revision", "state"]],
  ["join", ["client", "revision", "state", "document"]],
  ["read", ["client", "document"]],
  ["read-server", ["document"]],
]);

/** Refuses a line in which a key has a value that it cannot have, or in which a key is missing. @param {unknown} line a value of JSON */
export function checkLine(line) {
  if (!isObject(line)) throw new Error("it is no object");
  for (const [key, isRight] of Object.entries(VALUES))
    if (isGiven(line, key) && !isRight(line[key])) throw new Error(`its ${key} cannot be ${JSON.stringify(line[key]).slice(0, 60)}`);
  if (line.present > line.clients) throw new Error(`its present cannot be ${line.present} of ${line.clients}`);
  if (isGiven(line, "stopped")) return;
  const needed = [...(NEEDED.get(line.do) ?? []), ...(PENDING.get(line.state) ?? [])];
  const missing = needed.find((key) => !isGiven(line, key));
  if (missing) throw new Error(`it has no ${missing}`);
}
