/* The sessions of the corpus that are too long to be stored, each made by a rule; their lines are those of `otbench steps`. */

const EDITS = 3030;
const MOST_LETTERS = 9; // of the document while the log grows
const STARTS = 40_000; // characters, the most that a start has
const INSERTS = 13_000; // characters that each client inserts
const WRITERS = 5;

const edit = (client, operation) => `edit ${client} ${JSON.stringify(operation)}`;
const textOf = (lines) => `${lines.join("\n")}\n`;

/* An operation that does one thing at a place of a document; what it retains has components only where there is something. */
const at = (place, length, component) =>
  [place, component, length - place - (typeof component === "string" ? 0 : -component)].filter((it) => it !== 0);

/* Client 0 types letters at changing places, and deletes three where there are many; each edit is in the log before the next. */
function* typed(length) {
  for (let number = 0; number < EDITS; number++) {
    const isFull = length > MOST_LETTERS;
    const place = (7 * number) % (isFull ? length - 2 : length + 1);
    const component = isFull ? -3 : "klmnopqrst"[number % 10];
    yield edit(0, at(place, length, component));
    yield "take 0";
    yield "ack 0";
    length += isFull ? -3 : 1;
  }
}

function longLog() {
  return textOf([
    "; A client with an outstanding operation and a buffer lags over a log of 3,030 entries.",
    "clients 2",
    'start "abcd"',
    edit(1, [2, "x", 2]),
    edit(1, ["y", 5]),
    ...typed(4),
    "take 1",
    "deliver 0",
    ...Array(EDITS).fill("deliver 1"),
    "ack 1",
    "take 1",
    "ack 1",
    "deliver 0",
    ...["read 0", "read 1", "read-server"],
  ]);
}

const SENTENCE = "the quick brown fox jumps over the lazy dog. ";
const sentences = (length, from) => SENTENCE.repeat(Math.ceil(length / SENTENCE.length) + 1).slice(from, from + length);

/* What follows where each of the clients has sent one message: all are taken, and then received in their order. */
function received(clients, senders) {
  const inOrder = (client) => senders.map((sender) => `${sender === client ? "ack" : "deliver"} ${client}`);
  return [...senders.map((sender) => `take ${sender}`), ...clients.flatMap(inOrder)];
}

function longTexts() {
  const clients = [...Array(WRITERS).keys()];
  const length = STARTS + WRITERS * INSERTS;
  return textOf([
    "; Documents of 105,000 characters, and lengths above 100,000.",
    `clients ${WRITERS}`,
    `start ${JSON.stringify(sentences(STARTS, 0))}`,
    ...clients.map((client) => edit(client, at(7_000 * client + 100, STARTS, sentences(INSERTS, 4 * client)))),
    ...received(clients, clients),
    edit(0, at(102_000, length, -2_000)),
    edit(1, at(101_000, length, "near the end")),
    edit(2, at(2, length, 2 - 101_500)),
    ...received(clients, [0, 1, 2]),
    ...clients.map((client) => `read ${client}`),
    "read-server",
  ]);
}

/** These sessions. */
export const large = () => [
  { name: "log-above-3000", schedule: longLog() },
  { name: "texts-above-100000", schedule: longTexts() },
];
