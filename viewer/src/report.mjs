// The session as Markdown, for an issue: the verdict, the schedule, why the documents are what they are at the place, or where a noted text differs first,
// what a port has otherwise, and the link. A place is one of the session.

import { brief, quoted, seen } from "../../common/characters.mjs";
import { SERVER } from "../../common/fold.mjs";
import { documentAt, quietAt, stateAt } from "../../common/places.mjs";
import { textOf } from "../../common/document.mjs";
import { notesIn } from "../../common/noted.mjs";
import { equalWords } from "./compared.mjs";
import { shownPlace } from "./state.mjs";
import { reasonWords } from "./reason.mjs";
import { nameOfMember, noteWords, operationText } from "./words.mjs";

/* The longest run of backticks in a text. */
const ticksIn = (text) => Math.max(0, ...(text.match(/`+/g) ?? []).map((run) => run.length));

/* A text as a block of code, which no line of it ends. */
function block(text, language = "") {
  const fence = "`".repeat(Math.max(3, ticksIn(text) + 1));
  return `${fence}${language}\n${text.replace(/\n*$/, "\n")}${fence}`;
}

/* A text in a line. */
function inline(text) {
  const words = seen(text).replace(/\n/g, "\u240a");
  const fence = "`".repeat(ticksIn(words) + 1);
  return /^`|`$/.test(words) ? `${fence} ${words} ${fence}` : `${fence}${words}${fence}`;
}

/** What a report has of a schedule, of a document or of a line of an answer at most, in characters. */
const MOST = { schedule: 20000, document: 2000, line: 2000 };

function shortened(text) {
  if (text.length <= MOST.schedule) return text;
  const end = Math.max(0, text.lastIndexOf("\n", MOST.schedule)); // of a longer first line nothing is left
  return `${text.slice(0, end)}\n; .. ${[...text].length} characters in all; the link has the whole\n`;
}

/* The documents at a place, as the diagram's cards show them. */
function documentsAt(session, place, names) {
  const text = (who) => inline(quoted(brief(textOf(documentAt(session, who, place)), MOST.document)));
  const joined = [...session.members.keys()].filter((client) => stateAt(session, client, place).state !== "not-joined");
  return [SERVER, ...joined].map((who) => `- ${who === SERVER ? "server" : inline(nameOfMember(who, names))}: ${text(who)}`);
}

/* The notes, each at the place where it stands. */
const seenIn = (port, names) =>
  notesIn(port).map(({ at, who, document }) => `- place ${at}, ${inline(nameOfMember(who, names))}: ${inline(quoted(brief(document, MOST.document)))}`);

/* Where a noted text differs first, and whose it is: { at, who }; null where none does. */
function notedDifference({ beside, outline }) {
  const { at, client, key } = beside?.areNotes && beside.answer ? beside.answer : {}; // a difference alone has a key
  return key === "document" ? { at, who: inline(nameOfMember(client ?? SERVER, outline.names)) } : null;
}

/* Whether the documents must agree at the place, and to what; and of a noted text that differs what ot.js has. */
function verdictAt(state, outlook) {
  const { session, beside, outline } = state;
  const place = shownPlace(state);
  const lines = outlook.map((line) => inline(brief(line, 600)));
  const differs = notedDifference(state);
  if (differs) lines.push(`Place ${differs.at}, ${differs.who}: ${inline(brief(noteWords(beside, outline.names), 900))}`);
  return `At place ${place} of ${session.length} (${inline(quietAt(session, place))})${lines.length ? `:\n\n${lines.join("\n\n")}` : ""}`;
}

/* The verdicts in a line. Those of ot.js' own run say so behind an answer of conform. */
function verdictWords(verdicts, isAnswered) {
  const told = verdicts.map((words) => inline(brief(words, 300)));
  const [first, ...more] = told;
  return isAnswered && more.length > 0 ? `${first}; in ot.js ${more.join("; ")}` : told.join("; ");
}

/* Which transform led to the documents, or to that from which a note differs, in lines. */
function reasonAt(state, reason) {
  if (!reason || reason.place === 0) return "";
  const inWords = (part) => (typeof part === "string" ? part : operationText(part.operation, 200));
  const lines = reasonWords(state.session, reason, state.outline.names).map((words) => inline(words.map(inWords).join("")));
  const differs = notedDifference(state);
  const head = differs ? `Why, at place ${differs.at}, where ${differs.who} differs first:\n\n` : "";
  return `${head}${lines.join("\\\n")}\n\n`;
}

/* What conform answered, in lines of which none is long; where two texts begin to differ is no place of the session. */
function answered({ words, answer }) {
  const lines = answer.place === undefined ? words : words.with(3, equalWords(answer.place));
  return block(lines.map((line) => brief(line, MOST.line)).join("\n") || answer.verdict);
}

/**
 * @param {import("./state.mjs").State} state one with a session
 * @param {object} said
 * @param {string[]} said.verdicts what the page says in its words: what conform answered, if it was asked, and then of ot.js' own run
 * @param {string[]} [said.outlook] the verdict of the place
 * @param {import("./reason.mjs").Reason | null} [said.reason] of the texts there, or of the noted one that differs
 * @param {string} said.link
 * @param {boolean} said.isOfFile whether the link is to a file of this machine
 */
export function reportOf(state, { verdicts, outlook = [], reason = null, link, isOfFile }) {
  const { session, text, title, beside, outline } = state;
  const place = shownPlace(state);
  const parts = [
    `**otbench**${title ? ` ${inline(brief(title, 80))}` : ""}: ${verdictWords(verdicts, Boolean(beside?.answer))}`,
    verdictAt(state, outlook),
    block(shortened(text)),
    `${reasonAt(state, reason)}What ot.js has at place ${place}:\n\n${documentsAt(session, place, outline.names).join("\n")}`,
  ];
  if (beside?.areNotes) parts.push(`What was seen:\n\n${seenIn(state.port, outline.names).join("\n")}`);
  if (beside?.answer) parts.push(`${beside.areNotes ? "That" : "What the port printed"}, beside ot.js:\n\n${answered(beside)}`);
  parts.push(isOfFile ? `The session opens only where the page's file is: ${inline(link)}` : `[Open the session](<${link}>)`);
  return `${parts.join("\n\n")}\n`;
}
