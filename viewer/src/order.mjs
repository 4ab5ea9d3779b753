// Whether a document that was seen is what ot.js has where the server takes two concurrent edits in the other order. What all documents become then is what
// `explain` says of the session in which it does:
//
//     edit 0, edit 1, take 0, take 1, deliver 1      explain: all will be "ba"
//     edit 0, edit 1, take 1, take 0                 explain: all will be "ab"

import { textOf } from "../../common/document.mjs";
import { SERVER } from "../../common/fold.mjs";
import { notedPlace, notesIn } from "../../common/noted.mjs";
import { textUpTo } from "../../common/outline.mjs";
import { documentAt, logLengthAt } from "../../common/places.mjs";

/** How many other orders are tried, of the last edits first. */
const MOST = 8;

/**
 * The places that fall away where the server takes log entry `from` later: it is taken, and received, with those behind it.
 * null where a user edited, or a client joined, when one of them was there: what they made of it is not known.
 */
function fallingAway({ steps, log }, from, place) {
  const away = new Set();
  const knowing = new Set(); // the clients that have received one of them
  for (let at = log[from].sent; at <= place; at++) {
    const { line, received } = steps[at];
    if (line.do === "join" || (line.do === "edit" && knowing.has(line.client))) return null;
    if (line.do === "take") away.add(at);
    if ((line.do === "deliver" || line.do === "ack") && received.number >= from) {
      away.add(at);
      knowing.add(line.client);
    }
  }
  return away;
}

/* What the server takes of the log entries from `from` on, `first` before all others: as far as it is sent without them. */
function takenThen({ steps, log }, from, first, away, place) {
  const isSent = ({ sent }) => sent <= place && !away.has(steps[sent].received.sent);
  return [first, ...log.slice(from).filter((entry) => entry !== first && isSent(entry))].map(({ maker }) => `take ${maker}`);
}

/* The sessions up to a place in which an edit is taken before one that it was made without: { first, then, text }. */
function* otherOrders({ session, text, outline }, place) {
  const { steps, log } = session;
  const lines = textUpTo(text, outline, place).split("\n").slice(0, -1);
  const count = logLengthAt(session, place);
  for (let i = count - 2; i >= 0; i--) {
    const away = fallingAway(session, i, place);
    if (away === null) return; // and so of all before
    const gone = new Set([...away].map((at) => outline.lines[at - 1]));
    const kept = lines.filter((_, number) => !gone.has(number));
    const isOther = (entry) => entry.maker !== log[i].maker && steps[entry.sent].received.revision <= i;
    for (const entry of log.slice(i + 1, count).filter(isOther))
      yield { first: entry.maker, then: log[i].maker, text: [...kept, ...takenThen(session, i, entry, away, place), ""].join("\n") };
  }
}

/**
 * The clients whose edits the server would have to take in this order for a document that was seen; null where no such order is found, and where the server's
 * document was seen to be that of the order there is.
 * @param {{ session: import("../../common/fold.mjs").Session, text: string, outline: import("../../common/outline.mjs").Outline, port: string[] | null }} given an answered text, and the notes beside it
 * @param {import("../../common/noted.mjs").Note} note
 * @param {(text: string) => Promise<string | undefined>} becomes what all documents are, or become; undefined where that is open
 * @returns {Promise<{ first: number, then: number } | null>}
 */
export async function otherOrder(given, { at, who, document }, becomes) {
  const { session, text, outline, port } = given;
  const now = textOf(documentAt(session, who, at));
  const isOfNow = (note) => note.who === SERVER && note.document === now && note.at === notedPlace(session, SERVER, at);
  if (notesIn(port).some(isOfNow) || (await becomes(textUpTo(text, outline, at))) !== now) return null;
  let tried = 0;
  for (const { first, then, text: other } of otherOrders(given, at)) {
    if ((await becomes(other)) === document) return { first, then };
    if (++tried === MOST) return null;
  }
  return null;
}
