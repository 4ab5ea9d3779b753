// Where the diagram has what: a row for each place, from above to below; texts on the left, then a lane for each
// participant, the server's in the middle.

import { SERVER } from "../../common/fold.mjs";
import { tree } from "./tree.mjs";

export const HEAD_HEIGHT = 30;
const TEXT_WIDTH = { wide: 310, narrow: 150 };
const MARGIN = 16;

/** Between the texts, which stand over what is scrolled, and the first lane. */
export const GAP = 14;

/* The least width of a lane whose head has its name whole. */
const NAMED = 60;

const laneWidth = (clients) => [[2, 150], [3, 120], [5, 92], [9, 62], [17, 40]].find(([n]) => clients <= n)?.[1] || 24;

/* The width of a lane, and how many of all are seen whole in so many pixels. */
function fitted(widest, lanes, room) {
  if (widest * lanes <= room) return { lane: widest, whole: lanes };
  const least = Math.min(widest, NAMED);
  const whole = Math.max(1, Math.min(lanes, Math.floor(room / least)));
  return { lane: Math.max(least, Math.floor(room / whole)), whole };
}

/*
 * { rowHeight, laneWidth, textWidth, width, members, leftOf, x, y }: members are the participants that have a lane, the server and the
 * clients that are not hidden; leftOf is how far to scroll until a column is the first that is seen, x of a member's lane, y of a
 * place's row, in pixels. In a narrow window the texts are the instructions alone. Lanes are made to fit into a room, the width of
 * what is seen of the diagram.
 */
export function layoutOf(session, isNarrow = false, hidden = new Set(), room = Infinity) {
  const textWidth = isNarrow ? TEXT_WIDTH.narrow : TEXT_WIDTH.wide;
  const shown = [...session.members.keys()].filter((client) => !hidden.has(client));
  const lanes = shown.length + 1;
  const { lane, whole } = fitted(laneWidth(shown.length), lanes, room - textWidth - MARGIN);
  const width = textWidth + lane * lanes + MARGIN;
  const left = Math.ceil(shown.length / 2);
  const columns = new Map(shown.map((client, i) => [client, i < left ? i : i + 1]));
  columns.set(SERVER, left);
  const rowHeight = rowCount(session) <= 22 ? 34 : 26;
  return {
    rowHeight,
    laneWidth: lane,
    textWidth,
    width: whole === lanes ? width : Math.max(width, lane * (lanes - whole) + GAP + room), // so far that the last columns can be scrolled to
    members: columns,
    leftOf: (column) => (column === 0 ? 0 : lane * column + GAP),
    x: (who) => textWidth + lane * columns.get(who) + lane / 2,
    y: (place) => place * rowHeight + rowHeight / 2,
  };
}

/* A row for each place, one for a refused instruction, one for the end. */
export const rowCount = (session) => session.length + 1 + (session.stop ? 1 : 0) + (session.end === null ? 0 : 1);

export const svgText = (x, y, text, attributes) => tree("text", { x, y, ...attributes }, text);
