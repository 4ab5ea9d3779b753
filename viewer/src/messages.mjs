// The messages: arrows from the row in which one was sent to the row in which it was received, in the colour of who made
// the operation; acknowledgements dashed. One that was sent or received at the place stands out, so do those under way.

import { lastUpTo } from "../../common/document.mjs";
import { SERVER } from "../../common/fold.mjs";
import { svgText } from "./layout.mjs";
import { colourOf } from "./theme.mjs";
import { tree } from "./tree.mjs";
import { operationText } from "./words.mjs";

/* Of a message that is under way for more rows only the ends are drawn, but where it is sent or received, or followed. */
const LONG = 14;

/* Of more messages that are sent or received at one place only the ends are drawn too. */
const MANY = 8;

/* The messages of the rows from and to on the links of clients that have a lane, those that are never received too. */
function messagesIn(session, layout, { from, to }) {
  const isIn = (m) => m.sent <= to + 1 && (m.got === null ? m.sent + 1 : m.got) >= from - 1 && layout.members.has(m.client);
  const messages = session.messages.filter(isIn);
  const { log, logPlaces } = session;
  for (let i = lastUpTo(logPlaces, from - 2); i < log.length && log[i].sent <= to + 1; i++)
    for (const { number: client, last, statePlaces, states } of session.members)
      if (layout.members.has(client) && last.revision <= i && states[lastUpTo(statePlaces, log[i].sent)].state !== "not-joined")
        messages.push({ ...log[i], kind: client === log[i].maker ? "ack" : "down", client, got: null });
  return messages;
}

/* How a message is drawn, or null where it is not. */
function lookOf(message, session, { place, followed }, isOfMany) {
  const { sent, got, client, kind } = message;
  const isTheirs = followed === client;
  const isNow = sent === place || got === place;
  const isUnderWay = sent <= place && (got === null || got > place);
  const isOther = followed !== null && followed !== SERVER && !isTheirs;
  const isWhole = got !== null && ((isNow && !isOfMany) || isTheirs || got - sent <= LONG);
  if (isOther && !isNow && !isWhole) return null;
  if (got === null && kind !== "up" && !isNow && !isTheirs && session.clients > 8) return null;
  return {
    isWhole,
    isNow,
    isTheirs,
    isOther: isOther && !isNow,
    height: isNow ? 2 : isUnderWay ? 1 : 0,
    opacity: isNow ? 1 : isOther ? 0.15 : isUnderWay ? 0.85 : 0.5,
    width: isNow ? 2.6 : isUnderWay ? 1.8 : 1.2,
    colour: colourOf(message.maker),
    dashes: kind === "ack" ? { "stroke-dasharray": "5 4" } : {},
  };
}

const round = (number) => number.toFixed(1);

function arrow([x1, y1], [x2, y2], look, hasHead) {
  const length = Math.hypot(x2 - x1, y2 - y1);
  const [ux, uy] = [(x2 - x1) / length, (y2 - y1) / length];
  const [gap, head] = hasHead ? [7, 5] : [0, 0]; // from the lane to the point, and from the point to where the line ends
  const [tipX, tipY] = [x2 - ux * gap, y2 - uy * gap];
  const line = `M${round(x1)} ${round(y1)}L${round(tipX - ux * head)} ${round(tipY - uy * head)}`;
  const point = `M${round(tipX)} ${round(tipY)}l${round(-ux * 8 - uy * 4)} ${round(-uy * 8 + ux * 4)}l${round(uy * 8)} ${round(-ux * 8)}z`;
  const path = tree("path", { d: line, stroke: look.colour, "stroke-width": look.width, ...look.dashes, fill: "none" });
  return tree("g", { opacity: look.opacity }, path, hasHead && tree("path", { d: point, fill: look.colour }));
}

/* Where a message begins and ends, and how far from the lanes its ends are drawn. */
function endsOf(message, { x, y, rowHeight, laneWidth }) {
  const [here, there] = message.kind === "up" ? [x(message.client), x(SERVER)] : [x(SERVER), x(message.client)];
  const reach = Math.sign(there - here) * Math.min(laneWidth * 0.45, 34);
  const end = message.got === null ? [here + reach, y(message.sent) + rowHeight * 0.7] : [there, y(message.got)];
  return { here, there, reach, start: [here, y(message.sent)], end };
}

/* What a user takes hold of at a message's end: one that is not received is let through, a received one is dragged. */
function handleOf(message, layout) {
  const [cx, cy] = endsOf(message, layout).end;
  if (message.got !== null) return tree("circle", { class: "end", cx, cy, r: 9, fill: "transparent", "data-end": message.got });
  const title = tree("title", {}, "not received: a click lets it through, with those before it");
  return tree("circle", { class: "let", cx, cy, r: 10, fill: "transparent", "data-let": letIn(message), "data-sent": message.sent }, title);
}

const letIn = ({ kind, client, number }) => (kind === "up" ? `up ${client}` : `down ${client} ${number}`);

function arrowsOf(message, look, layout, { from, to }) {
  const { rowHeight } = layout;
  const isUp = message.kind === "up";
  const { here, there, reach, start, end } = endsOf(message, layout);
  if (message.got === null) {
    const circle = tree("circle", { cx: end[0], cy: end[1], r: 3.5, fill: "var(--background)", stroke: look.colour, "stroke-width": 1.5 });
    return [arrow(start, end, look, false), circle];
  }
  if (look.isWhole) return arrow(start, end, look, true);
  const drop = rowHeight * 0.62;
  const tail = isUp && message.sent >= from - 1 && arrow(start, [here + reach, start[1] + drop], look, false);
  return [tail, message.got <= to + 1 && arrow([there - reach, end[1] - drop], end, look, true)];
}

const ALONG = [0.5, 0.4, 0.6, 0.3, 0.7, 0.22, 0.78, 0.15, 0.85];

/* A label at the first place along its arrow, from the middle, where no other label stands. */
function labelOf(message, look, layout, { from, to, place }, labels) {
  const { x, y, rowHeight, laneWidth } = layout;
  if (!look.isWhole || !(look.isNow || look.isTheirs || laneWidth >= 90)) return null;
  const text = message.kind === "ack" ? "ack" : operationText(message.operation, laneWidth >= 120 ? 14 : 11);
  const width = [...text].length * 6.7 + 6;
  const [here, there] = message.kind === "up" ? [x(message.client), x(SERVER)] : [x(SERVER), x(message.client)];
  const [above, below] = [y(message.sent), y(message.got)];
  const [first, last] = look.isNow ? [from + 2, to - 2] : [from - 1, to + 2];
  const spots = ALONG.map((f) => [here + (there - here) * f, above + (below - above) * f]).filter(
    ([, py]) => py > first * rowHeight && py < last * rowHeight,
  );
  const isFree = ([px, py]) => !labels.some((l) => Math.abs(l.px - px) < (l.width + width) / 2 && Math.abs(l.py - py) < 15);
  const [px, py] = spots.find(isFree) || spots[0] || [];
  if (px === undefined) return null;
  const fill = Math.floor(py / rowHeight) === place ? "var(--pick)" : "var(--background)";
  const box = tree("rect", { x: round(px - width / 2), y: round(py - 7.5), width: round(width), height: 15, rx: 3, fill, opacity: ".92" });
  const style = { "text-anchor": "middle", "font-size": 11, fill: look.colour, opacity: look.isOther ? 0.4 : 1, "font-weight": look.isNow && 700 };
  return { px, py, width, height: look.height, drawn: [box, svgText(round(px), round(py + 4), text, style)] };
}

/* Beside the server, how many messages a place has, where they are not drawn whole. */
function manyLabel(count, layout, place) {
  const style = { "font-size": 11, "font-weight": 700, fill: "var(--dim)" };
  return { height: 2, drawn: svgText(layout.x(SERVER) + 10, layout.y(place) + 14, `${count} messages`, style) };
}

const raised = (parts) => parts.sort((a, b) => a.height - b.height).map(({ drawn }) => drawn);

/* { arrows, labels, handles } of the rows that are drawn. */
export function drawnMessages(session, layout, view) {
  const arrows = [];
  const labels = [];
  const handles = [];
  const messages = messagesIn(session, layout, view);
  const now = messages.filter(({ sent, got }) => sent === view.place || got === view.place).length;
  for (const message of messages) {
    const look = lookOf(message, session, view, now > MANY);
    if (!look) continue;
    arrows.push({ height: look.height, drawn: arrowsOf(message, look, layout, view) });
    if (view.canPlay) handles.push(handleOf(message, layout));
    const label = labelOf(message, look, layout, view, labels);
    if (label) labels.push(label);
  }
  if (now > MANY) labels.push(manyLabel(now, layout, view.place));
  return { arrows: raised(arrows), labels: raised(labels), handles };
}
