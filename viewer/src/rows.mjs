// The rows: each instruction's mark on its participant's lane, and its text.

import { brief, quoted } from "../../common/characters.mjs";
import { SERVER } from "../../common/fold.mjs";
import { svgText } from "./layout.mjs";
import { colourOf } from "./theme.mjs";
import { tree } from "./tree.mjs";
import { instructionOf, operationText } from "./words.mjs";

const circle = (cx, cy, r, look) => tree("circle", { cx, cy, r, ...look });
const path = (d, look) => tree("path", { d, ...look });
const outlined = (stroke, width) => ({ fill: "var(--background)", stroke, "stroke-width": width });

/* The mark of an instruction at a point; k is the client's colour, m that of the operation's maker. */
const MARKS = {
  edit: (x, y, k) => circle(x, y, 6, { fill: k }),
  take: (x, y, k) => tree("rect", { x: x - 6, y: y - 6, width: 12, height: 12, rx: 1.5, fill: k }),
  deliver: (x, y, k, m) => circle(x, y, 5.5, outlined(m, 2.6)),
  ack: (x, y, k) => path(`M${x} ${y - 7}l7 7l-7 7l-7 -7z`, outlined(k, 2.2)),
  join: (x, y, k) => [circle(x, y, 7, outlined(k, 2.2)), path(`M${x - 4} ${y}h8M${x} ${y - 4}v8`, { stroke: k, "stroke-width": 2 })],
  read: (x, y, k) => [path(`M${x - 7} ${y}q7 -8 14 0q-7 8 -14 0z`, outlined(k, 1.6)), circle(x, y, 2.4, { fill: k })],
};
MARKS["read-server"] = MARKS.read;

/* The legend shows the same marks. */
export const markOf = (word, x, y, colour) => MARKS[word](x, y, colour, colour);

const makerOf = ({ line, received }) => (line.do === "deliver" ? received.maker : line.client);

function stepMark({ line, moved, received }, layout, place) {
  if (!layout.members.has(moved)) return null;
  const [x, y] = [layout.x(moved), layout.y(place)];
  const colour = line.client === undefined ? "var(--ink)" : colourOf(line.client);
  const mark = MARKS[line.do](x, y, colour, colourOf(makerOf({ line, received })));
  if (line.do !== "join") return mark;
  return [path(`M${layout.x(SERVER)} ${y}H${x}`, { stroke: colour, "stroke-width": 1.5, "stroke-dasharray": "2 4" }), mark];
}

const bold = (isBold) => (isBold ? { "font-weight": 700 } : {});

function stepText(step, y, strong) {
  const { line } = step;
  const operation = line.edit || line.applied || line.appended;
  const colour = line.client === undefined ? "var(--ink)" : colourOf(line.client);
  const head = svgText(56, y, instructionOf(line), { "font-size": 12, fill: colour, ...strong });
  let rest = "";
  if (operation) rest = operationText(operation, 20);
  else if (/^read/.test(line.do)) rest = brief(quoted(line.document), 20);
  else if (line.do === "ack" && line.sent) rest = `sends ${operationText(line.sent.operation, 14)}`;
  const fill = operation ? colourOf(makerOf(step)) : "var(--dim)";
  return [head, rest && svgText(144, y, rest, { "font-size": 12, fill, ...strong })];
}

/* In a narrow column the text beside the diagram, or the line above it, says what was refused and why. */
const refusedText = (stop, { textWidth }) => (textWidth < 200 ? "refused" : `${instructionOf(stop)} refused: ${stop.stopped}`);

const endWords = (end) => (end === "quiet" ? "all arrived" : end === null ? end : "under way");

/* The rows behind the last place: a refused instruction, and the end. */
function closingRow(session, layout, row) {
  const y = layout.y(row);
  const isStop = session.stop && row === session.length + 1;
  const isGood = session.end === "quiet" && !session.stop;
  const colour = isStop ? "var(--bad)" : isGood ? "var(--good)" : "var(--dim)";
  const words = isStop ? refusedText(session.stop, layout) : endWords(session.end);
  const texts = svgText(56, y + 4, words, { "font-size": 12, ...bold(true), fill: colour });
  if (!isStop) return { texts, marks: null };
  const who = session.stop.client === undefined || session.stop.do === "take" ? SERVER : session.stop.client;
  if (!layout.members.has(who)) return { texts, marks: null };
  const x = layout.x(who);
  return { texts, marks: path(`M${x - 6} ${y - 6}l12 12m0 -12l-12 12`, { stroke: colour, "stroke-width": 3 }) };
}

/** { marks, texts } of a row. */
export function drawnRow(session, layout, row, { place, port }) {
  if (row > session.length) return closingRow(session, layout, row);
  const y = layout.y(row) + 4;
  const strong = bold(row === place);
  const number = svgText(44, y, row, { "text-anchor": "end", "font-size": 11, fill: "var(--faint)", ...strong });
  if (row === 0) return { marks: null, texts: [number, svgText(56, y, "opening", { "font-size": 12, fill: "var(--dim)", ...strong })] };
  const differs = port && (row === port.first || port.differencesAt(row).length > 0);
  const cross = differs && svgText(4, y, "≠", { "font-size": 14, ...bold(true), fill: "var(--bad)" });
  const step = session.steps[row];
  return { marks: stepMark(step, layout, row), texts: [cross, number, stepText(step, y, strong)] };
}
