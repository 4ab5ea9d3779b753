// The space-time diagram: lanes, messages and rows, as SVG.

import { headTexts, laneHeads, laneLines } from "./lanes.mjs";
import { GAP, HEAD_HEIGHT, layoutOf, rowCount } from "./layout.mjs";
import { drawnMessages } from "./messages.mjs";
import { drawnRow } from "./rows.mjs";
import { withValues } from "./theme.mjs";
import { SVG, markupOf, tree } from "./tree.mjs";

/*
 * The rows from and to, at a place: { graph, texts }. `followed` is the participant that is stepped through, or null;
 * `port` what a port printed beside, or null. Where the page can play, `canPlay`, the ends of messages can be taken hold of.
 */
export function diagram(session, layout, view) {
  const { from, to, place, port } = view;
  const { rowHeight, textWidth, width } = layout;
  const band = (row, w, fill) => row >= from && row <= to && tree("rect", { x: 0, y: row * rowHeight, width: w, height: rowHeight, fill });
  const bands = (w) => [band(place, w, "var(--pick)"), port && port.first !== null && band(port.first, w, "var(--bad-soft)")];
  const { arrows, labels, handles } = drawnMessages(session, layout, view);
  const rows = [];
  for (let row = Math.max(0, from); row <= Math.min(to, rowCount(session) - 1); row++) rows.push(drawnRow(session, layout, row, view));
  const cutLine = `M${textWidth - 6} ${(place + 1) * rowHeight}H${width}`;
  const cut = tree("path", { d: cutLine, stroke: "var(--pick-line)", "stroke-width": 1.5, "stroke-dasharray": "7 4" });
  const size = { width: textWidth - GAP, height: (to - from + 1) * rowHeight };
  const paper = tree("rect", { x: 0, y: from * rowHeight, ...size, fill: "var(--background)" });
  const marks = rows.map((row) => row.marks);
  return {
    graph: [bands(width), laneLines(session, layout, view), arrows, marks, labels, place >= from - 1 && place <= to && cut, handles],
    texts: [paper, bands(textWidth - GAP), rows.map((row) => row.texts)],
  };
}

/* The rows from and to as a file of its own. */
export function picture(session, view, theme) {
  const layout = layoutOf(session, false, view.hidden);
  const { graph, texts } = diagram(session, layout, { ...view, canPlay: false });
  const height = (view.to - view.from + 1) * layout.rowHeight + HEAD_HEIGHT;
  const title = tree("title", {}, `otbench session, places ${view.from} to ${Math.min(view.to, session.length)}`);
  const rows = tree("g", { transform: `translate(0 ${HEAD_HEIGHT - view.from * layout.rowHeight})` }, graph, texts);
  const paper = tree("rect", { width: "100%", height: "100%", fill: "var(--background)" });
  const box = { width: layout.width, height, viewBox: `0 0 ${layout.width} ${height}` };
  const font = { "font-family": "DejaVu Sans Mono, Menlo, Consolas, monospace" };
  const drawn = tree("svg", { xmlns: SVG, ...box, ...font }, title, paper, laneHeads(layout, view.followed, view.names), headTexts(layout), rows);
  return `${markupOf(withValues(drawn, theme))}\n`;
}
