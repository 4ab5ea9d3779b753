// The lanes: their heads, and their lines, which say a client's state: thin, thick or double.

import { brief, seen } from "../../common/characters.mjs";
import { lastUpTo } from "../../common/document.mjs";
import { SERVER } from "../../common/fold.mjs";
import { GAP, HEAD_HEIGHT, svgText } from "./layout.mjs";
import { colourOf } from "./theme.mjs";
import { tree } from "./tree.mjs";
import { nameOfMember } from "./words.mjs";

/** The head of each lane, a click on which follows its participant. */
export function laneHeads(layout, followed, names = new Map()) {
  const isWide = layout.laneWidth >= 60;
  return [SERVER, ...[...layout.members.keys()].filter((who) => who !== SERVER)].map((who) => {
    const x = layout.x(who);
    const called = names.has(who) ? `${who} ${brief(seen(names.get(who)), layout.laneWidth >= 90 ? 12 : 6)}` : nameOfMember(who);
    const name = isWide ? called : who === SERVER ? "S" : String(who);
    const fill = followed === who ? "var(--pick)" : "transparent";
    const box = { x: x - layout.laneWidth / 2 + 1, y: 2, width: layout.laneWidth - 2, height: HEAD_HEIGHT - 5, rx: 5, fill };
    const colour = who === SERVER ? "var(--ink)" : colourOf(who);
    const look = { "text-anchor": "middle", "font-size": isWide ? 12 : 10, "font-weight": 700, fill: colour };
    return tree("g", { class: "lane", "data-who": who }, tree("rect", box), svgText(x, 19, name, look));
  });
}

const OF_HEADS = { "font-size": 11, fill: "var(--dim)" };

/** What stands above the texts. */
export const headTexts = (layout) => [
  tree("rect", { width: layout.textWidth - GAP, height: HEAD_HEIGHT, fill: "var(--background)" }),
  svgText(44, 19, "place", { "text-anchor": "end", ...OF_HEADS }),
  svgText(56, 19, layout.textWidth < 200 ? "instruction" : "instruction, operation", OF_HEADS),
];

const STROKES = {
  synchronized: [{ dx: 0, width: 1.2, opacity: 0.6 }],
  "awaiting-confirm": [{ dx: 0, width: 4, opacity: 0.55 }],
  "awaiting-with-buffer": [{ dx: -2.6, width: 2.6, opacity: 0.75 }, { dx: 2.6, width: 2.6, opacity: 0.75 }],
  "not-joined": [],
};

/** The lines of all lanes between the rows from and to. */
export function laneLines(session, layout, { from, to }) {
  const { x, y, rowHeight } = layout;
  const foot = y(session.length) + rowHeight / 2;
  const out = [];
  const line = (px, above, below, look) => {
    const top = Math.max(above, (from - 2) * rowHeight);
    const bottom = Math.min(below, (to + 3) * rowHeight);
    if (top < bottom) out.push(tree("path", { d: `M${px} ${top}V${bottom}`, ...look }));
  };
  line(x(SERVER), y(0), foot, { stroke: "var(--ink)", "stroke-width": 2.5 });
  for (const { number, states, statePlaces } of session.members) {
    if (!layout.members.has(number)) continue;
    for (let i = lastUpTo(statePlaces, from - 2); i < states.length && states[i].at <= to + 2; i++) {
      const below = i + 1 < states.length ? y(states[i + 1].at) : foot;
      for (const { dx, width, opacity } of STROKES[states[i].state])
        line(x(number) + dx, y(states[i].at), below, { stroke: colourOf(number), "stroke-width": width, opacity });
    }
  }
  return out;
}
