// What the signs of the diagram mean.

import { markOf } from "./rows.mjs";
import { tree } from "./tree.mjs";

const line = (d, look) => tree("path", { d, stroke: "var(--dim)", ...look });

const LEGEND = [
  ...["edit", "take", "deliver", "ack", "join", "read"].map((word) => [markOf(word, 0, 0, "var(--dim)"), word]),
  [line("M-11 0H11", { "stroke-dasharray": "5 4", "stroke-width": 2 }), "acknowledgement"],
  [line("M0 -8V8", { "stroke-width": 1.2 }), "synchronized"],
  [line("M0 -8V8", { "stroke-width": 4 }), "awaiting-confirm"],
  [line("M-3 -8V8M3 -8V8", { "stroke-width": 2.6 }), "awaiting-with-buffer"],
  [
    [line("M-8 -7L3 3", { "stroke-width": 1.6 }), tree("path", { d: "M7 7l-9 -3l5 -5z", fill: "var(--dim)" })],
    "the end of a message that was long under way",
  ],
  [
    [line("M-9 -6L1 2", { "stroke-width": 1.6 }), tree("circle", { cx: 3, cy: 4, r: 3.5, fill: "none", stroke: "var(--dim)" })],
    "a message that is not received",
  ],
  [line("M-11 0H11", { stroke: "var(--pick-line)", "stroke-dasharray": "7 4", "stroke-width": 2 }), "the place: what stands above has happened"],
];

export const legend = () =>
  LEGEND.map(([sign, words]) => tree("span", {}, tree("svg", { width: 22, height: 16, viewBox: "-11 -8 22 16" }, sign), " ", words));
