// A trace that was judged, and the violation in its lists.

import { tree } from "./tree.mjs";

/* The parts of a pair as texts: of a trace that the program judged they are numbers. */
const textsOf = (pair) => [].concat(pair).map((part) => (typeof part === "object" ? JSON.stringify(part) : String(part)));

const tagOf = (pair) => textsOf(pair).slice(0, 2).join(":");

/**
 * A verdict as it is shown: { holds, words, events, tags }.
 * @param {{ verdict: string, events?: number[], tags?: number[][] }} judged what `otbench judge --json` prints @param {string} told what `explain --trace` prints
 */
export function verdictOf({ verdict, events = [], tags = [] }, told) {
  return { holds: verdict === "holds", words: told.trim().split(/\n */).join("\n"), events, tags: tags.map((tag) => tag.join(":")) };
}

const ROOM = 300;

function shownList(list, tags) {
  const shown = list.slice(0, ROOM).map((pair) => tree(tags.includes(tagOf(pair)) ? "mark" : "span", {}, tagOf(pair)));
  if (list.length > ROOM) shown.push(`… ${list.length - ROOM} more`);
  return shown.length ? shown.map((part, i) => [i > 0 && " ", part]) : tree("span", { class: "cut" }, "empty");
}

function shownEvent(event, number, { events, tags }) {
  const { replica, kind, insert = [], delete: deleted = [], list } = event;
  const what = [...textsOf(kind), ...insert.map((pair) => `inserts ${tagOf(pair)} at ${textsOf(pair)[2]}`), ...deleted.map((pair) => `deletes ${tagOf(pair)}`)];
  const isFault = events.includes(number);
  const cells = [number, replica, what.slice(0, 20).join("; "), textsOf(event.seen).join(", "), shownList(list, isFault ? tags : [])];
  return tree("tr", { class: isFault && "at-fault" }, cells.map((cell) => tree("td", {}, cell)));
}

/** The events of a trace as a table; of many those of the verdict and some around them. */
export function traceTable({ events }, verdict) {
  const centres = verdict.events.length ? verdict.events : [0];
  const isShown = (number) => events.length <= 200 || centres.some((centre) => Math.abs(number - centre) <= 20);
  const rows = [];
  let left = 0;
  const gap = () => {
    if (left) rows.push(tree("tr", {}, tree("td", { colspan: 5, class: "cut" }, `… ${left} events …`)));
    left = 0;
  };
  events.forEach((event, number) => {
    if (!isShown(number)) return void left++;
    gap();
    rows.push(shownEvent(event, number, verdict));
  });
  gap();
  const heads = ["event", "replica", "what", "sees", "list"].map((head) => tree("th", { scope: "col" }, head));
  return tree("table", {}, tree("thead", {}, tree("tr", {}, heads)), tree("tbody", {}, rows));
}
