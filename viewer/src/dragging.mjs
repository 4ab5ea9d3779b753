// The diagram by hand: the ends of messages are let through by a click, and dragged to other rows.

import { element } from "./dom.mjs";
import { headsAt, logLengthAt, stateAt } from "../../common/places.mjs";
import { shownPlace } from "./state.mjs";
import { built, tree } from "./tree.mjs";

const clamped = (place, { length }) => Math.max(1, Math.min(place, length));

/**
 * The instructions that let a message through which is not received, with those before it on its link, and the place that they are
 * played at: the one that is shown, or that at which the message was sent.
 * @param {string} which `up CLIENT` or `down CLIENT ENTRY`
 */
export function lettingThrough({ session, place }, which, sent) {
  const [link, client, entry] = which.split(" ");
  const at = Math.max(place, sent);
  const { up, down } = headsAt(session, Number(client), at);
  if (link === "up") return { at, instructions: up ? [up] : [] };
  const { revision, state } = stateAt(session, Number(client), at);
  const count = state === "not-joined" || logLengthAt(session, at) <= Number(entry) ? 0 : Number(entry) - revision + 1;
  return { at, instructions: down.slice(0, Math.max(0, count)) };
}

/** Moves the instruction that led to a place to another place. Where the run would stop before it stops now, it stays, and the reason is given. */
export async function moveInstruction(bench, from, to) {
  await bench.settled();
  const { session, fault } = bench.state;
  if (!session || fault || from < 1 || from > session.length || clamped(to, session) === from) return;
  bench.dispatch({ do: "move", from, to: clamped(to, session) });
  const { text } = bench.state;
  await bench.settled();
  if (bench.state.text !== text) return;
  const after = bench.state;
  if (!after.fault && after.session.length >= session.length) return;
  const why = after.refusal ? `: ${after.refusal.reason}` : "";
  bench.dispatch({ do: "undo" });
  await bench.settled();
  bench.dispatch({ do: "go", place: from });
  bench.dispatch({ do: "notice", notice: `This order is not possible${why}.` });
}

/**
 * Listens to the rows.
 * @param {import("./bench.mjs").Bench} bench @param {{ placeAt: (y: number) => number, layout: { rowHeight: number } }} timeline
 * @param {(place: number) => void} go
 */
export function watchRows(bench, timeline, go) {
  const rows = element("rows");
  let isDropped = false;
  rows.onpointerdown = (event) => {
    isDropped = false;
    const { end } = event.target.dataset;
    if (end === undefined || event.button !== 0) return;
    drag(Number(end), bench, timeline, (to) => {
      isDropped = true;
      moveInstruction(bench, Number(end), to);
    });
  };
  rows.onclick = (event) => {
    const { let: which, sent } = event.target.dataset;
    if (isDropped) isDropped = false;
    else if (which === undefined) go(timeline.placeAt(event.clientY));
    else letThrough(bench, which, Number(sent), go);
  };
}

/* Follows a pointer from the row of a place until it is let go, and says at which other row that is. */
function drag(from, bench, timeline, drop) {
  const mark = built(tree("div", { class: "dropped" }));
  const done = new AbortController();
  let to = from;
  const move = ({ clientY }) => {
    to = clamped(timeline.placeAt(clientY), bench.state.session);
    mark.style.top = `${(to > from ? to + 1 : to) * timeline.layout.rowHeight - 2}px`;
    if (to === from) mark.remove();
    else if (!mark.isConnected) element("rows").append(mark);
  };
  const end = ({ type }) => {
    done.abort();
    mark.remove();
    if (type === "pointerup" && to !== from) drop(to);
  };
  const { signal } = done;
  addEventListener("pointermove", move, { signal });
  for (const name of ["pointerup", "pointercancel"]) addEventListener(name, end, { signal });
}

function letThrough(bench, which, sent, go) {
  const { session, fault } = bench.state;
  const say = (notice) => bench.dispatch({ do: "notice", notice });
  if (fault?.line) return say("The text has a fault: mend it before you play.");
  const { at, instructions } = lettingThrough({ session, place: shownPlace(bench.state) }, which, sent);
  if (instructions.length === 0) return say("The message is not under way at this place.");
  if (at !== shownPlace(bench.state)) go(at);
  return bench.dispatch({ do: "play", instructions });
}
