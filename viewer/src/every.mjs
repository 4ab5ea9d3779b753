// Every session of a few edits, as `otbench generate --every` lists them, by the text that the documents have at the end.

import { STAGES, toldOf } from "../../ports/small.mjs";
import { trimmed } from "../../common/input.mjs";
import { openDialog } from "./dialogs.mjs";
import { element, fill, setText } from "./dom.mjs";
import { tree } from "./tree.mjs";

/** The stages that are listed in a moment. */
const LISTED = STAGES.filter(({ edits }) => edits <= 2);

/* What asks for a stage. */
const wordsOf = ({ clients, edits, start, letters = 1, join = false }) =>
  ["--clients", `${clients}`, "--edits", `${edits}`, "--letters", `${letters}`, ...(start === "" ? [] : [`--start=${start}`]), ...(join ? ["--join"] : [])];

/* What happens in a session, in a line; how it begins, and the reads at its end, are the same in all. */
const happening = (text) =>
  text
    .split("\n")
    .map(trimmed)
    .filter((line) => line !== "" && !/^(clients|present|start|read|read-server)( |$)/.test(line))
    .join(", ");

/** The sessions by their last document: [document, numbers of sessions]; the longest document first. @param {{ document: string }[]} sessions */
export function byOutcome(sessions) {
  const found = new Map();
  sessions.forEach(({ document }, number) => found.set(document, [...(found.get(document) ?? []), number]));
  return [...found].sort(([a], [b]) => b.length - a.length || (a < b ? -1 : 1));
}

const outcome = (sessions, [document, numbers]) => {
  const count = `${numbers.length} session${numbers.length === 1 ? "" : "s"}`;
  const buttons = numbers.map((number) => tree("button", { value: number, class: "choice" }, happening(sessions[number].text) || "nothing happens"));
  return tree("details", {}, tree("summary", {}, tree("code", {}, document), ` ${count}`), buttons);
};

/**
 * Listens to the dialog.
 * @param {import("./bench.mjs").Bench} bench
 * @param {(text: string, title: string) => void} open a session that was chosen
 * @returns {() => void} opens it
 */
export function watchEvery(bench, open) {
  let sessions = [];
  const stage = () => LISTED[Number(element("stage").value)];
  const list = async () => {
    const asked = stage();
    setText("listed", "…");
    fill("outcomes");
    try {
      const listed = await bench.every(wordsOf(asked));
      if (asked !== stage()) return;
      sessions = listed;
      const outcomes = byOutcome(sessions);
      setText("listed", `${sessions.length} sessions, one for each order of the instructions at each client and at the server. At the end all documents are:`);
      fill("outcomes", outcomes.map((it) => outcome(sessions, it)));
    } catch (fault) {
      setText("listed", `They are not listed: ${fault.message}.`);
    }
  };
  fill("stage", LISTED.map((it, i) => tree("option", { value: i }, toldOf(it))));
  element("stage").onchange = list;
  element("small").onclose = () => {
    const { returnValue } = element("small");
    if (returnValue !== "") open(sessions[Number(returnValue)].text, `session ${Number(returnValue) + 1} of ${toldOf(stage())}`);
  };
  return () => {
    openDialog("small");
    if (sessions.length === 0) list();
  };
}
