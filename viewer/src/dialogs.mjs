// The page's dialogs: examples, paste, save, a client's name, what an editor showed, lanes, a judged trace.

import { element, fill, setText } from "./dom.mjs";
import { SERVER } from "../../common/fold.mjs";
import { splitInput } from "../../common/input.mjs";
import { noteAt, notedPlace } from "../../common/noted.mjs";
import { shownPlace } from "./state.mjs";
import { traceTable } from "./trace.mjs";
import { built, tree } from "./tree.mjs";
import { nameOfMember, noteWords, placeWords } from "./words.mjs";

export function openDialog(id) {
  element(id).returnValue = "";
  element(id).showModal();
  element(id).scrollTop = 0; // its button may be at its end, and has the focus
}

/* What a dialog was closed by. */
const onClose = (id, act) => {
  element(id).onclose = () => act(element(id).returnValue);
};

/** A judged trace, with the violation in its lists. */
export function showTrace({ trace, verdict }) {
  element("trace-verdict").textContent = verdict.words;
  element("trace-verdict").className = `verdict ${verdict.holds ? "good" : "bad"}`;
  fill("trace-events", traceTable(trace, verdict));
  openDialog("judged");
}

export function askName({ outline }, client) {
  element("naming").dataset.client = client;
  element("named").textContent = nameOfMember(client);
  element("called").value = outline.names.get(client) ?? "";
  openDialog("naming");
}

/** What a participant's document was seen to be at the place: the text that is noted, or an empty field. */
export function askNote({ session, port, outline, ...state }, who) {
  const place = shownPlace({ session, ...state });
  const at = notedPlace(session, who, place);
  const noted = noteAt(port, who, at);
  const whose = who === SERVER ? "the server’s document was" : `the editor of ${nameOfMember(who, outline.names)} showed`;
  const since = at > 0 && at < place ? ` (ot.js’ text has been the same since ${placeWords(session, at)}; the note stands there)` : "";
  element("noting").dataset.who = who;
  setText("noted", `At ${placeWords(session, place)}, ${whose}${since}:`);
  element("showed").value = noted ?? "";
  setText("noted-answer", "");
  element("forget-note").hidden = noted === null;
  openDialog("noting");
  element("showed").focus();
  element("showed").dispatchEvent(new Event("input"));
}

const showed = () => element("showed").value;

const notedOf = () => (element("noting").dataset.who === SERVER ? SERVER : Number(element("noting").dataset.who));

/* Compares the text at once; an answer that comes late is of an old text. */
function watchNote(bench) {
  element("showed").oninput = async () => {
    const asked = showed();
    let words;
    try {
      words = noteWords(await bench.askNote(notedOf(), asked), bench.state.outline.names);
    } catch (fault) {
      words = `Not compared: ${fault.message}.`;
    }
    if (asked === showed() && element("noting").open) setText("noted-answer", words);
  };
}

export function paste() {
  element("pasted").value = "";
  openDialog("pasting");
}

const ofClient = (act, client, words, title) => tree("button", { type: "button", class: "small engine", "data-act": act, "data-client": client, title }, words);

/* What can be done with a client: the last one that is there at the opening can join later, the first that joins later be there. */
function actsOf(client, { present }) {
  return [
    ofClient("rename", client, "name", "gives the client a name"),
    client === present - 1 && ofClient("oneLate", client, "joins later", "joins before its first instruction, and is not there at the opening"),
    client === present && ofClient("onePresent", client, "is there at the opening", "its join goes"),
    ofClient("leaveOutClient", client, "leave out", "the client goes, with its instructions; those behind it have the number before"),
  ];
}

/** The clients, which of them have a lane, and what can be done with them. */
export function showLanes({ session, hidden, outline }) {
  const rows = session.members.map(({ number }) => {
    const box = tree("input", { type: "checkbox", value: number, checked: !hidden.has(number) });
    return tree("p", {}, tree("label", {}, box, ` ${nameOfMember(number, outline.names)} `), actsOf(number, session));
  });
  element("shown-lanes").replaceChildren(...rows.map((row) => built(row)));
  if (!element("hiding").open) openDialog("hiding");
}

/* Clients are added and left out, and their dialog shows them when the engine has answered. */
function watchClients(bench) {
  const change = async (action) => {
    bench.dispatch(action);
    await bench.settled();
    if (element("hiding").open && bench.state.session) showLanes(bench.state);
  };
  element("shown-lanes").onclick = ({ target }) => {
    const { act, client } = target.closest("button")?.dataset ?? {};
    if (act === "rename") {
      element("hiding").close();
      askName(bench.state, Number(client));
    } else if (act) change({ do: act, client: Number(client) });
  };
  element("add-client").onclick = () => change({ do: "addClient", isLate: false });
  element("add-late").onclick = () => change({ do: "addClient", isLate: true });
}

/* The clients that nothing happens to around the place. */
function stillAround(state) {
  const place = shownPlace(state);
  const near = new Set(state.session.steps.slice(Math.max(1, place - 10), place + 12).map(({ line }) => line.client));
  return [...state.session.members.keys()].filter((client) => !near.has(client));
}

/**
 * Listens to the dialogs.
 * @param {import("./bench.mjs").Bench} bench
 * @param {object} to
 * @param {{ title: string, sentence: string }[]} to.choices the examples
 * @param {(number: number) => void} to.openChoice
 * @param {() => void} to.showEvery shows every session of two edits
 * @param {(text: string) => void} to.take what was pasted
 * @param {(what: string) => void} to.save
 */
export function watchDialogs(bench, { choices, openChoice, showEvery, take, save }) {
  const act = (name, more) => bench.dispatch({ do: name, ...more });
  const choice = ({ title, sentence }, i) => tree("button", { value: i, class: "choice" }, tree("b", {}, title), ` ${sentence}`);
  fill("choices", choices.map(choice));
  onClose("choosing", (value) => (value === "every" ? showEvery() : value !== "" && openChoice(Number(value))));
  onClose("saving", (value) => value !== "" && save(value));
  onClose("pasting", (value) => {
    const pasted = element("pasted").value;
    if (value === "show") take(pasted);
    if (value === "compare") act("compare", { port: splitInput(`%%\n${pasted}`).port });
  });
  watchNote(bench);
  watchClients(bench);
  onClose("noting", (value) => {
    if (value === "note" || value === "forget") act("note", { who: notedOf(), document: value === "note" ? showed() : null });
  });
  onClose("naming", (value) => value === "name" && act("name", { client: Number(element("naming").dataset.client), name: element("called").value }));
  const hide = (hidden) => {
    act("hide", { hidden });
    showLanes(bench.state);
  };
  element("shown-lanes").onchange = () => {
    const boxes = [...element("shown-lanes").querySelectorAll("input")];
    act("hide", { hidden: boxes.filter((box) => !box.checked).map((box) => Number(box.value)) });
  };
  element("all-lanes").onclick = () => hide([]);
  element("near-lanes").onclick = () => hide(stillAround(bench.state));
}
