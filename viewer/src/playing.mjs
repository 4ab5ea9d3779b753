// Playing by keys, and typing into documents.

import { element } from "./dom.mjs";
import { SERVER } from "../../common/fold.mjs";
import { headsAt, receiptsIn, stateAt } from "../../common/places.mjs";
import { cards } from "./screen.mjs";
import { selectionNow } from "./selection.mjs";
import { documentNow, shownPlace } from "./state.mjs";
import { watchTyping } from "./typing.mjs";

/** What a key plays for the chosen client: { instruction }, or { reason } where there is nothing to play. */
export function played(state, name) {
  const { session, chosen } = state;
  if (chosen === null || !session.members[chosen]) return { reason: "Choose a client first: by its number’s key, or by a click on its card." };
  const place = shownPlace(state);
  const { up, down } = headsAt(session, chosen, place);
  const isThere = stateAt(session, chosen, place).state !== "not-joined";
  if (name === "take" && up && state.asked.includes(up)) return { reason: `The engine has not answered ${up} yet.` };
  const [instruction, reason] = {
    take: [up, `No message of client ${chosen} is under way to the server.`],
    next: [down[receiptsIn(state.asked, chosen)], `Nothing is under way to client ${chosen}.`],
    join: [isThere ? null : `join ${chosen}`, `Client ${chosen} has joined.`],
    read: [isThere ? `read ${chosen}` : null, `Client ${chosen} has not joined.`],
  }[name];
  return instruction ? { instruction } : { reason };
}

/* What is selected of an editor's document, which the state has from now on. */
function selected(bench, editor) {
  cards.enter(editor);
  const selection = selectionNow(editor, bench.state.caret);
  if (selection) keepSelected(bench, { client: Number(editor.dataset.who), ...selection });
  return selection;
}

function keepSelected(bench, selection) {
  const { caret } = bench.state;
  if (caret && Object.keys(selection).every((key) => caret[key] === selection[key])) return;
  bench.dispatch({ do: "select", ...selection });
}

/** Listens to the cards: their documents are editors, and the client whose card is in use is the one that keys play. */
export function watchCards(bench) {
  const act = (name, more) => bench.dispatch({ do: name, ...more });
  watchTyping(element("cards"), {
    type: (change) => act("type", change),
    textAt: (client, from, to) => (documentNow(bench.state, client) ?? []).slice(from, to).map(({ character }) => character).join(""),
    selected: (editor) => selected(bench, editor),
    select: (client, selection) => act("select", { client, ...selection, isPut: true }),
    undo: () => act("undo"),
    redo: () => act("redo"),
    compose: (client) => {
      if (client === null) cards.forget(cards.composing);
      cards.composing = client;
    },
  });
  document.addEventListener("selectionchange", () => {
    if (cards.writing !== null && cards.composing === null) selected(bench, document.activeElement);
  });
  for (const name of ["focusin", "click"])
    element("cards").addEventListener(name, (event) => {
      const word = event.target.closest("[data-card]")?.dataset.card ?? SERVER;
      const client = word === SERVER ? null : Number(word);
      if (client !== null && client !== bench.state.chosen) act("choose", { client });
    });
  element("cards").addEventListener("focusin", ({ target }) => {
    if (!target.matches(".document[contenteditable]")) return;
    setTimeout(() => {
      if (target !== document.activeElement) return;
      selected(bench, target);
      act("choose", { client: Number(target.dataset.who) });
    });
  });
}

/** Chooses a client, and puts the focus on its card. */
export function choose(bench, client) {
  if (!bench.state.session.members[client]) return;
  bench.dispatch({ do: "choose", client });
  element("cards").querySelector(`[data-card="${client}"]`)?.focus();
}
