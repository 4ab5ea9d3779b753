// The state at a place: a card for the server and for each client, with its document, in which each character has the
// colour of who inserted it. Where the page can play, a client's document is an editor, and what is at the head of its links a
// button: each button names the instruction that it puts behind the place.

import { quoted, seen } from "../../common/characters.mjs";
import { START, sameText, walk } from "../../common/document.mjs";
import { SERVER } from "../../common/fold.mjs";
import { documentAt, downAt, headsAt, logLengthAt, receiptsIn, stateAt, upAt, versionsOf } from "../../common/places.mjs";
import { colourOf } from "./theme.mjs";
import { tree } from "./tree.mjs";
import { nameOfMember, orderWords, placeWords, shortName, shownApart, shownOperation, shownValue } from "./words.mjs";

export const authorOf = ({ maker }, names) => (maker === START ? "the start" : nameOfMember(maker, names));

/* The characters that are shown at a place, with what it deleted: [{ element, index, change }]; of a draft its own. */
function shownCharacters(session, who, { place, draft }) {
  if (draft && draft.client === who) return draft.elements.map((element, index) => ({ element, index, change: "" }));
  const elements = documentAt(session, who, place);
  const change = versionsOf(session, who).changeAt(place);
  if (!change) return elements.map((element, index) => ({ element, index, change: "" }));
  const { operation, before } = change;
  const shown = [];
  let index = 0;
  let old = 0;
  const add = (count, word) => {
    for (const end = index + count; index < end; index++) shown.push({ element: elements[index], index, change: word });
  };
  walk(operation, {
    keep: (count) => {
      add(count, "");
      old += count;
    },
    insert: (count) => add(count, "inserted"),
    drop: (count) => {
      for (const end = old + count; old < end; old++) shown.push({ element: before[old], index: -1, change: "deleted" });
    },
  });
  return shown;
}

/* Runs of one author and one change; the picked character is a run of its own. */
function runsOf(shown, { picked, names }) {
  const runs = [];
  for (const { element, index, change } of shown) {
    const last = runs[runs.length - 1];
    const isPicked = element === picked;
    const joins = last && last.maker === element.maker && last.change === change && !isPicked && !last.isPicked;
    const { maker, character: text } = element;
    if (joins) last.text += text;
    else runs.push({ maker, author: authorOf(element, names), change, index, isPicked, text });
  }
  return runs;
}

const cutMark = (count) => count > 0 && tree("span", { class: "cut", contenteditable: "false" }, `… ${count} characters …`);

const EDITOR = {
  contenteditable: "true",
  role: "textbox",
  "aria-multiline": "true",
  spellcheck: "false",
  autocapitalize: "off",
  tabindex: 0,
};

function shownRun({ maker, author, change, index, isPicked, text }) {
  const look = `${change}${isPicked ? " picked" : ""}`;
  const title = `${author}${change ? `, ${change} here` : ""}`;
  const style = maker === START ? null : `--maker:${colourOf(maker)}`;
  return tree("span", { class: look, title, "data-index": index, style }, seen(text));
}

/** How many characters of a document are shown: where there are few clients, and where there are many. */
const ROOM = { few: 600, many: 160 };

/** What is shown of a document that is written in begins at a multiple of this, and has as many characters at both sides of the caret. */
const STEP = 800;

/* The part that is shown of a long document: that around the caret where it is written in, else that around what the place changed. */
function partOf(shown, who, { caret, writing }, clients) {
  const room = who === writing ? 3 * STEP : clients > 16 ? ROOM.many : ROOM.few;
  const changed = shown.findIndex(({ change }) => change !== "");
  const typed = caret?.client === who ? caret.focus : 0;
  const wanted = who === writing ? stepOf(typed) * STEP : (changed < 0 ? typed : changed) - (room >> 1);
  const from = Math.max(0, Math.min(wanted, shown.length - room));
  return { from, to: Math.min(shown.length, from + room) };
}

const stepOf = (index) => Math.floor(index / STEP) - 1;

/* A document at a place. Of one that is written in nothing is shown that was deleted. */
function shownDocument(session, who, view) {
  const isEditor = view.canPlay && who !== SERVER;
  const isThere = ({ index }) => index >= 0;
  const all = shownCharacters(session, who, view);
  const shown = who === view.writing ? all.filter(isThere) : all;
  const { from, to } = partOf(shown, who, view, session.clients);
  const runs = runsOf(shown.slice(from, to), view);
  const empty = !isEditor && tree("span", { class: "cut" }, "empty");
  const end = isEditor && runs.at(-1)?.text.endsWith("\n") && tree("br");
  const first = shown.slice(0, from).filter(isThere).length;
  const ofEditor = { ...EDITOR, "aria-label": `document of ${nameOfMember(who, view.names)}`, "data-first": first, "data-length": all.filter(isThere).length };
  const inside = [cutMark(from), runs.length ? [runs.map(shownRun), end] : empty, cutMark(shown.length - to)];
  return [tree("div", { class: "document", "data-who": who, ...(isEditor ? ofEditor : {}) }, inside), authors(runs)];
}

/* Who inserted and deleted what, for who does not see the page. */
function authors(runs) {
  const inWords = ({ text, author, change }) => `${quoted(text)} ${change ? `${change} here, ` : ""}by ${author}`;
  const words = runs.slice(0, 12).map(inWords);
  const more = runs.length > 12 ? `, and ${runs.length - 12} more` : "";
  return runs.length > 0 && tree("p", { class: "heard" }, words.join("; ") + more);
}

const badge = (text, look = "") => tree("span", { class: `badge ${look}` }, text);

const table = (rows) => rows.length > 0 && tree("dl", {}, rows.map(([name, value]) => [tree("dt", {}, name), tree("dd", {}, value)]));

/* What was seen, and what ot.js has where that is another text. */
function noteRow(who, { document, differences: [difference], order }, names) {
  const seen = who === SERVER ? "seen" : "my editor";
  if (!difference) return [seen, [shownValue(JSON.stringify(document)), " as ot.js has it"]];
  const [theirs, wanted] = shownApart(difference.found, difference.ours);
  const ours = ["ot.js has ", wanted, " here", order && [", and would have ", theirs, ` if the server had taken ${orderWords(order, names).other} first`]];
  return [tree("span", { class: "differs" }, seen), [theirs, " ", tree("span", { class: "against" }, ours)]];
}

function portRows(port, who, { place, names }) {
  if (!port) return [];
  if (port.areNotes) return [port.noteOf(who, place)].filter(Boolean).map((note) => noteRow(who, note, names));
  const at = port.placeOf(who, place);
  return port.differencesOf(who, place).map(({ key, found, ours }) => {
    const [theirs, wanted] = shownApart(found, ours);
    const when = port.isEarlier(key, at, place) && ` (of ${placeWords(port.session, at)})`;
    return [tree("span", { class: "differs" }, `port: ${key}`), [theirs, " ", tree("span", { class: "against" }, "ot.js: ", wanted), when]];
  });
}

function card(who, { isMoved, names }, heading, body) {
  const colour = who === SERVER ? "var(--ink)" : colourOf(who);
  const look = `card${who === SERVER ? " server" : ""}${isMoved ? " moved" : ""}`;
  const words = { class: look, "data-card": who, tabindex: -1, style: `--who:${colour}`, "aria-label": nameOfMember(who, names) };
  return tree("section", words, tree("h2", {}, heading), body);
}

/* A button that puts an instruction behind the place; one that was pressed waits for the engine's answer. */
const playButton = (instruction, title, { words = instruction, look = "", isAsked = false } = {}) =>
  tree("button", { class: `play ${look}${isAsked ? " asked" : ""}`, "data-play": instruction, title, disabled: isAsked }, words);

const READ = { words: "read", look: "small" };

const noteButton = (who, title, { canPlay, canNote }) => canPlay && canNote && tree("button", { class: "small", "data-note": who, title }, "I saw …");

/* Who it is, and its state: as wide as the buttons beside it leave it, so that they stay where they are. */
const called = (...words) => tree("span", { class: "who" }, words);

const acts = (...buttons) => buttons.some(Boolean) && tree("span", { class: "acts" }, buttons);

function serverCard(session, view, isMoved) {
  const { place, canPlay } = view;
  const length = logLengthAt(session, place);
  const entries = session.log.slice(Math.max(0, length - 4), length).reverse();
  const lines = entries.map(({ number, operation, maker }) => [`${number}: `, shownOperation(operation, maker), ` ${nameOfMember(maker, view.names)}`]);
  if (length > 4) lines.push(`and ${length - 4} before`);
  const rows = length ? [["log, last first", lines.map((line, i) => [i > 0 && tree("br"), line])]] : [];
  rows.push(...portRows(view.port, SERVER, view));
  const read = canPlay && playButton("read-server", "shows the server’s document here", READ);
  const heading = [called("server ", badge(`rev ${length}`)), acts(noteButton(SERVER, "notes what the server’s document was seen to be here, beside what ot.js has", view), read)];
  return card(SERVER, { ...view, isMoved }, heading, [shownDocument(session, SERVER, view), table(rows)]);
}

const isAsked = (instruction, { asked }) => Boolean(asked?.includes(instruction));

function linkRows(session, client, view) {
  const { place, canPlay } = view;
  const rows = [];
  const up = upAt(session, client, place);
  const asHead = (words, instruction, title, isAsked) =>
    playButton(instruction, title, { words: [words, " ", tree("b", {}, instruction.split(" ")[0])], look: "head", isAsked });
  if (up) {
    const message = [shownOperation(up.operation, client), ` at revision ${up.revision}`];
    const take = `take ${client}`;
    rows.push(["to server", canPlay ? asHead(message, take, "the server takes it (u)", isAsked(take, view)) : message]);
  }
  const { from, to } = downAt(session, client, place);
  const { down } = headsAt(session, client, place);
  const asked = receiptsIn(view.asked ?? [], client);
  const most = 3 + asked;
  const words = session.log.slice(from, Math.min(to, from + most)).map(({ maker, operation }, i) => {
    const isOwn = maker === client;
    if (i > asked || !canPlay) return isOwn ? "ack" : shownOperation(operation, maker);
    const shown = isOwn ? "its own operation" : shownOperation(operation, maker);
    return asHead(shown, down[i], isOwn ? "the client has its operation confirmed (n)" : "the client takes it (n)", i < asked);
  });
  if (to - from > most) words.push(`and ${to - from - most} more`);
  if (words.length) rows.push(["from server", words.map((word, i) => [i > 0 && ", ", word])]);
  return rows;
}

const STATE_LOOKS = { synchronized: "", "awaiting-confirm": "confirm", "awaiting-with-buffer": "buffer", "not-joined": "" };

function clientCard(session, client, view, isMoved) {
  const { place, canPlay, names } = view;
  const { state, revision, outstanding, buffer } = stateAt(session, client, place);
  const given = names?.has(client) && [" ", tree("span", { class: "called" }, `(${shortName(names.get(client))})`)];
  const name = [tree("span", { class: "name" }, `client ${client}`), given, " ", badge(state, STATE_LOOKS[state])];
  const rename = canPlay && tree("button", { class: "small", "data-name": client, title: "gives the client a name" }, "name");
  if (state === "not-joined") {
    const join = `join ${client}`;
    const asJoin = { look: "head", isAsked: isAsked(join, view) };
    return card(client, { ...view, isMoved }, [called(name), acts(rename)], canPlay && playButton(join, "the client joins with the server’s document (+)", asJoin));
  }
  const rows = [];
  if (outstanding) rows.push(["outstanding", shownOperation(outstanding, client)]);
  if (buffer) rows.push(["buffer", shownOperation(buffer, client)]);
  rows.push(...linkRows(session, client, view), ...portRows(view.port, client, view));
  const isSame = sameText(documentAt(session, client, place), documentAt(session, SERVER, place));
  const read = canPlay && playButton(`read ${client}`, "shows the document here (r)", READ);
  const note = noteButton(client, "notes what an editor showed here, beside what ot.js has", view);
  const heading = [called(name, " ", badge(`rev ${revision}`), " ", badge(isSame ? "= server" : "≠ server")), acts(note, read, rename)];
  return card(client, { ...view, isMoved }, heading, [shownDocument(session, client, view), table(rows)]);
}

/* Of what a participant's card is made: where all of it is the same, the card is. */
export function cardParts(session, who, view) {
  const { place, port, picked, draft, canPlay, canNote, names, caret, writing, asked } = view;
  const step = session.steps[place];
  const moved = step?.moved === who ? step.line : null;
  const parts = [session.clients, moved, session.server.markAt(place), port, port && place, picked, canPlay, canNote, [...names].join()];
  if (who === SERVER) return parts;
  const own = asked.filter((instruction) => instruction.endsWith(` ${who}`)).join();
  const { versions } = session.members[who];
  const up = upAt(session, who, place);
  const typed = caret?.client === who ? caret.focus : 0;
  const part = who === writing ? stepOf(typed) : -typed;
  return [...parts, stateAt(session, who, place), versions.markAt(place), up?.operation, draft?.client === who ? draft : null, own, who === writing, part];
}

/*
 * A participant's card at a place: view.place. Of the rest of a view `draft` is what a client's document is while that is not
 * answered, `asked` the instructions that the engine has not answered yet, `caret` what is selected where the user types, `writing` the client whose document
 * has the focus, `names` what clients are called, `canPlay` says whether there is an engine, and `canNote` whether no port's lines stand beside the session.
 */
export function cardOf(session, who, view) {
  const step = session.steps[view.place];
  const isMoved = Boolean(step) && step.moved === who;
  return who === SERVER ? serverCard(session, view, isMoved) : clientCard(session, who, view, isMoved);
}
