// What the page knows, and how each action changes it. The text of the schedule is the session: who plays puts instructions into
// it. What the engine answers stands beside it until the text is another one.

import { quoted } from "../../common/characters.mjs";
import { withClient, withMoved, withOneLate, withOnePresent, withoutClient } from "./clients.mjs";
import { insertedText, makeElements, patched } from "../../common/document.mjs";
import { editOf, wellFormed } from "./edits.mjs";
import { canNote, carriedNotes, notedPlace, withNote } from "../../common/noted.mjs";
import { SERVER } from "../../common/fold.mjs";
import { documentAt } from "../../common/places.mjs";
import { outlineOf, placeOfLine, withInstructions, withName, withoutInstruction } from "../../common/outline.mjs";

/**
 * @typedef {object} State
 * @property {string} text the schedule's text
 * @property {import("../../common/outline.mjs").Outline} outline its lines
 * @property {string[] | null} port the lines that a port printed
 * @property {string} title
 * @property {number} place the place that is looked at
 * @property {string[]} asked the instructions that were played and that the engine has not answered yet
 * @property {number | null} stood the place that is shown until it has, the one that they were played at
 * @property {object[]} past what undo restores: { text, port, place, title, caret, isGuided, tag }
 * @property {object[]} future what redo leads on to
 * @property {string | null} answered the text that the session is of
 * @property {import("../../common/fold.mjs").Session | null} session
 * @property {import("../../common/printed.mjs").Port | null} beside the port's lines beside the session
 * @property {{ line: number, column: number, kind: string, cause: string } | null} fault of the text; line and column from 1
 * @property {{ line: number, reason: string } | null} refusal of an instruction; line from 1
 * @property {boolean} isLate whether the engine has not answered for long
 * @property {object | null} verdict what check answers; { fault } where it cannot
 * @property {{ text: string, place: number, lines: string[], reason?: import("./reason.mjs").Reason | null } | null} outlook whether the documents must agree at a place of a text, and to what; the reason is undefined where it was not asked for
 * @property {boolean} isReasonShown
 * @property {{ client: number, place: number, elements: object[] } | null} draft a client's document while its edits are not answered
 * @property {number} took how long the engine took for the last text, in milliseconds
 * @property {number | string | null} followed the participant that is stepped through
 * @property {object | null} picked the element that is marked
 * @property {number | null} chosen the client that keys play
 * @property {{ client: number, anchor: number, focus: number } | null} caret what is selected of the document that a user typed into last
 * @property {Set<number>} hidden the clients whose lanes are not shown
 * @property {string} notice what the page has to say
 * @property {boolean} isWelcome whether that is said to who comes for the first time
 * @property {boolean} isGuided whether the session was begun with what users typed: the page says what to do next
 */

/** @typedef {{ do: string, [key: string]: any }} Action the name of what is done, as below, and what it is done with */

/** @returns {State} */
export const emptyState = () => ({
  text: "",
  outline: outlineOf(""),
  port: null,
  title: "",
  place: 0,
  asked: [],
  stood: null,
  past: [],
  future: [],
  answered: null,
  session: null,
  beside: null,
  fault: null,
  refusal: null,
  isLate: false,
  verdict: null,
  outlook: null,
  isReasonShown: false,
  draft: null,
  took: 0,
  followed: null,
  picked: null,
  chosen: null,
  caret: null,
  hidden: new Set(),
  notice: "",
  isWelcome: false,
  isGuided: false,
});

/** How many steps back are kept, and how many characters their texts may have together. */
const DEPTH = 1000;
const ROOM = 1 << 26;

const snapshot = ({ text, port, place, title, caret, isGuided }, tag) => ({ text, port, place, title, caret, isGuided, tag });

/* Nothing that was played waits for the engine. */
const NOT_ASKED = { asked: [], stood: null, draft: null };

/* The state with another text; an action with the tag of the one before is undone together with it. */
function changed(state, { text, port: given, place = state.place, title = state.title, tag = null }) {
  const outline = text === state.text ? state.outline : outlineOf(text);
  const port = given === undefined ? carriedNotes(state.port, state, { text, outline }) : given;
  if (text === state.text && port === state.port) return { ...state, place, title };
  const last = state.past[state.past.length - 1];
  const joins = tag !== null && last !== undefined && last.tag === tag;
  const depth = Math.min(DEPTH, Math.ceil(ROOM / (text.length + 1)));
  const past = joins ? state.past : [...state.past.slice(-depth), snapshot(state, tag)];
  return { ...state, text, outline, port, place, title, past, future: [], ...NOT_ASKED, beside: null, notice: "" };
}

/* Undo and redo: the last of one list takes the state's place, which goes to the other list. */
function restored(state, from, to) {
  const list = state[from];
  if (list.length === 0) return state;
  const { text, port, place, title, caret, isGuided, tag } = list[list.length - 1];
  const lists = { [from]: list.slice(0, -1), [to]: [...state[to], snapshot(state, tag)] };
  return { ...state, ...lists, text, port, place, title, caret, isGuided, outline: outlineOf(text), ...NOT_ASKED, beside: null, notice: "" };
}

/** Whether the session is that of the text. */
export const isAnswered = (state) => state.answered === state.text;

/** The place that can be shown of the session there is: while instructions are not answered, the one that they were played at. */
export const shownPlace = ({ session, place, stood }) => (session ? Math.max(0, Math.min(stood ?? place, session.length)) : 0);

/* What was said of the shown place; null where that is not known. */
const saidNow = (state) => (state.outlook?.text === state.text && state.outlook.place === shownPlace(state) && isAnswered(state) ? state.outlook : null);

/** Whether the documents must agree at the shown place, and to what, in lines; none where that is not known. */
export const outlookNow = (state) => saidNow(state)?.lines ?? [];

/** Which transform led to their texts; null where that is not asked for, or not known. */
export const reasonNow = (state) => (state.isReasonShown ? saidNow(state)?.reason ?? null : null);

/** The elements of a client's document as the page shows it now; null while that is not known. */
export function documentNow(state, client) {
  if (state.draft) return state.draft.client === client && state.draft.place === state.place ? state.draft.elements : null;
  if (!isAnswered(state) || !state.session?.members[client]) return null;
  return documentAt(state.session, client, shownPlace(state));
}

function typed(state, { client, from, to, text }) {
  const elements = documentNow(state, client);
  const edit = elements && editOf(elements.map(({ character }) => character), from, Math.min(to, elements.length), text);
  const caret = caretBehind({ client, from, text });
  if (!edit) return elements ? { ...state, caret } : state;
  const place = state.draft ? state.place : shownPlace(state);
  const { asked } = state;
  const next = { ...played({ ...state, place }, { instructions: [`edit ${client} ${quoted(edit)}`] }), asked };
  const after = patched(elements, edit, makeElements(insertedText(edit), client, place + 1));
  return { ...next, draft: { client, place: next.place, elements: after }, caret, chosen: client };
}

/** Where the caret stands behind what was typed. */
export function caretBehind({ client, from, text }) {
  const index = from + [...wellFormed(text)].length;
  return { client, anchor: index, focus: index };
}

function played(state, { instructions, tag }) {
  if (instructions.length === 0) return state;
  const place = Math.min(state.place, state.outline.lines.length);
  const text = withInstructions(state.text, state.outline, place, instructions);
  const stood = state.stood ?? shownPlace(state);
  const next = changed(state, { text, place: place + instructions.length, tag });
  return text === state.text ? next : { ...next, asked: [...state.asked, ...instructions], stood, draft: state.draft };
}

/* What a user saw of a participant's document at the place; a document of null takes the note away. A document that has not changed gets a read to be noted at. */
function noted(state, { who, document }) {
  const { session } = state;
  if (!canNote(state.port) || !isAnswered(state) || !(who === SERVER ? session : session?.members[who])) return state;
  const at = notedPlace(session, who, shownPlace(state));
  if (at > 0) return changed(state, { text: state.text, port: withNote(state.port, { at, who, word: session.steps[at].line.do, document }) });
  if (document === null) return state;
  const read = who === SERVER ? "read-server" : `read ${who}`;
  const next = played(state, { instructions: [read] });
  return { ...next, port: withNote(next.port, { at: next.place, who, word: read, document }) };
}

const REDUCERS = {
  /* Another session in the place of this one: { text, title, port, place, isGuided }. */
  open: (state, { text, title = "", port = null, place = 0, isGuided = false }) => {
    const next = changed(state, { text, title, port, place });
    const past = state.text === "" ? [] : next.past;
    return { ...next, past, followed: null, picked: null, chosen: null, caret: null, hidden: new Set(), notice: "", isGuided };
  },
  /* The text as it was typed: { text, line, tag }, line being where the caret stands. */
  write: (state, { text, line, tag }) => {
    const next = changed(state, { text, tag });
    return { ...next, place: placeOfLine(next.outline, line) };
  },
  /* Instructions behind the place: { instructions, tag }. */
  play: played,
  /* A change in a client's document at the place: { client, from, to, text }. */
  type: typed,
  /* The instruction that led to the place goes. */
  takeOut: (state) => {
    const place = Math.min(state.place, state.outline.lines.length);
    return place === 0 ? state : changed(state, { text: withoutInstruction(state.text, place), place: place - 1 });
  },
  /* The instruction that is refused goes. */
  leaveOut: (state) => {
    const { session } = state;
    if (!isAnswered(state) || !session?.stop) return state;
    return changed(state, { text: withoutInstruction(state.text, session.length + 1), place: state.place });
  },
  /* The instruction that led to the place from leads to the place to. */
  move: (state, { from, to }) => {
    const last = state.outline.lines.length;
    const place = Math.max(1, Math.min(to, last));
    return from >= 1 && from <= last ? changed(state, { text: withMoved(state.text, state.outline, from, place), place }) : state;
  },
  /* One client more, which joins later where isLate; one fewer. */
  addClient: (state, { isLate }) => changed(state, { text: withClient(state.text, state.outline, isLate) }),
  leaveOutClient: (state, { client }) => ({
    ...changed(state, { text: withoutClient(state.text, state.outline, client), port: null }),
    chosen: null,
    caret: null,
    followed: null,
    hidden: new Set(),
  }),
  /* The last client that is there at the opening joins later; the first that joins later is there. */
  oneLate: (state) => changed(state, { text: withOneLate(state.text, state.outline) }),
  onePresent: (state) => changed(state, { text: withOnePresent(state.text, state.outline) }),
  note: noted,
  name: (state, { client, name }) => changed(state, { text: withName(state.text, client, name) }),
  /* A port's lines beside the session; null takes them away. */
  compare: (state, { port }) => changed(state, { text: state.text, port }),
  undo: (state) => restored(state, "past", "future"),
  redo: (state) => restored(state, "future", "past"),
  go: (state, { place }) => ({ ...state, stood: null, place: Math.max(0, Math.min(place, state.session ? state.session.length : 0)) }),
  follow: (state, { who }) => ({ ...state, followed: who }),
  choose: (state, { client }) => ({ ...state, chosen: client }),
  /* What is selected of a client's document: { client, anchor, focus }. */
  select: (state, { client, anchor, focus }) => ({ ...state, caret: { client, anchor, focus } }),
  pick: (state, { element }) => ({ ...state, picked: element === state.picked ? null : element }),
  hide: (state, { hidden }) => ({ ...state, hidden: new Set(hidden) }),
  notice: (state, { notice, isWelcome = false }) => ({ ...state, notice, isWelcome }),
  /* What the engine said of a text: a session, or a fault. */
  answer: (state, { text, session, refusal, took }) => {
    const isNow = text === state.text;
    const place = isNow ? Math.max(0, Math.min(state.place, session.length)) : state.place;
    return { ...state, answered: text, session, refusal, took, place, fault: null, isLate: false, beside: null, verdict: null, ...(isNow ? NOT_ASKED : {}) };
  },
  fault: (state, { fault, took }) => ({ ...state, fault, took, refusal: null, isLate: false, ...NOT_ASKED }),
  late: (state) => ({ ...state, isLate: true }),
  verdict: (state, { text, verdict }) => (text === state.answered && isAnswered(state) ? { ...state, verdict } : state),
  outlook: (state, { outlook }) => ({ ...state, outlook }),
  reason: (state) => ({ ...state, isReasonShown: !state.isReasonShown }),
  beside: (state, { text, beside }) => (text === state.answered && isAnswered(state) ? { ...state, beside } : state),
};

/** The state after an action. @param {State} state @param {Action} action @returns {State} */
export const reduce = (state, action) => REDUCERS[action.do](state, action);
