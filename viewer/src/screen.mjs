// What the page shows of its state.

import { authorOf } from "./cards.mjs";
import { brief, seen } from "../../common/characters.mjs";
import { answerLines, answerParts } from "./compared.mjs";
import { CardList } from "./card_list.mjs";
import { element, fill, setData, setText } from "./dom.mjs";
import { SERVER } from "../../common/fold.mjs";
import { hintOf } from "./hint.mjs";
import { legend } from "./legend.mjs";
import { areNotes, canNote } from "../../common/noted.mjs";
import { reasonWords } from "./reason.mjs";
import { isAnswered, outlookNow, reasonNow, shownPlace } from "./state.mjs";
import { variablesOf } from "./theme.mjs";
import { Timeline } from "./timeline.mjs";
import { tree } from "./tree.mjs";
import { answerData, arrivedWords, instructionOf, nameOfMember, sentence, shownApart, shownOperation, verdictOn } from "./words.mjs";

/** Of a session of so many instructions, above how many milliseconds of the engine's the page says that the picture comes later. */
const LONG = 1000;
const SLOW = 100;

export const timeline = new Timeline();
export const cards = new CardList();

export const isNarrow = () => innerWidth <= 800;

/** What is drawn of a state. */
export function viewOf(state, canPlay) {
  const { session, beside, followed, picked, hidden, draft, chosen, caret, outline, asked, port } = state;
  const { writing } = cards;
  const shownState = { session, port: beside, place: shownPlace(state), followed, picked, hidden, draft, asked, chosen, caret };
  return { ...shownState, writing, names: outline.names, canPlay, canNote: canNote(port) };
}

/* Of what the picture is made: where nothing of it is another one, the picture is the same. */
let pictured = [];
function isPictured(state, view, isOther) {
  const parts = [state.draft, [...state.outline.names].join(), ...Object.values({ ...view, names: null, draft: null })];
  const isSame = !isOther && parts.every((part, i) => part === pictured[i]);
  pictured = parts;
  return isSame;
}

/** Shows a state; `isOther` where it has another place, `isPut` where what is selected is what the page has selected. */
export function show(state, { canPlay, isOther, isPut, textPane }) {
  const { session } = state;
  element("refused").textContent = session ? "" : faultWords(state);
  if (!session && state.fault) showEmpty();
  if (!session) return;
  const isFirst = element("main").hidden;
  element("starting").hidden = element("empty").hidden = element("broken").hidden = true;
  element("header").hidden = element("main").hidden = false;
  document.body.classList.toggle("with-port", state.port !== null);
  document.body.classList.toggle("with-notes", areNotes(state.port));
  document.body.classList.toggle("of-text-before", state.fault !== null || state.isLate);
  element("late").hidden = !state.isLate;
  element("outlook").hidden = element("why").hidden = state.isLate;
  const view = viewOf(state, canPlay);
  showHeader(state, view);
  if (!isPictured(state, view, isOther)) {
    if (isFirst) timeline.measure();
    timeline.show(view, { isNarrow: isNarrow() || !element("writing").hidden, isOther });
    if (isFirst) setSplit();
    cards.show(view, isPut);
  }
  textPane.show(state, view.place);
  if (isFirst) textPane.measure();
  showFault(state);
  if (!isOther) return;
  scrollToCard();
  requestAnimationFrame(() => followCard(view, 6));
}

/** Shows how to open a session, if there is none and none is loading. */
export function showEmpty() {
  element("starting").hidden = true;
  element("empty").hidden = !element("main").hidden;
}

/* Cards that were out of sight have their height only when they are drawn: the next frames look whether the card is in sight. */
function followCard(view, frames) {
  const moved = document.querySelector(".card.moved");
  const state = element("state").getBoundingClientRect();
  if (!moved || frames === 0 || view.place !== Number(element("place").value)) return;
  const { top, bottom } = moved.getBoundingClientRect();
  if (top >= state.top && (bottom <= state.bottom || top <= state.top + 200)) return;
  scrollToCard();
  requestAnimationFrame(() => followCard(view, frames - 1));
}

function showHeader(state, view) {
  const { session, title, past, future } = state;
  const notice = state.notice || hintOf(state);
  const { place, followed } = view;
  const called = brief(seen(title), 36);
  setText("name", called || "otbench");
  const words = title ? `${called}: otbench session` : "otbench session";
  if (document.title !== words) document.title = words;
  showMembers(session, view.names);
  element("slider").max = element("place").max = session.length;
  setText("length", `of ${session.length}`);
  setText("prompt", `(${place}/${session.length})`);
  element("slider").value = element("place").value = place;
  fill("sentence", wordsAt(state, view));
  fill("outlook", shownOutlook(state));
  showReason(state);
  element("slider").setAttribute("aria-valuetext", `${place} of ${session.length}: ${element("sentence").textContent}`);
  element("first").disabled = element("back").disabled = place === 0;
  element("next").disabled = element("last").disabled = place === session.length;
  element("followed").value = followed === null ? "" : followed;
  element("undo").disabled = past.length === 0;
  element("redo").disabled = future.length === 0;
  const isNew = element("notice").textContent !== notice && notice !== "";
  setText("notice", notice);
  element("notice").hidden = notice === "";
  if (isNew) element("aside").scrollTop = element("notice").offsetTop; // where the reason stands above it
  element("about").hidden = state.notice === "" || !state.isWelcome;
  showVerdicts(state);
}

function showMembers({ members }, names) {
  const option = (value, words) => tree("option", { value }, words);
  const all = [SERVER, ...members.keys()].map((who) => option(who, nameOfMember(who, names)));
  fill("followed", option("", "all instructions"), all);
}

function showVerdicts(state) {
  const { session, beside, verdict } = state;
  const stop = session.stop ? `stopped at place ${session.stop.at}: ${session.stop.stopped}${lineOf(state, session.stop.at)}; ` : "";
  const end = session.end === null ? "no end line" : `${session.end === "quiet" ? "" : "not "}all messages arrive`;
  const [waits] = verdict?.unsettled ?? [];
  const more = waits ? ` (${waits.what} ${waits.client})` : "";
  const list = verdict?.verdict ?? "";
  const { front, look } = verdictOn(state);
  setText("stop", front + stop);
  setText("end", end + more);
  element("verdict").className = `verdict ${look}`;
  const lists = new Map([["holds", "all documents order letters alike"], ["trace full", "too long to compare the order of letters"]]);
  element("list-verdict").hidden = list === "";
  const isNow = front === "";
  setVerdict("list-verdict", front + (lists.get(list) ?? list), list === "holds" && isNow ? "good" : "");
  const cut = state.outline.cut ?? beside?.cut ?? null;
  element("cut").hidden = cut === null;
  setVerdict("cut", `ends before its logs: ${brief(seen(cut ?? ""), 80)}`, "bad");
  element("conformance").hidden = !beside;
  setData("conformance", ["verdict", "at", "client", "key", "order"], answerData(state));
  showAnswer(state);
  if (!beside) return;
  const parts = answerParts(comparedOf(state));
  fill("conformance", [front, parts.map(({ words, look: own }) => tree("span", { class: isNow || own === "bad" ? own : "" }, words))]);
  element("conformance").className = `verdict ${parts[0].look === "bad" ? "bad" : isNow && parts.length === 1 ? parts[0].look : ""}`;
}

/* What an answer of conform is shown of. */
function comparedOf(state) {
  const { session, port, beside, outline } = state;
  const { answer, first } = beside;
  return { session, port, beside, names: outline.names, line: shownLine(state, answer?.line ?? state.outline.lines[(answer?.at ?? first ?? 0) - 1] + 1) };
}

/* What conform answered; while an answer is awaited that of before, paler. */
function showAnswer(state) {
  const { port, beside } = state;
  element("answer").classList.toggle("old", !beside);
  if (beside) {
    const [first, ...more] = answerLines(comparedOf(state));
    const isBad = beside.answer === null ? beside.first !== null : beside.answer.verdict !== "conforms";
    element("answer").classList.toggle("bad", isBad);
    fill("answer", first ? [tree("b", {}, first), more.map((line) => `\n${line}`)] : []);
  } else if (port === null) fill("answer", []);
  element("answer").hidden = element("answer").textContent === "";
  element("not-answered").hidden = !element("answer").hidden;
}

/** What the page says of the session, in its words. */
export const shownVerdicts = () =>
  ["conformance", "verdict", "list-verdict", "cut"].map(element).filter(({ hidden }) => !hidden).map(({ textContent }) => textContent);

/* A line of the text, from 1; 0 where there is none, or the text is another one by now. */
const shownLine = (state, line) => (line && isAnswered(state) ? line : 0);

/* The same of an instruction by its number, behind what is said of it. */
function lineOf(state, number) {
  const line = shownLine(state, state.outline.lines[number] + 1);
  return line ? ` (line ${line})` : "";
}

function setVerdict(id, words, look) {
  setText(id, words);
  element(id).className = `verdict ${look}`;
}

/* What the line above the diagram says. */
function wordsAt(state, { session, place, picked, port, followed, names, canPlay }) {
  const now = state.asked.length && state.took > SLOW ? waits(state.asked) : nowAt(state, place);
  const isToldBelow = canPlay && / messages have arrived/.test(now); // by the verdict
  const parts = [sentence(session, place, names), tree("span", { class: isToldBelow ? "now waits" : "now" }, now)];
  for (const { key, found, ours } of port ? port.differencesAt(place) : []) {
    const [theirs, wanted] = shownApart(found, ours);
    const whose = !port.areNotes ? `The port: ${key} ` : session.steps[place].moved === SERVER ? "The server had " : "The editor showed ";
    parts.push(tree("span", { class: "differs" }, whose, theirs, ", ot.js: ", wanted, "."));
  }
  if (followed !== null) parts.push(tree("span", { class: "now" }, `Stepping through ${nameOfMember(followed, names)}.`));
  if (picked) {
    const when = picked.born ? `inserted by ${authorOf(picked, names)} at place ${picked.born}` : "of the start text";
    parts.push(tree("span", { class: "badge" }, `“${seen(picked.character)}” ${when}`));
  }
  return parts.flatMap((part, i) => (i ? [" ", part] : [part]));
}

/* What the documents must be, or become. The line keeps its height while that is not known. */
const shownOutlook = (state) => outlookNow(state).flatMap((line, i) => (i > 0 ? [tree("br"), seen(line)] : begun(seen(line))));

/* A text whose beginning stands out: up to its first colon or full stop. */
function begun(text) {
  const end = text.search(/[.:](?= |$)/) + 1 || text.length;
  return [tree("b", {}, text.slice(0, end)), text.slice(end)];
}

/* Which transform led to the documents. */
function showReason(state) {
  const { isReasonShown, session, outline } = state;
  const reason = reasonNow(state);
  const shown = (part) => (typeof part === "string" ? part : shownOperation(part.operation, part.maker));
  if (isReasonShown && element("reason").hidden) element("aside").scrollTop = 0;
  element("why").setAttribute("aria-expanded", String(isReasonShown));
  element("reason").hidden = !isReasonShown;
  fill("reason", reason && reasonWords(session, reason, outline.names).map((words) => tree("p", {}, words.map(shown))));
}

const waits = (asked) => `${asked[0]}${asked.length > 1 ? ` and ${asked.length - 1} more` : ""}: not answered yet.`;

/* What is under way at a place, or refused there. */
function nowAt(state, place) {
  const { session, refusal } = state;
  const stop = place === session.length && session.stop;
  const reason = refusal && isAnswered(state) ? refusal.reason : session.stop?.stopped;
  return stop ? `Then ${instructionOf(stop)} is refused: ${reason}.` : `${arrivedWords(session, place)}.`;
}

function faultWords({ fault }) {
  if (!fault) return "";
  const where = fault.line ? `line ${fault.line}${fault.column ? `, column ${fault.column}` : ""}: ` : "";
  return `${where}${fault.kind}${fault.cause ? `: ${fault.cause}` : ""}`;
}

/* What is wrong, below the text: a fault of it, or the instruction that is refused. */
function showFault(state) {
  const { fault, refusal, session, took } = state;
  const isRefused = !fault && refusal !== null && isAnswered(state);
  const refused = isRefused ? `line ${refusal.line}, ${instructionOf(session.stop)}: ${refusal.reason}` : "";
  setText("to-fault", fault ? `${faultWords(state)} (the picture is of the text before)` : refused);
  element("to-fault").hidden = !fault && !isRefused;
  element("leave-out").hidden = !isRefused;
  element("pace").hidden = took <= SLOW || session.length < LONG;
  setText("pace", `too long for live answers: ${(took / 1000).toFixed(1)} s`);
  element("text").setAttribute("aria-invalid", String(Boolean(fault)));
}

/* Scrolls to the card of who moved; of one that is higher than its room the upper part is seen. The server's stays in sight, but in a narrow window. */
function scrollToCard() {
  const moved = document.querySelector(".card.moved");
  const first = element("cards").firstElementChild;
  const covered = isNarrow() ? 0 : first.offsetHeight + 4;
  const { style, clientHeight } = element("state");
  if (style.scrollPaddingTop !== `${covered}px`) style.scrollPaddingTop = `${covered}px`;
  if (!moved) return;
  const isHigh = moved.offsetHeight > clientHeight - covered && (isNarrow() || moved !== first);
  const { scrollX, scrollY } = window;
  moved.scrollIntoView({ block: isHigh ? "start" : "nearest" });
  scrollTo(scrollX, scrollY); // a page that is higher than a narrow window stays where it is
}

/** The width of the diagram, which is that of its lanes where no other is asked for. */
export function setSplit(width = Math.min(timeline.wanted + 24, (innerWidth - element("writing").offsetWidth) * 0.55)) {
  element("main").style.setProperty("--split", `${Math.round(width)}px`);
  timeline.measure();
}

export function setTheme(theme) {
  document.documentElement.dataset.theme = theme;
  for (const [name, value] of Object.entries(variablesOf(theme))) document.documentElement.style.setProperty(name, value);
}

/** Makes the page as it is printed: all rows, the whole text, in the light theme. Gives what makes it again as it was. */
export function toPaper(state) {
  const theme = themeNow();
  setTheme("light");
  element("printed").textContent = state.text.split("\n").slice(0, 2000).join("\n");
  timeline.print();
  return () => {
    element("printed").textContent = "";
    setTheme(theme);
    timeline.measure();
  };
}

export const themeNow = () => document.documentElement.dataset.theme;

export const showLegend = () => fill("legend", legend());
