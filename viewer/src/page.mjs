// Keys, clicks and files.

import { Bench } from "./bench.mjs";
import { CommandLine } from "./command_line.mjs";
import { withEscapes } from "../../common/characters.mjs";
import { askName, askNote, openDialog, paste, showLanes, showTrace, watchDialogs } from "./dialogs.mjs";
import { element } from "./dom.mjs";
import { moveInstruction, watchRows } from "./dragging.mjs";
import { Engine, wanted } from "./engine.mjs";
import { watchEvery } from "./every.mjs";
import { SERVER, fold } from "../../common/fold.mjs";
import { splitInput, unescapeLine } from "../../common/input.mjs";
import { readWhole, takeAll, takeIn } from "./intake.mjs";
import { Keeper, tabStorage } from "./keeping.mjs";
import { isLink, linkTo, openLink } from "./linking.mjs";
import { otherEnd, sameMember, towards } from "./moves.mjs";
import { documentAt } from "../../common/places.mjs";
import { choose, played, watchCards } from "./playing.mjs";
import { Port } from "../../common/printed.mjs";
import { scheduleOf, textOfSchedule } from "./reader.mjs";
import { reportOf } from "./report.mjs";
import { watchRooms } from "./rooms.mjs";
import { savePicture, savePoints, saveSession } from "./saving.mjs";
import { cards, isNarrow, setSplit, setTheme, show, showEmpty, showLegend, shownVerdicts, themeNow, timeline, toPaper, viewOf } from "./screen.mjs";
import { lineOfPlace } from "../../common/outline.mjs";
import { readAddress } from "./share.mjs";
import { TextPane } from "./text_pane.mjs";
import { shownPlace } from "./state.mjs";
import { watchTerms } from "./terms.mjs";

const frame = () => new Promise((done) => setTimeout(done));
const bench = new Bench(changed, frame);
const textPane = new TextPane({
  write: (text, line, tag) => act("write", { text, line, tag }),
  go: (place) => go(place),
});
const commandLine = new CommandLine(bench, resized);
let canPlay = false;
let isStarted = false; // what the page shows is the user's
let shown = -1; // the place that was shown last
let naming = null; // the timer that will put the place into the address
let linked = null; // the text whose link is in the address, and what stands there behind #

const keeper = new Keeper(tabStorage(), location.pathname);

const act = (name, more = {}) => bench.dispatch({ do: name, ...more });

function changed(action) {
  const { state } = bench;
  const place = shownPlace(state);
  const isOther = place !== shown || ["go", "answer", "resize"].includes(action.do);
  shown = place;
  const isPut = ["type", "undo", "redo"].includes(action.do) || action.isPut === true;
  show(state, { canPlay, isOther, isPut, textPane });
  if (!isOther || action.do !== "go") return;
  clearTimeout(naming);
  naming = setTimeout(showAddress, 200); // browsers allow it now and then
}

/* Puts the place into the address; a link to the session stays there while that is the same. */
function showAddress() {
  const { text, port } = bench.state;
  const at = `at=${shownPlace(bench.state)}`;
  history.replaceState(null, "", linked?.text === text && linked.port === port ? linked.hash.replace(/at=\d+/, at) : `#${at}`);
}

const say = (notice) => act("notice", { notice });

/* Goes to a place, or the nearest one that there is. */
const go = (place) => act("go", { place });

const memberOf = (word) => (word === "" ? null : word === SERVER ? SERVER : Number(word));

/* Playing. */

function play(...instructions) {
  if (bench.state.fault?.line) say("The text has a fault: mend it before you play.");
  else act("play", { instructions });
}

function playKey(name) {
  const { instruction, reason } = played(bench.state, name);
  return instruction ? play(instruction) : say(reason);
}

const letThrough = () => (bench.state.fault?.line ? play() : bench.quiet());

function writeInDocument() {
  const { chosen } = bench.state;
  const editor = chosen === null ? null : cards.editorOf(chosen);
  if (!editor) return say("Choose a client that has joined: by its number’s key, or by a click on its card.");
  editor.focus();
  cards.enter(editor);
  const { caret } = bench.state;
  const end = Number(editor.dataset.length);
  const index = caret?.client === chosen ? Math.min(caret.focus, end) : end;
  return act("select", { client: chosen, anchor: index, focus: index, isPut: true });
}

/* Files. */

async function takeFiles(files) {
  const found = [];
  for (const file of [...files]) {
    const { fault, ...read } = await readWhole(file);
    if (fault !== undefined) return void say(fault);
    found.push(read);
  }
  if (found.length === 0) return undefined;
  return found.length > 1 && canPlay ? takeAll(bench, found) : takeBytes(found[0].bytes, found[0].name);
}

async function takeBytes(bytes, name) {
  if (!canPlay) return load(new TextDecoder().decode(bytes), { name });
  const judged = await takeIn(bench, bytes, name);
  return judged && showTrace(judged);
}

const takeText = (text, name = "") => takeBytes(new TextEncoder().encode(text), name);

/* What conform answered, by its lines in the page: its value, and its words. */
const toldIn = ([value, ...words]) => (value === undefined ? null : { answer: JSON.parse(value), words });

/* Shows the session of lines of steps, as they are: those that are given with the page, and any where it has no engine. */
function load(input, { name = "", place = null, isGiven = false }) {
  const { steps, port, answer } = splitInput(input);
  let session;
  try {
    session = fold(steps);
  } catch (fault) {
    element("refused").textContent = fault.message;
    if (bench.state.session) say(fault.message);
    return;
  }
  const told = scheduleOf(steps);
  const text = (isGiven && element("schedule").textContent) || (told ? textOfSchedule(told) : "");
  const isSparse = isGiven && element("lines").dataset.sparse !== undefined;
  const beside = port && new Port(session, port, isGiven ? toldIn(answer.map(unescapeLine)) : null, isSparse);
  if (port && isSparse) bench.takeAsSparse(port.map(unescapeLine));
  act("open", { text, port: port && port.map(unescapeLine), title: name, place: place ?? beside?.first ?? 0 });
  act("answer", { text, session, refusal: null, took: 0 });
  if (beside) act("beside", { text, beside });
  go(bench.state.place);
}

/* A link to the session, which the address has from now on; null, and a notice, where there is none. */
async function addressed() {
  await bench.settled();
  try {
    const { text, port } = bench.state;
    linked = { text, port, hash: await linkTo(bench) };
  } catch (fault) {
    say(`No link: ${fault.message}.`);
    return null;
  }
  clearTimeout(naming);
  const link = location.href.replace(/#.*$/, "") + linked.hash;
  history.replaceState(null, "", link);
  return link;
}

const isOfFile = () => location.protocol === "file:";

async function copyLink() {
  const link = await addressed();
  if (link === null) return;
  const where = isOfFile() ? " It opens only where this file is." : "";
  const isCopied = await copied(link);
  say(`${isCopied ? "The link is copied" : "The address of this page is the link now"}: ${link.length} characters.${where}${isCopied ? "" : " The browser did not let the page copy it."}`);
}

/* The session as Markdown, for an issue. Where the browser does not let the page copy it, it is shown to be copied. */
async function copyReport() {
  const link = await addressed();
  if (link === null || !bench.state.session) return;
  const report = reportOf(bench.state, { verdicts: shownVerdicts(), ...(await bench.sayHere()), link, isOfFile: isOfFile() });
  if (await copied(report)) return say("The session is copied as Markdown, with its link.");
  element("reported").value = report;
  openDialog("reporting");
  element("reported").select();
}

/* Whether the browser lets the page copy a text. */
async function copied(text) {
  try {
    await navigator.clipboard.writeText(text);
    return true;
  } catch {
    return false;
  }
}

/* An empty session of two users. */
function openNew() {
  act("open", { text: "clients 2\n", isGuided: true });
}

/* Dialogs. */

const choices = JSON.parse(element("choices-given").textContent);

/* Opens an example at its place, and says what to look for. */
function openChoice(number) {
  if (!choices[number]) return;
  const { text, name, place, port, sentence } = choices[number];
  act("open", { text, title: name, place, port });
  say(sentence);
}

/* Opens one of the small sessions. */
function openSmall(text, title) {
  act("open", { text, title });
}

function save(what) {
  if (what === "svg") return savePicture(viewOf(bench.state, canPlay));
  if (what === "png") return savePoints(viewOf(bench.state, canPlay)).catch((fault) => say(`No picture: ${fault.message}.`));
  return saveSession(bench, what);
}

const askToSave = () => openDialog("saving");

/* Keys. */

const openFile = () => element("file").click();
const turnTheme = () => setTheme(themeNow() === "dark" ? "light" : "dark");
const goToDifference = () => bench.state.beside && bench.state.beside.first !== null && go(bench.state.beside.first);

function turnText(isShown = element("writing").hidden) {
  element("writing").hidden = !isShown;
  element("text-shown").setAttribute("aria-pressed", String(isShown));
  document.body.classList.toggle("with-text", isShown);
  if (!bench.state.session) return;
  timeline.measure();
  changed({ do: "go" });
  setSplit();
  textPane.measure();
}

/* Says why, or does not any more: what is below has another height then. */
function turnReason() {
  act("reason");
  resized();
}

/* A low window has a scroll bar with the menu, and none without: the lanes fit what room it leaves at once. */
function turnMenu() {
  element("menu").setAttribute("aria-expanded", String(document.body.classList.toggle("with-menu")));
  timeline.measure();
}

const KEYS = {
  ArrowLeft: () => go(towards(bench.state, -1)),
  ArrowUp: () => go(towards(bench.state, -1)),
  k: () => go(towards(bench.state, -1)),
  ArrowRight: () => go(towards(bench.state, 1)),
  ArrowDown: () => go(towards(bench.state, 1)),
  j: () => go(towards(bench.state, 1)),
  PageUp: () => go(shownPlace(bench.state) - 10),
  PageDown: () => go(shownPlace(bench.state) + 10),
  Home: () => go(0),
  End: () => go(bench.state.session.length),
  "[": () => go(sameMember(bench.state, -1)),
  "]": () => go(sameMember(bench.state, 1)),
  m: () => go(otherEnd(bench.state)),
  d: goToDifference,
  e: () => turnText(),
  v: () => showLanes(bench.state),
  o: openFile,
  s: askToSave,
  t: turnTheme,
  "?": () => openDialog("keys"),
};

const KEYS_OF_PLAY = {
  u: () => playKey("take"),
  n: () => playKey("next"),
  "+": () => playKey("join"),
  r: () => playKey("read"),
  q: letThrough,
  w: turnReason,
  ":": () => commandLine.turn(true),
  l: () => openDialog("choosing"),
  c: copyLink,
  i: copyReport,
  Enter: writeInDocument,
  Delete: () => act("takeOut"),
};
for (let client = 0; client < 10; client++) KEYS_OF_PLAY[client] = () => choose(bench, client);

/* Undo and redo are the page's own, wherever the focus is, but in the fields of dialogs and of the debugger. */
function undoKey(event) {
  if (!(event.ctrlKey || event.metaKey) || event.altKey || !canPlay || event.target.id === "command" || document.querySelector("dialog[open]")) return false;
  const key = event.key.toLowerCase();
  if (key === "z") act(event.shiftKey ? "redo" : "undo");
  else if (key === "y") act("redo");
  return key === "z" || key === "y";
}

/* The instruction that led to the place, one earlier or later. */
function orderKey({ altKey, ctrlKey, metaKey, key, target }) {
  const step = { ArrowUp: -1, ArrowDown: 1 }[key];
  if (!altKey || ctrlKey || metaKey || !step || !canPlay || !bench.state.session) return false;
  if (/^(SELECT|TEXTAREA|INPUT)$/.test(target.tagName) || target.isContentEditable || document.querySelector("dialog[open]")) return false;
  const place = shownPlace(bench.state);
  moveInstruction(bench, place, place + step);
  return true;
}

addEventListener("keydown", (event) => {
  if (undoKey(event) || orderKey(event)) return event.preventDefault();
  const { target, key } = event;
  if (key === "Escape" && target.matches?.(".document, #text")) {
    const card = target.closest("[data-card]");
    if (card) card.focus();
    else target.blur();
    return undefined;
  }
  const isWriting = /^(SELECT|TEXTAREA)$/.test(target.tagName) || target.isContentEditable || target.matches?.("#place, #command");
  const isOther = event.ctrlKey || event.metaKey || event.altKey || event.isComposing || document.querySelector("dialog[open]");
  if (!bench.state.session || isWriting || isOther) return undefined;
  if (key === "Enter" && target.matches("button, summary")) return undefined;
  if (document.activeElement.matches("#state, #grip, #answers") && /^(Arrow|Page|Home|End)/.test(key)) return undefined;
  const keys = canPlay && Object.hasOwn(KEYS_OF_PLAY, key) ? KEYS_OF_PLAY : KEYS;
  if (!Object.hasOwn(keys, key)) return undefined;
  event.preventDefault();
  return keys[key]();
});

const CLICKS = {
  first: () => go(0),
  back: () => go(towards(bench.state, -1)),
  next: () => go(towards(bench.state, 1)),
  last: () => go(bench.state.session.length),
  answer: goToDifference,
  conformance: goToDifference,
  undo: () => act("undo"),
  redo: () => act("redo"),
  new: openNew,
  "new-instead": openNew,
  "new-first": openNew,
  "examples-instead": () => openDialog("choosing"),
  examples: () => openDialog("choosing"),
  open: openFile,
  "open-first": openFile,
  paste,
  link: copyLink,
  report: copyReport,
  save: askToSave,
  theme: turnTheme,
  help: () => openDialog("keys"),
  guide: () => openDialog("guiding"),
  "guide-first": () => openDialog("guiding"),
  lanes: () => showLanes(bench.state),
  "text-shown": () => turnText(),
  debug: () => commandLine.turn(),
  menu: turnMenu,
  quiet: letThrough,
  why: turnReason,
  "give-up": () => bench.stop(),
  escapes: () => act("write", { text: withEscapes(bench.state.text), line: lineOfPlace(bench.state.outline, shownPlace(bench.state)), tag: null }),
  "leave-out": () => act("leaveOut"),
  "to-fault": () => {
    const { fault, refusal } = bench.state;
    textPane.select((fault ?? refusal).line - 1, fault ? Math.max(0, fault.column - 1) : 0);
  },
};
for (const [id, click] of Object.entries(CLICKS)) element(id).onclick = click;
element("place").onchange = (event) => go(Number(event.target.value));
element("followed").onchange = (event) => follow(memberOf(event.target.value));

function follow(who) {
  if (who !== null && who !== SERVER) act("choose", { client: who });
  act("follow", { who });
}

/* One drawing a frame, however fast the slider moves. */
let isSliding = false;
element("slider").oninput = () => {
  if (isSliding) return;
  isSliding = true;
  requestAnimationFrame(() => {
    isSliding = false;
    go(Number(element("slider").value));
  });
};

element("time").onscroll = () => requestAnimationFrame(() => timeline.measure());
cards.listen();
addEventListener("scroll", ({ target }) => target.matches?.(".document") && cards.keepScrolled(target), true);
function resized() {
  requestAnimationFrame(() => {
    timeline.measure();
    if (bench.state.session) changed({ do: "resize" });
    textPane.resized();
  });
}
onresize = resized;

/* In a narrow window, and beside the text, the lanes fit the diagram without its scroll bar. */
let width = 0;
new ResizeObserver(([{ contentRect }]) => {
  if ((isNarrow() || !element("writing").hidden) && contentRect.width !== width) resized();
  width = contentRect.width;
}).observe(element("time"));

addEventListener("beforeprint", () => {
  if (bench.state.session) addEventListener("afterprint", toPaper(bench.state), { once: true });
});

element("heads").onclick = (event) => {
  const lane = event.target.closest(".lane");
  if (lane) follow(bench.state.followed === memberOf(lane.dataset.who) ? null : memberOf(lane.dataset.who));
};

/* The character of a document that was clicked on, as its index in the list; null beside all characters. */
function indexAt(event) {
  const run = event.target.closest(".document span[data-index]");
  if (!run || Number(run.dataset.index) < 0) return null;
  const characters = [...run.textContent];
  const range = document.createRange();
  let unit = 0;
  for (let i = 0; i < characters.length; i++) {
    range.setStart(run.firstChild, unit);
    unit += characters[i].length;
    range.setEnd(run.firstChild, unit);
    const isHit = ({ left, right, top, bottom }) =>
      event.clientX >= left && event.clientX < right && event.clientY >= top && event.clientY < bottom;
    if ([...range.getClientRects()].some(isHit)) return Number(run.dataset.index) + i;
  }
  return null;
}

element("cards").onclick = (event) => {
  const button = event.target.closest("button");
  if (button?.dataset.play) return play(button.dataset.play);
  if (button?.dataset.name) return askName(bench.state, Number(button.dataset.name));
  if (button?.dataset.note) return askNote(bench.state, memberOf(button.dataset.note));
  const text = event.target.closest(".document");
  if (!text) return undefined;
  const index = indexAt(event);
  const found = index === null ? null : documentAt(bench.state.session, memberOf(text.dataset.who), shownPlace(bench.state))[index];
  if (found || bench.state.picked) act("pick", { element: found ?? bench.state.picked });
  return undefined;
};

/* Arrow keys scroll the state where it was reached by keys; a click leaves them with the diagram. */
element("state").onclick = () => element("state").blur();

/* The bar between the diagram and the state. */
element("grip").onpointerdown = (event) => {
  element("grip").setPointerCapture(event.pointerId);
  element("grip").onpointermove = (move) => setSplit(move.clientX - element("time").getBoundingClientRect().left);
  element("grip").onpointerup = () => {
    element("grip").onpointermove = null;
    element("grip").blur();
  };
};
element("grip").onkeydown = (event) => {
  const change = { ArrowLeft: -40, ArrowRight: 40 }[event.key];
  if (change) setSplit(element("time").offsetWidth + change);
};

element("file").onchange = (event) => {
  takeFiles(event.target.files);
  event.target.value = "";
};
addEventListener("paste", (event) => {
  const text = event.clipboardData.getData("text");
  const isField = /^(TEXTAREA|INPUT)$/.test(event.target.tagName) || event.target.isContentEditable;
  const areLines = event.target.id === "text" && text.trim()[0] === "{"; // no line of a schedule begins so
  if ((isField && !areLines) || text.trim() === "") return;
  if (!canPlay && text.trim()[0] !== "{") return;
  takeText(text);
  event.preventDefault();
});
addEventListener("dragover", (event) => {
  event.preventDefault();
  document.body.classList.add("dragging");
});
addEventListener("dragleave", (event) => {
  if (!event.relatedTarget) document.body.classList.remove("dragging");
});
addEventListener("drop", (event) => {
  event.preventDefault();
  document.body.classList.remove("dragging");
  const { files } = event.dataTransfer;
  if (files.length) takeFiles(files);
  else if (event.dataTransfer.getData("text")) takeText(event.dataTransfer.getData("text"));
});

/* The address can name a place, a theme and a session: session.html#at=7;theme=dark. */
addEventListener("hashchange", async () => {
  const { place } = readAddress(location.hash);
  if (isLink(location.hash)) {
    const fault = await followLink(location.hash);
    if (fault) say(`This link cannot be opened: ${fault}.`);
  } else if (bench.state.session && place !== null && place !== shownPlace(bench.state)) go(place);
});

/* Opens a link's session; what is wrong with the link where it cannot be. */
async function followLink(hash) {
  if (!canPlay) return "the engine, which reads it, does not run in this page";
  try {
    if (await openLink(bench, hash)) linked = { text: bench.state.text, port: bench.state.port, hash };
    return "";
  } catch (fault) {
    return fault.message;
  }
}

/* A link that cannot be read: what is wrong with it, and nothing else. */
function showBroken(fault) {
  element("starting").hidden = element("empty").hidden = true;
  element("broken").hidden = false;
  element("broken-why").textContent = `${fault[0].toUpperCase()}${fault.slice(1)}.`;
  isStarted = true;
}

/* What stands in the page's elements of data. */
const given = (id) => element(id).textContent.replace(/^\n/, "");

/* What the page was opened with: a link's session, or that which stands in it. */
const openedWith = () => readAddress(location.hash).image ?? given("schedule");

/* Restores what was changed before a reload, or before another page was gone to and back; Undo restores what it was opened with. */
function takeBack() {
  isStarted = true;
  const isVisit = performance.getEntriesByType("navigation")[0]?.type === "navigate";
  const kept = isVisit ? null : keeper.keptOf(openedWith());
  if (!kept) return false;
  act("open", kept);
  say("What was changed before the page was loaded anew is here again; Undo shows what it was opened with.");
  return true;
}

/* The address that is loaded anew is that of when the page began to be left: what is put into it later does not count. */
let left = null;
const keep = () => !isStarted || keeper.keep([openedWith(), left ?? openedWith()], bench.state);
addEventListener("pagehide", keep);
document.addEventListener("visibilitychange", keep);
addEventListener("beforeunload", (event) => {
  left = openedWith();
  if (!keep()) event.preventDefault(); // the browser asks whether to leave
});

/* The engine, if the page has one and the browser can run it; else the viewer stays, and says what is wanted. */
async function startEngine() {
  const module = given("module").trim();
  if (module === "" || module.startsWith("/*")) return showEmpty();
  const missing = wanted(globalThis);
  const engine = missing ? null : new Engine(given("worker"), module);
  try {
    if (missing) throw new Error(`this browser has no ${missing}`);
    await engine.load();
  } catch (fault) {
    const notice = `The engine does not run: ${fault.message}. The page shows lines of otbench steps all the same; a browser of 2023 or later runs the engine.`;
    if (bench.state.session) say(notice);
    element("refused").textContent = notice;
    return showEmpty();
  }
  canPlay = true;
  document.body.classList.add("with-engine");
  element("text").readOnly = false;
  bench.use(engine);
  return undefined;
}

async function start() {
  const { hash } = location;
  const { theme, place } = readAddress(hash);
  setTheme(theme ?? (matchMedia("(prefers-color-scheme: dark)").matches ? "dark" : "light"));
  showLegend();
  element("text").readOnly = true;
  const lines = given("lines");
  if (lines.trim() !== "" && !isLink(hash)) load(lines, { place, isGiven: true });
  await startEngine();
  if (canPlay) turnText(innerWidth > 1100);
  if (isLink(hash)) {
    const fault = await followLink(hash);
    return fault ? showBroken(fault) : takeBack();
  }
  if (!canPlay) return undefined;
  if (bench.state.session) {
    changed({ do: "go" });
    return takeBack();
  }
  openChoice(0);
  if (takeBack()) return undefined;
  const notice = "Two users have typed at one position. Click a message to let it through, step on with ▶, or type into a document.";
  act("notice", { notice, isWelcome: true });
  return undefined;
}

watchRooms();
watchTerms();
watchCards(bench);
watchRows(bench, timeline, go);
watchDialogs(bench, { choices, openChoice, showEvery: watchEvery(bench, openSmall), take: takeText, save });
start();
