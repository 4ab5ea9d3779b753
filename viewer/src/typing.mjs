// A client's document as an editor. What a person does to it becomes a change of the document's characters from..to; the page draws
// the document anew. An input method writes into the element itself, and what became of it is read when it is done.

import { changeBetween } from "./edits.mjs";
import { indexOfPoint, ordered } from "./selection.mjs";

/* The characters that an editor shows, whatever an input method did to its element. */
function charactersIn(node) {
  if (node.nodeType === 3) return [...node.data];
  if (node.nodeType !== 1 || node.matches(".deleted, .cut")) return [];
  return [...node.childNodes].flatMap(charactersIn);
}

/* How many characters that are shown stand in front of the caret. */
function shownBefore(editor) {
  const selection = editor.ownerDocument.getSelection();
  const range = editor.ownerDocument.createRange();
  range.setStart(editor, 0);
  range.setEnd(selection.focusNode, selection.focusOffset);
  const front = editor.ownerDocument.createElement("div");
  front.append(range.cloneContents());
  return charactersIn(front).length;
}

/* What an event inserts; null where it is no change of the text. */
function textOf({ inputType, data, dataTransfer }) {
  if (inputType.startsWith("delete")) return "";
  if (inputType === "insertLineBreak" || inputType === "insertParagraph") return "\n";
  if (inputType.startsWith("insert")) return data ?? dataTransfer?.getData("text/plain") ?? null;
  return null;
}

/* Half of a character that some browsers give in two events: the first one is held back until the second comes. */
const HALF = /[\ud800-\udbff]$/;

const plain = (text) => text.replace(/\r\n?/g, "\n");

/* The characters that an event is about: those that are selected, else the word that it names, or of a deletion the neighbour. */
function rangeOf(editor, event, { from, to }) {
  const [target] = event.getTargetRanges();
  if (from < to || !target) return { from, to };
  const start = indexOfPoint(editor, target.startContainer, target.startOffset);
  const end = indexOfPoint(editor, target.endContainer, target.endOffset);
  if (start < end) return { from: start, to: end };
  if (!event.inputType.startsWith("delete")) return { from, to };
  return event.inputType.endsWith("Forward") ? { from, to: to + 1 } : { from: Math.max(0, from - 1), to };
}

/* Where a key leads of which the browser knows only what is shown: { anchor, focus } of a document of so many characters, or null. */
function selectedByKey({ key, shiftKey, ctrlKey, metaKey, altKey }, { anchor }, length) {
  const isMac = navigator.platform.startsWith("Mac");
  if (!(isMac ? metaKey : ctrlKey) || altKey) return null;
  if (key.toLowerCase() === "a" && !shiftKey) return { anchor: 0, focus: length };
  const isStart = key === (isMac ? "ArrowUp" : "Home");
  const isEnd = key === (isMac ? "ArrowDown" : "End");
  if (!isStart && !isEnd) return null;
  const focus = isStart ? 0 : length;
  return { anchor: shiftKey ? anchor : focus, focus };
}

/**
 * Listens to the editors below an element.
 * @param {HTMLElement} parent
 * @param {object} to
 * @param {(change: { client: number, from: number, to: number, text: string }) => void} to.type
 * @param {(client: number, from: number, to: number) => string} to.textAt the characters of a document
 * @param {(editor: HTMLElement) => { anchor: number, focus: number } | null} to.selected what is selected of its document, as the state has it from now on
 * @param {(client: number, selection: { anchor: number, focus: number }) => void} to.select
 * @param {() => void} to.undo
 * @param {() => void} to.redo
 * @param {(client: number | null) => void} to.compose a client whose document an input method writes into, null when it is done
 */
export function watchTyping(parent, to) {
  const editorOf = (event) => (event.target instanceof Element ? event.target : event.target.parentElement)?.closest?.(".document[contenteditable]");
  const clientOf = (editor) => Number(editor.dataset.who);
  let before = null; // what an input method found: { characters, selection }
  let half = "";
  const listen = (name, act) =>
    parent.addEventListener(name, (event) => {
      const editor = editorOf(event);
      const selection = editor && (before || to.selected(editor));
      if (selection) act(event, editor, clientOf(editor), selection);
    });

  listen("keydown", (event, editor, client, selection) => {
    if (before || event.isComposing) return;
    const next = selectedByKey(event, selection, Number(editor.dataset.length));
    if (!next) return;
    event.preventDefault();
    to.select(client, next);
  });
  listen("beforeinput", (event, editor, client, selection) => {
    if (before || event.isComposing || event.inputType === "insertCompositionText") return;
    event.preventDefault();
    if (event.inputType === "historyUndo") return to.undo();
    if (event.inputType === "historyRedo") return to.redo();
    const given = textOf(event);
    const text = given === null ? null : half + given;
    half = text !== null && HALF.test(text) ? text : "";
    const range = text === null || half ? null : rangeOf(editor, event, ordered(selection));
    if (range) to.type({ client, ...range, text: plain(text) });
  });
  listen("paste", (event, editor, client, selection) => {
    event.preventDefault();
    event.stopPropagation();
    to.type({ client, ...ordered(selection), text: plain(event.clipboardData.getData("text/plain")) });
  });
  for (const name of ["copy", "cut"])
    listen(name, (event, editor, client, selection) => {
      const range = ordered(selection);
      if (range.from === range.to) return;
      event.preventDefault();
      event.clipboardData.setData("text/plain", to.textAt(client, range.from, range.to));
      if (name === "cut") to.type({ client, ...range, text: "" });
    });
  listen("dragstart", (event) => event.preventDefault());
  listen("compositionstart", (event, editor, client, selection) => {
    before = { characters: charactersIn(editor), ...selection };
    to.compose(client);
  });
  listen("compositionend", (event, editor, client) => {
    if (!before) return;
    const { characters, ...selection } = before;
    const change = changeBetween(characters, charactersIn(editor), shownBefore(editor));
    const [first, last] = [Number(editor.dataset.first), Number(editor.dataset.first) + characters.length];
    const { from, to: end } = ordered(selection);
    before = null;
    to.compose(null);
    const isOfPart = from >= first && end <= last; // else more is replaced than the part that is shown
    to.type({ client, ...(isOfPart ? { from: first + change.from, to: first + change.to } : { from, to: end }), text: change.text });
  });
}
