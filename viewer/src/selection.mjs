// What is selected of a client's document: { anchor, focus }, counts of the characters in front. In the page's state it is of the whole document;
// the browser's own selection is of the part that is shown, which has the focus in it.

const runsIn = (node) => [...node.querySelectorAll("span[data-index]")].filter((run) => Number(run.dataset.index) >= 0);

const lengthOf = (run) => [...run.textContent].length;

/** The characters that are shown: { from, to }. */
function partOf(editor) {
  const from = Number(editor.dataset.first);
  const last = runsIn(editor).at(-1);
  return { from, to: last ? Number(last.dataset.index) + lengthOf(last) : from };
}

/** The place in a document of a point in its element. In front of the sign that characters are left out it is the document's start, behind the last one its end. */
export function indexOfPoint(editor, node, offset) {
  const range = editor.ownerDocument.createRange();
  range.setStart(editor, 0);
  range.setEnd(node, offset);
  const front = range.cloneContents();
  const last = runsIn(front).at(-1);
  if (!last) return front.querySelector(".cut") ? Number(editor.dataset.first) : 0;
  if (front.lastElementChild.matches(".cut")) return Number(editor.dataset.length);
  return Number(last.dataset.index) + lengthOf(last);
}

/** What is selected in an editor; null where the caret is elsewhere. */
function selectionIn(editor) {
  const { anchorNode, anchorOffset, focusNode, focusOffset } = editor.ownerDocument.getSelection();
  if (!anchorNode || !editor.contains(anchorNode) || !editor.contains(focusNode)) return null;
  return { anchor: indexOfPoint(editor, anchorNode, anchorOffset), focus: indexOfPoint(editor, focusNode, focusOffset) };
}

/** What is selected: what the page put into an editor, where that is still there, else what the user selected since. */
export function selectionNow(editor, put) {
  const found = selectionIn(editor);
  if (!found || !put || put.client !== Number(editor.dataset.who)) return found;
  const { from, to } = partOf(editor);
  const now = (name) => (found[name] === Math.max(from, Math.min(to, put[name])) ? put[name] : found[name]);
  return { anchor: now("anchor"), focus: now("focus") };
}

function pointAt(editor, index) {
  const runs = runsIn(editor);
  for (const run of runs) {
    const before = Math.max(0, index - Number(run.dataset.index));
    const characters = [...run.textContent];
    if (before <= characters.length) return [run.firstChild, characters.slice(0, before).join("").length];
  }
  const last = runs.at(-1);
  return last ? [last.firstChild, last.textContent.length] : [editor, 0];
}

/** Selects in an editor what is shown of a selection. */
export function putSelection(editor, { anchor, focus }) {
  editor.ownerDocument.getSelection().setBaseAndExtent(...pointAt(editor, anchor), ...pointAt(editor, focus));
}

/** Where the caret stands on the screen, as { top, bottom }; null where the browser does not say. */
export function caretBox(editor) {
  const { focusNode, focusOffset } = editor.ownerDocument.getSelection();
  if (!focusNode || !editor.contains(focusNode)) return null;
  const range = editor.ownerDocument.createRange();
  range.setStart(focusNode, focusOffset);
  const { top, bottom } = range.getBoundingClientRect();
  return top === bottom ? null : { top, bottom };
}

/** The characters that are selected, in their order. */
export const ordered = ({ anchor, focus }) => ({ from: Math.min(anchor, focus), to: Math.max(anchor, focus) });
