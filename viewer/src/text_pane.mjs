// The schedule as text: line numbers, the line of the place, and marks where something is wrong. Only the lines in sight are drawn.
// Of a long text the field has a part, around the place: browsers lay out all of a field of 10,000 lines at each keystroke.

import { unseenIn } from "../../common/characters.mjs";
import { element, fill, setText } from "./dom.mjs";
import { lineOfPlace, placeOfLine } from "../../common/outline.mjs";
import { tree } from "./tree.mjs";

const LINE = 19; // pixels, as in style.css
const PAD = 6;

/** Up to how many lines the field has all of a text, and how many of a longer one. */
const WHOLE = 1000;
const PART = 400;

/** How long a pause ends a burst of typing, in milliseconds: a burst is undone as one. */
const BURST = 1000;

const spaced = (count) => String(count).replace(/\B(?=(\d{3})+$)/g, ",");

export class TextPane {
  #lines = [""];
  #of = ""; // the text that the lines are of
  #part = { from: 0, to: 1 }; // the lines that the field has
  #shown = { place: -1, fault: null, refusal: null };
  #box = { top: 0, left: 0, height: 0 }; // how the field is scrolled: asked of it after each change it would be slow
  #burst = 0;
  #typed = 0;
  #line = -1; // where the caret stood last
  #next = null; // the state that is to be shown

  /**
   * @param {object} to
   * @param {(text: string, line: number, tag: string) => void} to.write
   * @param {(place: number) => void} to.go
   */
  constructor(to) {
    this.to = to;
    this.area = element("text");
    this.area.addEventListener("input", () => this.#write());
    this.area.addEventListener("scroll", () => this.measure());
    this.area.addEventListener("focus", ({ relatedTarget }) => {
      this.#showNext();
      if (relatedTarget) this.#caretToPlace();
    });
    document.addEventListener("selectionchange", () => this.#follow());
    element("numbers").addEventListener("click", (event) => {
      const line = event.target.closest("[data-line]");
      if (line) this.#goToLine(Number(line.dataset.line));
    });
    element("lines-above").onclick = () => this.#turn(this.#part.from - PART / 2);
    element("lines-below").onclick = () => this.#turn(this.#part.to + PART / 2);
  }

  /**
   * Shows a state; a long text that is not written in, when the rest of the page is drawn.
   * @param {import("./state.mjs").State} state
   */
  show(state, place) {
    const isWaiting = this.#next !== null;
    this.#next = { state, place };
    if (this.#lines.length <= WHOLE || document.activeElement === this.area) this.#showNext();
    else if (!isWaiting) requestAnimationFrame(() => setTimeout(() => this.#showNext()));
  }

  #showNext() {
    if (!this.#next) return;
    const { state, place } = this.#next;
    this.#next = null;
    this.state = state;
    const isOther = this.#shown.place !== place;
    this.#shown = { place, fault: state.fault, refusal: state.refusal };
    const line = Math.max(0, lineOfPlace(state.outline, place));
    const isUsed = document.activeElement === this.area;
    if (this.#of !== state.text) this.#take(state.text, line);
    else if (isOther && !isUsed) this.#put(this.#partAround(line));
    if (isOther && !isUsed) this.reveal(line);
    this.draw();
  }

  /** Asks the field how it is scrolled. */
  measure() {
    const { scrollTop, scrollLeft, clientHeight } = this.area;
    this.#box = { top: scrollTop, left: scrollLeft, height: clientHeight };
    this.draw();
  }

  /** The field has another height: the line of the place stays in sight, but where the user writes. */
  resized() {
    this.measure();
    if (this.state && document.activeElement !== this.area) this.reveal(Math.max(0, lineOfPlace(this.state.outline, this.#shown.place)));
  }

  /** Scrolls to a line. */
  reveal(line) {
    const top = (line - this.#part.from) * LINE + PAD;
    const box = this.#box;
    if (top >= box.top + LINE && top <= box.top + box.height - 3 * LINE) return;
    this.#scrollTo(top - box.height / 2);
  }

  /* Scrolls as far as the field can be scrolled. What came of it is asked at the next frame: a text that was put just now is not laid out yet. */
  #scrollTo(top) {
    const most = (this.#part.to - this.#part.from) * LINE + 2 * PAD - this.#box.height;
    this.#box.top = Math.max(0, Math.min(top, most));
    this.area.scrollTop = this.#box.top;
    requestAnimationFrame(() => this.measure());
  }

  /** Puts the caret to a line and column, from 0. */
  select(line, column) {
    this.#showNext();
    this.#put(this.#partAround(line));
    const before = this.#lines.slice(this.#part.from, line).reduce((sum, text) => sum + text.length + 1, 0);
    const at = before + [...(this.#lines[line] ?? "")].slice(0, column).join("").length;
    this.area.focus();
    this.area.setSelectionRange(at, at);
    this.measure();
    this.reveal(line);
  }

  /* Who comes by Tab stays at the place. */
  #caretToPlace() {
    if (!this.state) return;
    const line = Math.max(this.#part.from, lineOfPlace(this.state.outline, this.#shown.place));
    const end = this.#lines.slice(this.#part.from, line + 1).join("\n").length;
    this.#line = line;
    this.area.setSelectionRange(end, end);
  }

  /* The part for a line: that which there is, where the line is well within it. */
  #partAround(line) {
    const count = this.#lines.length;
    if (count <= WHOLE) return { from: 0, to: count };
    const { from, to } = this.#part;
    const margin = 40;
    const isIn = (from === 0 || line >= from + margin) && (to >= count || line < to - margin) && line >= from && line < to && to - from <= WHOLE;
    if (isIn) return { from, to: Math.min(to, count) };
    const first = Math.max(0, Math.min(line - PART / 2, count - PART));
    return { from: first, to: first + PART };
  }

  /* Another text: what the user writes is in the field already. */
  #take(text, line) {
    this.#of = text;
    const before = this.#lines.length;
    this.#lines = text.split("\n");
    const part = { from: this.#part.from, to: this.#part.to + this.#lines.length - before };
    const isThere = this.#joined(part) === this.area.value;
    if (isThere) this.#part = part;
    this.#put(isThere && document.activeElement === this.area ? part : this.#partAround(line), !isThere);
  }

  #joined({ from, to }) {
    return this.#lines.slice(from, to).join("\n");
  }

  #put(part, isOther = false) {
    if (!isOther && part.from === this.#part.from && part.to === this.#part.to) return this.#showEnds();
    const line = this.#lineAt(this.area.selectionStart);
    const isUsed = document.activeElement === this.area;
    this.#part = part;
    this.area.value = this.#joined(part);
    this.#scrollTo(this.#box.top);
    if (isUsed) {
      const end = this.#lines.slice(part.from, Math.max(part.from, line) + 1).join("\n").length;
      this.area.setSelectionRange(end, end);
      this.#line = line;
    }
    return this.#showEnds();
  }

  #showEnds() {
    const above = this.#part.from;
    const below = this.#lines.length - this.#part.to;
    element("lines-above").hidden = above <= 0;
    element("lines-below").hidden = below <= 0;
    setText("lines-above", `${spaced(above)} lines above`);
    setText("lines-below", `${spaced(below)} lines below`);
  }

  #turn(line) {
    const within = Math.max(0, Math.min(this.#lines.length - 1, line));
    this.#put(this.#partAround(within));
    this.measure();
    this.reveal(within);
    this.draw();
  }

  #lineAt(offset) {
    let line = this.#part.from;
    const { value } = this.area;
    for (let i = value.indexOf("\n"); i >= 0 && i < offset; i = value.indexOf("\n", i + 1)) line++;
    return line;
  }

  #write() {
    const line = this.#lineAt(this.area.selectionStart);
    const now = performance.now();
    if (now - this.#typed > BURST || line !== this.#line) this.#burst++;
    this.#typed = now;
    this.#line = line;
    const { from, to } = this.#part;
    const text = [...this.#lines.slice(0, from), this.area.value, ...this.#lines.slice(to)].join("\n");
    this.to.write(text, line, `write ${this.#burst}`);
  }

  /* The place follows the caret. */
  #follow() {
    if (document.activeElement !== this.area || this.area.value !== this.#joined(this.#part)) return;
    const line = this.#lineAt(this.area.selectionStart);
    if (line !== this.#line) this.#goToLine(line);
  }

  #goToLine(line) {
    this.#line = line;
    this.to.go(placeOfLine(this.state.outline, line));
  }

  draw() {
    if (!this.state || element("writing").hidden) return;
    const { top, left, height } = this.#box;
    const { from, to } = this.#part;
    const { place, fault, refusal } = this.#shown;
    const now = lineOfPlace(this.state.outline, place);
    const bad = new Set([fault?.line, refusal?.line].filter(Boolean).map((line) => line - 1));
    const first = from + Math.max(0, Math.floor((top - PAD) / LINE));
    const last = Math.min(to - 1, from + Math.ceil((top + height) / LINE));
    const numbers = [];
    const marks = [];
    let unseen = null; // the first character in sight that is not seen
    for (let line = first; line <= last; line++) {
      const y = PAD + (line - from) * LINE - top;
      const found = unseenIn(this.#lines[line]);
      if (found) unseen ??= { line, ...found };
      const look = `${line === now ? " now" : ""}${bad.has(line) ? " bad" : ""}${found ? " unseen" : ""}`;
      numbers.push(tree("span", { class: `number${look}`, "data-line": line, style: `top:${y}px` }, line + 1));
      if (look) marks.push(tree("div", { class: `line${look}`, style: `top:${y}px` }, this.#markIn(line, fault, left)));
    }
    fill("numbers", numbers);
    fill("marks", marks);
    element("unseen").hidden = unseen === null;
    if (unseen) setText("unseen-where", `Line ${unseen.line + 1}, column ${unseen.column}: ${unseen.code} is not seen, and the line may look otherwise than it is.`);
  }

  /* The character at which a fault is. */
  #markIn(line, fault, left) {
    if (!fault || fault.line - 1 !== line || fault.column === 0) return null;
    const characters = [...this.#lines[line]];
    const front = characters.slice(0, fault.column - 1).join("");
    return tree("span", { style: `margin-left:${-left}px` }, front, tree("mark", {}, characters[fault.column - 1] ?? " "));
  }
}
