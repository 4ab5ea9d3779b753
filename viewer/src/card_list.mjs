// The cards on the page. Only those that are others than they were are renewed; the focus, the caret and how far a document is
// scrolled stay. While one of their buttons is pressed all stay as they are, since a browser gives no click to a button that is exchanged.

import { cardOf, cardParts } from "./cards.mjs";
import { element } from "./dom.mjs";
import { SERVER } from "../../common/fold.mjs";
import { caretBox, putSelection, selectionNow } from "./selection.mjs";
import { built, sameTrees, tree } from "./tree.mjs";

export class CardList {
  #shown = new Map(); // each participant's card, and of what it is made
  #order = "";
  #scrolled = new Map(); // how far each document is scrolled: asked of all of them it would be slow
  #entered = null; // the editor that the focus has come to
  composing = null; // the client whose document an input method writes into: its card stays as it is
  #isPressed = false; // whether a button of a card is
  #awaited = null; // what is to be shown when it is no longer

  /** The cards hear that a button is pressed, and show what they missed behind its click, or where none comes. */
  listen() {
    element("cards").addEventListener("pointerdown", ({ target }) => (this.#isPressed = target.closest("button") !== null));
    for (const type of ["click", "pointercancel"]) addEventListener(type, () => this.#release());
    addEventListener("pointerup", () => this.#isPressed && setTimeout(() => this.#release(), 100));
  }

  #release() {
    this.#isPressed = false;
    const awaited = this.#awaited;
    this.#awaited = null;
    if (awaited) this.show(...awaited);
  }

  /** @param {object} view see `cardOf` @param {boolean} isPut whether what is selected in the state is to be selected on the page, else the user may have moved the caret since */
  show(view, isPut) {
    if (this.#isPressed) {
      this.#awaited = [view, isPut];
      return;
    }
    const parent = element("cards");
    const members = [SERVER, ...[...view.session.members.keys()].filter((client) => !view.hidden.has(client))];
    const editor = this.#editorInUse();
    const selection = editor && (isPut && view.caret?.client === this.writing ? view.caret : selectionNow(editor, view.caret));
    const box = editor && caretBox(editor);
    const first = editor?.dataset.first;
    if (this.#order !== members.join()) this.#reset(members);
    const renewed = this.#renewCards(members, view);
    members.forEach((who, i) => parent.children[i].classList.toggle("chosen", who === view.chosen));
    for (const [who, top] of this.#scrolled) {
      const text = parent.querySelector(`.document[data-who="${who}"]`);
      if (text) text.scrollTop = top;
    }
    showChange(parent.querySelector(".moved .document:not(:focus)"));
    if (!selection || editor !== document.activeElement || !(isPut || renewed.has(this.writing))) return;
    putSelection(editor, selection);
    this.#showCaret(editor, first === editor.dataset.first ? null : box, isPut);
  }

  /* Renews the cards that are others than they were: who has them. */
  #renewCards(members, view) {
    const renewed = new Set();
    members.forEach((who, i) => {
      if (who === this.composing) return;
      const parts = cardParts(view.session, who, view);
      const last = this.#shown.get(who);
      if (last && parts.every((part, k) => part === last.parts[k])) return;
      const card = cardOf(view.session, who, view);
      this.#shown.set(who, { parts, card });
      if (last && sameTrees([last.card], [card])) return;
      this.#renew(element("cards").children[i], built(card));
      renewed.add(who);
    });
    return renewed;
  }

  /** The client whose document has the focus, null where none has; one that has it since this turn has it from the next one on. */
  get writing() {
    const editor = document.activeElement;
    return editor !== null && editor === this.#entered ? Number(editor.dataset.who) : null;
  }

  /** An editor has the focus. What is shown of its document changes when the browser has put the caret. */
  enter(editor) {
    this.#entered = editor;
  }

  #editorInUse() {
    const client = this.writing;
    return client === null || client === this.composing ? null : document.activeElement;
  }

  /* Where another part of a document is shown, its caret stands where it stood on the screen; one that the page has put is in sight. */
  #showCaret(editor, before, isPut) {
    const now = caretBox(editor);
    if (now && before) editor.scrollTop += now.top - before.top;
    const caret = isPut && caretBox(editor);
    if (caret) {
      const { top, bottom } = editor.getBoundingClientRect();
      if (caret.top < top) editor.scrollTop += caret.top - top - 4;
      else if (caret.bottom > bottom) editor.scrollTop += caret.bottom - bottom + 4;
    }
    this.keepScrolled(editor);
  }

  /** A client's card is redrawn at the next turn, whatever it shows. */
  forget(client) {
    this.#shown.delete(client);
  }

  editorOf(client) {
    return element("cards").querySelector(`.document[data-who="${client}"][contenteditable="true"]`);
  }

  keepScrolled(text) {
    if (text.scrollTop > 0) this.#scrolled.set(text.dataset.who, text.scrollTop);
    else this.#scrolled.delete(text.dataset.who);
  }

  #reset(members) {
    this.#order = members.join();
    this.#shown.clear();
    this.#scrolled.clear();
    element("cards").replaceChildren(...members.map(() => built(tree("section"))));
  }

  #renew(card, fresh) {
    const focused = card.contains(document.activeElement) ? document.activeElement : null;
    if (!focused) return card.replaceWith(fresh);
    if (focused.matches(".document")) return keepEditor(card, fresh, focused);
    const { play, name, note } = focused.dataset;
    card.replaceWith(fresh);
    const isSame = ({ dataset, disabled }) => !disabled && dataset.play === play && dataset.name === name && dataset.note === note;
    const same = [...fresh.querySelectorAll("button")].find(isSame);
    (same || fresh.querySelector("button.head:not(:disabled)") || fresh).focus({ preventScroll: true });
  }
}

/* The card around an editor in use is renewed, and the editor itself keeps its element. */
function keepEditor(card, fresh, editor) {
  const other = fresh.querySelector(".document[contenteditable]");
  if (!other) return card.replaceWith(fresh);
  editor.replaceChildren(...other.childNodes);
  for (const name of ["first", "length"]) editor.dataset[name] = other.dataset[name];
  for (const { name, value } of fresh.attributes) card.setAttribute(name, value);
  for (const child of [...card.children]) if (child !== editor) child.remove();
  const behind = [...fresh.children];
  const at = behind.indexOf(other);
  editor.before(...behind.slice(0, at));
  editor.after(...behind.slice(at + 1));
  return undefined;
}

/* Scrolls a document to its change, where that is out of sight. */
function showChange(text) {
  const changed = text && text.textContent.length > 300 && text.querySelector(".inserted, .deleted");
  if (!changed) return;
  const place = changed.offsetTop - text.offsetTop;
  if (place < text.scrollTop || place > text.scrollTop + text.clientHeight - 20) text.scrollTop = place - 40;
}
