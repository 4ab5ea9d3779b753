// The debugger's line: commands as at the terminal, what they answered, and what was typed before.

import { brief } from "../../common/characters.mjs";
import { download, element, setText } from "./dom.mjs";
import { built, tree } from "./tree.mjs";

/** How many answers are shown, how many lines of one, and how many characters of a line. */
const ANSWERS = 100;
const LINES = 2000;
const LONG = 20000;

/** How many lines of a paste are performed, and how many words are suggested. */
const PASTED = 1000;
const SUGGESTED = 12;

const HINT = "help lists the commands; Tab completes a word, ↑ and ↓ are earlier lines, Esc closes";

/* What words begin with, all of them. */
function frontOf([first, ...others]) {
  let length = first.length;
  while (others.some((word) => !word.startsWith(first.slice(0, length)))) length--;
  return first.slice(0, length);
}

/* An answer's lines as one text; of very many or long ones not all. */
function answered(lines) {
  const shown = lines.slice(0, LINES).map((line) => brief(line, LONG));
  return [...shown, ...(lines.length > LINES ? [`and ${lines.length - LINES} more lines`] : [])].join("\n");
}

export class CommandLine {
  #bench;
  #field = element("command");
  #past = [];
  #at = 0; // which of them the field shows; behind the last one what is typed
  #typed = "";
  #suggested = { line: "", words: [] };
  #last = Promise.resolve(); // a command waits for those before it
  #waiting = 0;

  /** @param {import("./bench.mjs").Bench} bench @param {() => void} resized called where what is above has another height */
  constructor(bench, resized) {
    this.#bench = bench;
    this.resized = resized;
    this.#field.onkeydown = (event) => this.#press(event);
    this.#field.oninput = () => this.#suggest();
    this.#field.onpaste = (event) => this.#paste(event);
    setText("suggested", HINT);
  }

  /** Opens the line, or closes it; a command that takes long ends then. */
  turn(isShown = element("debugger").hidden) {
    element("debugger").hidden = !isShown;
    element("debug").setAttribute("aria-pressed", String(isShown));
    document.body.classList.toggle("with-debugger", isShown);
    this.resized();
    if (isShown) {
      this.#field.focus();
      if (element("answers").childElementCount === 0) this.#perform(null);
      return;
    }
    if (this.#waiting > 0) this.#bench.endCommand();
    element("time").focus();
  }

  #press(event) {
    if (event.isComposing || event.ctrlKey || event.metaKey || event.altKey) return;
    const keys = { Enter: () => this.#enter(), Escape: () => this.turn(false), ArrowUp: () => this.#recall(-1), ArrowDown: () => this.#recall(1), Tab: () => !event.shiftKey && this.#complete() };
    if (Object.hasOwn(keys, event.key) && keys[event.key]() !== false) event.preventDefault();
  }

  #enter() {
    const line = this.#field.value;
    if (line.trim() !== "" && line !== this.#past.at(-1)) this.#past.push(line);
    this.#at = this.#past.length;
    this.#put("");
    this.#perform(line);
  }

  #put(line) {
    this.#field.value = line;
    this.#field.setSelectionRange(line.length, line.length);
    this.#suggest();
  }

  /* An earlier line, or a later one. */
  #recall(step) {
    const to = this.#at + step;
    if (to < 0 || to > this.#past.length) return;
    if (this.#at === this.#past.length) this.#typed = this.#field.value;
    this.#at = to;
    this.#put(to === this.#past.length ? this.#typed : this.#past[to]);
  }

  /* The last word goes on as far as there is one way; false where it does not, and the key does what it does elsewhere. */
  #complete() {
    const { value, selectionStart } = this.#field;
    const { line, words } = this.#suggested;
    if (line !== value || selectionStart !== value.length || words.length === 0) return false;
    const begun = /\S*$/.exec(value)[0];
    const front = frontOf(words);
    if (words.length > 1 && front.length <= begun.length) return false;
    this.#put(`${value.slice(0, value.length - begun.length)}${front}${words.length > 1 ? "" : " "}`);
    return true;
  }

  /* Shows what the last word may go on with. */
  async #suggest() {
    const line = this.#field.value;
    const words = line.trim() === "" || this.#waiting > 0 ? [] : await this.#bench.completions(line).catch(() => []); // a command says what is wrong
    if (line !== this.#field.value) return;
    this.#suggested = { line, words };
    const more = words.length > SUGGESTED ? " …" : "";
    setText("suggested", line === "" ? HINT : words.slice(0, SUGGESTED).join("  ") + more);
  }

  /* Several lines are commands, one after the other. */
  #paste(event) {
    const lines = event.clipboardData.getData("text").split(/\r?\n/).filter((line) => !/^\s*(;.*)?$/.test(line));
    if (lines.length < 2) return;
    event.preventDefault();
    for (const line of lines.slice(0, PASTED)) this.#perform(line);
  }

  /* Performs a line behind those before it; null: shows what the debugger begins with. */
  #perform(line) {
    this.#waiting++;
    const answer = built(tree("pre", {}, "…"));
    const asked = line === null ? false : tree("p", {}, `> ${brief(line, LONG)}`);
    const entry = built(tree("div", {}, asked));
    entry.append(answer);
    element("answers").prepend(entry);
    element("answers").scrollTop = 0;
    while (element("answers").childElementCount > ANSWERS) element("answers").lastElementChild.remove();
    this.#last = this.#last.then(async () => {
      answer.textContent = await this.#answerTo(line);
      this.#waiting--;
    });
  }

  async #answerTo(line) {
    try {
      const { said, files, isOver } = await this.#bench.command(line);
      for (const { name, text } of files) download(text, name, "text/plain");
      if (isOver) this.turn(false);
      return answered(said);
    } catch (fault) {
      return `not performed: ${fault.message}`;
    }
  }
}
