// The debugger behind the worker: that of the terminal, over the session that the page shows.

import { visible } from "../../common/visible.mjs";
import { Complaint } from "../../terminal/commands.mjs";
import { Debugger } from "../../terminal/debugger.mjs";
import { Recording, RefusedText } from "../../terminal/recording.mjs";

/**
 * @typedef {{ text: string, port: string[] | null, isSparse: boolean, place: number }} Shown the session that the page shows, and its place
 * @typedef {{ said: string[], place: number, files: { name: string, text: string }[], isOver: boolean }} Answer `files`: what is to be saved
 */

const EDIT = "a person edits the schedule in the page";

export class Commanded {
  #ask;
  #debugger = null;
  #shown = null; // the session that it is over
  #unsaid = []; // which breaks and watches the session does not have any more
  #saved = [];

  /** @param {import("../../terminal/recording.mjs").Ask} ask */
  constructor(ask) {
    this.#ask = ask;
  }

  /** Performs a command at the page's place; null: says what the debugger begins with. @param {Shown} shown @param {string | null} line @returns {Answer} */
  perform(shown, line) {
    try {
      this.#follow(shown);
      const said = [...this.#unsaid.splice(0), ...(line === null ? this.#debugger.greeting() : this.#debugger.perform(line))];
      const { place, isOver } = this.#debugger;
      this.#debugger.isOver = false;
      return { said: said.map(visible), place, files: this.#saved.splice(0), isOver };
    } catch (fault) {
      if (!(fault instanceof RefusedText)) throw fault;
      return { said: fault.message.trimEnd().split("\n").map(visible), place: shown.place, files: [], isOver: false };
    }
  }

  /** What the last word of a line may go on with. @param {Shown} shown @param {string} line @returns {string[]} */
  complete(shown, line) {
    try {
      this.#follow(shown);
      return this.#debugger.complete(line)[0];
    } catch (fault) {
      if (!(fault instanceof RefusedText)) throw fault;
      return [];
    }
  }

  /* Goes where the page is; another session of the page is gone on in. */
  #follow(shown) {
    if (!this.#isOf(shown)) {
      const recording = this.#recordingOf(shown);
      if (this.#debugger) this.#unsaid.push(...this.#debugger.goOnIn(recording));
      else this.#debugger = new Debugger(recording, { source: this.#source(), files: this.#files(), place: shown.place });
      this.#shown = shown;
    }
    this.#debugger.goTo(shown.place);
  }

  #isOf({ text, port, isSparse }) {
    const last = this.#shown;
    return last !== null && last.text === text && last.isSparse === isSparse && String(last.port?.join("\n")) === String(port?.join("\n"));
  }

  #recordingOf({ text, port, isSparse }) {
    return new Recording(this.#ask, text, port && `${port.join("\n")}\n`, isSparse);
  }

  #source() {
    return { open: () => this.#recordingOf(this.#shown), edit: () => EDIT };
  }

  #files() {
    return {
      read: (file) => {
        throw new Complaint(`a page does not read ${file}; its lines can be pasted here`);
      },
      write: (name, text) => this.#saved.push({ name, text }),
    };
  }
}
