// Whether a person types Ctrl-C while a command is performed: node itself reads nothing meanwhile.

import { closeSync, constants, openSync, readSync } from "node:fs";

const EACH = 50; // milliseconds
const CTRL_C = 3;

/** What is typed at the terminal while a command is performed. */
export class Interruption {
  #file = null;
  #looked = 0;
  #typed = []; // what is not Ctrl-C, and is not read by another

  /** Begins with a command at a terminal. */
  begin() {
    this.#looked = Date.now();
    try {
      this.#file ??= openSync("/dev/tty", constants.O_RDONLY | constants.O_NONBLOCK);
    } catch {
      this.#file = null; // no terminal that this process may read
    }
  }

  /** Whether Ctrl-C was typed. What was typed in front of it is dropped, as a line that is begun. */
  isThere() {
    if (this.#file === null || Date.now() - this.#looked < EACH) return false;
    this.#looked = Date.now();
    const room = Buffer.alloc(256);
    try {
      const bytes = room.subarray(0, readSync(this.#file, room));
      const at = bytes.lastIndexOf(CTRL_C);
      if (at >= 0) this.#typed = [];
      this.#typed.push(bytes.subarray(at + 1));
      return at >= 0;
    } catch {
      return false; // nothing is typed
    }
  }

  /** What was typed meanwhile and is to be read now. @returns {Buffer} */
  end() {
    if (this.#file !== null) closeSync(this.#file);
    this.#file = null;
    return Buffer.concat(this.#typed.splice(0));
  }
}
