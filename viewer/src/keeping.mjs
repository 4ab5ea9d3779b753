// What a user has changed, kept in the browser's tab for when the page is reloaded there. It belongs to what the page was opened
// with, which is a link's image or the schedule that stands in the page: where that is another one, nothing is restored.

/** What may be kept of a tab, in characters: browsers allow some five million. */
const ROOM = 2_500_000;

const isText = (value) => typeof value === "string";

export class Keeper {
  #storage;
  #key;

  /** @param {Storage | null} storage that of the tab, null where the browser gives none @param {string} page what the page is called */
  constructor(storage, page) {
    this.#storage = storage;
    this.#key = `otbench ${page}`;
  }

  /**
   * Keeps the session of a state, where it was changed. False where it is changed and cannot be kept.
   * @param {string[]} from what the page was opened with, each of them where its address became another one while it was left
   * @param {import("./state.mjs").State} state
   */
  keep(from, { text, port, title, place, past }) {
    if (past.length === 0) {
      this.#storage?.removeItem(this.#key);
      return true;
    }
    const kept = JSON.stringify({ from, text, port, title, place });
    if (!this.#storage || kept.length > ROOM) return false;
    try {
      this.#storage.setItem(this.#key, kept);
      return true;
    } catch {
      return false;
    }
  }

  /** What was kept of a page that was opened with this: { text, port, title, place }; null where nothing was. */
  keptOf(from) {
    let kept;
    try {
      kept = JSON.parse(this.#storage?.getItem(this.#key) ?? "null");
    } catch {
      return null;
    }
    if (!Array.isArray(kept?.from) || !kept.from.includes(from) || !isText(kept.text) || !isText(kept.title) || !Number.isInteger(kept.place)) return null;
    const { text, title, place, port } = kept;
    return { text, title, place, port: Array.isArray(port) && port.every(isText) ? port : null };
  }
}

/** The storage of the tab; null where the browser gives none. */
export function tabStorage() {
  try {
    return sessionStorage;
  } catch {
    return null;
  }
}
