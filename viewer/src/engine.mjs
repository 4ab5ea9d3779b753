// The engine as the page has it: a worker that answers calls in turn, and can be given up.

/** What a browser needs for the engine and does not have, in words; null where it has all. */
export function wanted(scope) {
  if (typeof scope.WebAssembly !== "object") return "WebAssembly";
  if (typeof scope.Worker !== "function") return "workers";
  if (typeof scope.DecompressionStream !== "function") return "DecompressionStream";
  return null;
}

export class Engine {
  #source;
  #module;
  #worker = null;
  #calls = new Map();
  #count = 0;

  /** @param {string} source the worker's script @param {string | WebAssembly.Module} module compiled, or the base64 of its gzip */
  constructor(source, module) {
    this.#source = source;
    this.#module = module;
  }

  /** Another engine of the same module. */
  beside() {
    return new Engine(this.#source, this.#module);
  }

  /** Starts it; a fault says why it cannot be. */
  async load() {
    if (this.#worker) return;
    const url = URL.createObjectURL(new Blob([this.#source], { type: "text/javascript" }));
    this.#worker = new Worker(url);
    this.#worker.onmessage = ({ data }) => this.#receive(data);
    this.#worker.onerror = (event) => {
      event.preventDefault();
      this.giveUp("its worker ended");
    };
    try {
      this.#module = await this.#call("load", [this.#module]);
    } catch (fault) {
      this.giveUp();
      throw fault;
    } finally {
      URL.revokeObjectURL(url);
    }
  }

  /** What the program answers to words and an input: { status, output, errors, took }. */
  ask(words, input) {
    return this.#call("ask", [words, input]);
  }

  /** See `Dispatcher.steps`. */
  steps(text) {
    return this.#call("steps", [text]);
  }

  /** See `Dispatcher.debug`. */
  debug(shown, line) {
    return this.#call("debug", [shown, line]);
  }

  /** See `Dispatcher.complete`. */
  complete(shown, line) {
    return this.#call("complete", [shown, line]);
  }

  /** See `Dispatcher.every`. */
  every(words) {
    return this.#call("every", [words]);
  }

  /** Ends it, whatever it does; its calls fail for this reason. `load` starts it again. */
  giveUp(reason = "given up") {
    this.#worker?.terminate();
    this.#worker = null;
    this.#fail(reason);
  }

  #call(call, given) {
    const id = this.#count++;
    return new Promise((done, failed) => {
      this.#calls.set(id, { done, failed });
      this.#worker.postMessage({ id, call, given });
    });
  }

  #receive({ id, answer, fault }) {
    const call = this.#calls.get(id);
    this.#calls.delete(id);
    if (fault === undefined) call?.done(answer);
    else call?.failed(new Error(fault));
  }

  #fail(reason) {
    const calls = [...this.#calls.values()];
    this.#calls.clear();
    for (const { failed } of calls) failed(new Error(reason));
  }
}
