// The engine for tests: the page's dispatcher over the program itself. OTBENCH names the program, else it is that of the repository;
// without one these tests are skipped.

import { spawnSync } from "node:child_process";
import fs from "node:fs";
import { fileURLToPath, pathToFileURL } from "node:url";
import { Bench } from "../src/bench.mjs";
import { Dispatcher } from "../src/dispatcher.mjs";

export const program = process.env.OTBENCH || fileURLToPath(new URL("../../crates/otbench/out/otbench", import.meta.url));

export const skip = fs.existsSync(program) ? false : "the program is not built";

/* What the program answers, behind the interface of the engine's host. */
export function serveProgram(words, input) {
  const { status, stdout, stderr, error } = spawnSync(program, words, { input, maxBuffer: 1 << 30 });
  if (error) throw error;
  return { status, output: new Uint8Array(stdout), errors: new Uint8Array(stderr) };
}

/* The engine's module behind the same interface, where OTBENCH_ENGINE and OTBENCH_HOST name it and its host; else the program. */
async function serveEngine() {
  const { OTBENCH_ENGINE, OTBENCH_HOST } = process.env;
  if (!OTBENCH_ENGINE || !OTBENCH_HOST) return serveProgram;
  const { serve } = await import(pathToFileURL(OTBENCH_HOST));
  const module = await WebAssembly.compile(fs.readFileSync(OTBENCH_ENGINE));
  return (words, input) => serve(module, words, input);
}

const served = await serveEngine();

/* An engine as the page has it, without a worker. */
export class DirectEngine {
  constructor(serve = served) {
    this.serve = serve;
    this.dispatcher = new Dispatcher(serve);
  }

  beside() {
    return new DirectEngine(this.serve);
  }

  async load() {}

  giveUp() {}

  async ask(words, input) {
    return { ...this.dispatcher.ask(words, input), took: 0 };
  }

  async steps(text) {
    return { ...this.dispatcher.steps(text), took: 0 };
  }

  async debug(shown, line) {
    return this.dispatcher.debug(shown, line);
  }

  async every(words) {
    return this.dispatcher.every(words);
  }

  async complete(shown, line) {
    return this.dispatcher.complete(shown, line);
  }
}

/* A bench with a session, at a place of it. */
export async function opened(text, place) {
  const bench = new Bench(() => {}, async () => {});
  bench.use(new DirectEngine());
  bench.dispatch({ do: "open", text, place });
  await bench.settled();
  bench.dispatch({ do: "go", place });
  return bench;
}
