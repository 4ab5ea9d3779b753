/* The package under node: over one compiled module, which is kept. */

import { serve as serveIn } from "../engine/host.mjs";
import { benchOver } from "./bench.mjs";
import { engine } from "./engine.mjs";

export { EngineFault } from "../engine/host.mjs";
export { OtbenchError } from "./errors.mjs";

/** All functions over an engine that the caller has compiled. */
export const benchOf = (module) => benchOver((words, input) => serveIn(module, words, input));

const bench = benchOver((words, input) => serveIn(engine(), words, input));

export const { serve, run, steps, explain, verdict, conform, conformMany, check, judge, assemble, disassemble, complete, generate } = bench;
