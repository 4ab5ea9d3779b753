/* The package in a browser: the engine is fetched and compiled before the module is there; else as under node. */

import { serve as serveIn } from "../../engine/host.mjs";
import { benchOver } from "../bench.mjs";
import { engine } from "./engine.mjs";

export { EngineFault } from "../../engine/host.mjs";
export { OtbenchError } from "../errors.mjs";

export const benchOf = (module) => benchOver((words, input) => serveIn(module, words, input));

export const { serve, run, steps, explain, verdict, conform, conformMany, check, judge, assemble, disassemble, complete, generate } = benchOf(await engine());
