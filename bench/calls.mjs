#!/usr/bin/env node
/*
 * What a call of the package costs beside the program: node bench/calls.mjs [CALLS]
 *
 * Calls `conform`, `steps` and `run` over sessions of ten instructions, so many times each (2,000). Prints the medians in milliseconds: of a call, of the
 * program in it, and of what is left.
 */

let program = 0;

/* Instances whose program is timed. */
const Plain = WebAssembly.Instance;
function Timed(...given) {
  const { exports } = new Plain(...given);
  const timed = () => {
    const began = performance.now();
    try {
      exports._start();
    } finally {
      program = performance.now() - began;
    }
  };
  return { exports: { ...exports, _start: timed } };
}
Object.assign(WebAssembly, { Instance: Timed });

const { conform, generate, run, steps } = await import("../npm/otbench.mjs");

const median = (numbers) => numbers.sort((a, b) => a - b)[numbers.length >> 1];

function measure(name, count, call, inputs) {
  const [whole, inside, beside] = [[], [], []];
  for (let turn = -inputs.length; turn < count; turn++) {
    const began = performance.now();
    call(...inputs.at(turn % inputs.length));
    const took = performance.now() - began;
    if (turn < 0) continue;
    whole.push(took);
    inside.push(program);
    beside.push(took - program);
  }
  const [each, within, left] = [whole, inside, beside].map((times) => median(times).toFixed(3));
  console.log(`${name}: ${each} ms, the program ${within} ms, beside it ${left} ms`);
}

const count = Number(process.argv[2] ?? 2000);
const schedules = Array.from({ length: 200 }, (_, seed) => generate({ seed, clients: 2, instructions: 7 }));
const both = schedules.map((schedule) => [schedule, steps(schedule).map((line) => JSON.stringify(line))]);
measure("conform", count, conform, both);
measure("steps", count, (schedule) => steps(schedule), both);
measure("run", count, (schedule) => run(schedule), both);
