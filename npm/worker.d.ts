import type { Answer, Bench, EveryOptions, GenerateOptions, PortLines, Text } from "./otbench.js";

export { EngineFault, OtbenchError } from "./otbench.js";

/** Cancels the call: the promise is rejected with the signal's reason. */
export interface Cancelled {
  signal?: AbortSignal;
}

/** The functions of the package in a worker. Calls of one worker run one after the other. */
export interface WorkerBench {
  serve(words: string[], input?: Text, options?: Cancelled): Promise<Answer>;
  run(schedule: Text, options?: { image?: boolean } & Cancelled): Promise<ReturnType<Bench["run"]>>;
  steps(schedule: Text, options?: { documents?: boolean } & Cancelled): Promise<ReturnType<Bench["steps"]>>;
  explain(schedule: Text, options?: Cancelled): Promise<string>;
  explain(trace: object | Text, options: { form: "trace" } & Cancelled): Promise<string>;
  explain(plan: object | Text, options: { form: "plan" } & Cancelled): Promise<string>;
  explain(image: Uint8Array, options: { form: "image" } & Cancelled): Promise<string>;
  verdict(schedule: Text, options?: Cancelled): Promise<ReturnType<Bench["verdict"]>>;
  conform(schedule: Text, lines: PortLines, options?: { sparse?: boolean } & Cancelled): Promise<ReturnType<Bench["conform"]>>;
  conformMany(sessions: Iterable<{ schedule: Text; lines: PortLines }>, options?: { sparse?: boolean } & Cancelled): Promise<ReturnType<Bench["conformMany"]>>;
  check(schedule: Text, options?: { all?: boolean } & Cancelled): Promise<ReturnType<Bench["check"]>>;
  judge(trace: object | Text, options?: Cancelled): Promise<ReturnType<Bench["judge"]>>;
  assemble(schedule: Text, options?: Cancelled): Promise<Uint8Array>;
  disassemble(image: Uint8Array, options?: Cancelled): Promise<string>;
  complete(schedule: Text, options?: Cancelled): Promise<string>;
  generate(options?: (GenerateOptions | EveryOptions) & Cancelled): Promise<string>;
  /** Ends the worker. Calls that wait or run are rejected; a later call starts another worker. */
  close(): void;
}

/** All functions over a worker of their own. */
export function openWorker(): WorkerBench;

export const serve: WorkerBench["serve"];
export const run: WorkerBench["run"];
export const steps: WorkerBench["steps"];
export const explain: WorkerBench["explain"];
export const verdict: WorkerBench["verdict"];
export const conform: WorkerBench["conform"];
export const conformMany: WorkerBench["conformMany"];
export const check: WorkerBench["check"];
export const judge: WorkerBench["judge"];
export const assemble: WorkerBench["assemble"];
export const disassemble: WorkerBench["disassemble"];
export const complete: WorkerBench["complete"];
export const generate: WorkerBench["generate"];
export const close: WorkerBench["close"];
