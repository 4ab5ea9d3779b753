import { OtbenchError, Text } from "./otbench.mjs";

export { OtbenchError };

/** What each command takes and does, by its name. The same commands have the terminal's help. */
export const commands: Record<string, { takes: string; does: string }>;

type Word = string | number;
type Client = number | "server";

/** A debugger over a session. Each method performs a command and returns the lines of its answer; what is complained of is such a line, too. */
export interface Session {
  /** How many instructions are performed. */
  readonly place: number;
  /** How many can be. */
  readonly end: number;
  /** Performs a command as it is typed at the terminal, such as `break take 1 if doc 0 contains "x"`. */
  perform(line: string): string[];
  /** What the last word of a line may go on with. */
  complete(line: string): string[];
  step(count?: number): string[];
  next(count?: number | "difference"): string[];
  back(count?: number): string[];
  rnext(count?: number | "difference"): string[];
  run(): string[];
  continue(): string[];
  rrun(): string[];
  until(...words: Word[]): string[];
  runtil(...words: Word[]): string[];
  goto(place: number | string): string[];
  break(...words: Word[]): string[];
  watch(what: "doc" | "state" | "outstanding" | "buffer" | "server", client?: Client): string[];
  unwatch(): string[];
  display(what: "doc" | "state" | "outstanding" | "buffer" | "server", client?: Client): string[];
  info(what?: "breaks"): string[];
  info(what: "outstanding" | "buffer" | "message", client: number): string[];
  delete(number: number): string[];
  clear(place?: number): string[];
  who(client: Client, character: number): string[];
  blame(client: Client, from?: number, to?: number): string[];
  find(text: string): string[];
  find(whose: "port", text: string): string[];
  rfind(text: string): string[];
  rfind(whose: "port", text: string): string[];
  diff(from: number | "doc", to: Client, client?: Client): string[];
  mark(name?: string): string[];
  undo(): string[];
  where(): string[];
  verdict(): string[];
  list(from?: number, to?: number): string[];
  show(client?: Client): string[];
  print(...words: Word[]): string[];
  explain(instruction?: number): string[];
  why(instruction?: number): string[];
  why(walk: "walk", transform?: number): string[];
  why(instruction: number, walk: "walk", transform?: number): string[];
  source(file: string): string[];
  save(file: string): string[];
  export(file: string, complete?: "complete"): string[];
  help(command?: string): string[];
}

/**
 * Opens a session, at its opening.
 * @param schedule its text
 * @param options `port`: the lines that a port printed, where it stops if they differ; `sparse`: instructions without a line are not compared
 * @throws {OtbenchError} where the text is refused; `line` has its line
 */
export function openDebugger(schedule: Text, options?: { port?: Text | null; sparse?: boolean }): Session;
