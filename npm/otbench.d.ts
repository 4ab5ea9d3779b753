/** The text of a schedule, as a string or as UTF-8. The form: docs/FORMATS.md, "The text of a schedule". */
export type Text = string | Uint8Array;

/** An operation as ot.js' `toJSON` has it: a positive number retains, a negative one deletes, a string is inserted. Lengths count Unicode scalar values. */
export type Operation = (number | string)[];

export type State = "not-joined" | "synchronized" | "awaiting-confirm" | "awaiting-with-buffer";

/** Why an instruction cannot be performed. */
export type Refusal =
  | "NoSuchClient"
  | "StepsFull"
  | "NotJoined"
  | "AlreadyJoined"
  | "BadBase"
  | "ClientFull"
  | "LinkEmpty"
  | "WrongHead"
  | "Memory";

/** A fault's name, as the program prints it; "Usage" where words or options are refused. */
export type FaultKind =
  | "BadClient"
  | "BadMagic"
  | "BadNumber"
  | "BadOpcode"
  | "BadOperation"
  | "BadScalar"
  | "BadShape"
  | "BadText"
  | "Cut"
  | "Extra"
  | "Memory"
  | "NoClients"
  | "NotJson"
  | "NotNormal"
  | "ReadFault"
  | "TagTwice"
  | "TooLong"
  | "TooMany"
  | "TraceFull"
  | "Trailing"
  | "UnknownWord"
  | "Usage";

/** A refused input, refused words, or a fault of memory. A verdict against and a refused instruction are results, and no errors. */
export class OtbenchError extends Error {
  readonly name: "OtbenchError";
  readonly kind: FaultKind;
  /** The line of a refused text, from 1; of `complete` also that of a refused instruction. */
  readonly line: number | null;
  /** The byte of a refused image, from 0. */
  readonly byte: number | null;
  /** Of `conformMany`: which session is refused, from 1. */
  readonly session?: number;
}

/** The engine did not come to its end: there was no memory for it, or its stack ran out. The message says which. */
export class EngineFault extends Error {
  name: "EngineFault";
}

/** A refused instruction: its number, from 0; its line in the schedule's text, from 1, or null where that is an image; and why. */
export interface Stop {
  at: number;
  line: number | null;
  refusal: Refusal;
}

/** So many scalars of a document: those that an instruction inserted, an edit of this client, or, as a count alone, those of the start text. */
export type Span = [count: number, client: number, instruction: number] | [count: number];

export interface Run {
  /** The documents that reads showed, in order; `client` is null for the server's. `by` says who inserted their characters, from left to right. */
  reads: { client: number | null; document: string; by: Span[] }[];
  /** The instruction that was refused, or null where all were performed. */
  stopped: Stop | null;
  /** Where each client ends, by its number. */
  clients: { revision: number; state: State; document: string }[];
  server: { revision: number; document: string };
  /** Whether no message is under way and every joined client is synchronized. Then all documents of joined clients are the server's. */
  quiet: boolean;
}

export interface Message {
  revision: number;
  operation: Operation;
}

/** The opening of a run. */
export interface Opening {
  at: 0;
  clients: number;
  present: number;
  start: string;
}

/** An instruction that was performed, with what it changed. `at` is the place after it. */
export interface Performed {
  at: number;
  do: "edit" | "take" | "deliver" | "ack" | "join" | "read" | "read-server";
  client?: number;
  edit?: Operation;
  revision?: number;
  state?: Exclude<State, "not-joined">;
  outstanding?: Operation;
  buffer?: Operation;
  sent?: Message;
  applied?: Operation;
  appended?: Operation;
  document?: string;
}

/** An instruction that was refused: `at` is the place where the run stands. */
export interface Stopped {
  at: number;
  do: Performed["do"];
  client?: number;
  edit?: Operation;
  stopped: Refusal;
}

export interface End {
  at: number;
  end: "quiet" | "not quiet";
}

/** A line of `steps`. */
export type Step = Opening | Performed | Stopped | End;

/** What a port printed: lines of text, or an array of lines, each a text or the value that it says. */
export type PortLines = Text | readonly (string | object)[];

/** A value that can be compared. */
export type ComparedKey =
  | "clients"
  | "present"
  | "start"
  | "do"
  | "client"
  | "edit"
  | "revision"
  | "state"
  | "outstanding"
  | "buffer"
  | "sent"
  | "applied"
  | "appended"
  | "document"
  | "end";

/** A key that `steps` does not have, in the port's lines or behind `sent.` or `message.`, and the first line of the input that has it. */
export interface UnknownKey {
  key: string;
  line: number;
}

/** The port conforms: how often each value was printed and equal. */
export interface Conforms {
  verdict: "conforms";
  conforms: true;
  compared: Record<ComparedKey, number>;
  /** With `sparse`: the place at which the port's lines end, where that is before the schedule's last instruction. Nothing is compared from there on. */
  linesEnd?: number;
  unknown: UnknownKey[];
  /** The answer as it is printed. */
  text: string;
}

/** Nothing differs, and no value beside `at` and `client` was compared: the port printed places alone, perhaps. */
export interface NothingCounted {
  verdict: "nothing compared";
  conforms: false;
  compared: Record<ComparedKey, number>;
  unknown: UnknownKey[];
  text: string;
}

/** The first value in which the port left ot.js. Values are as they are printed: compact JSON, `none`, `nothing`, `performed` or a refusal. */
export interface Differs {
  verdict: "differs";
  conforms: false;
  /** The place. */
  at: number;
  /** The line of that instruction in the schedule, from 1; of the end, that of the last instruction performed; null where there is none. */
  line: number | null;
  /** `opening`, the instruction (`deliver 0`), `end` or `after the end`. */
  instruction: string;
  /** The client whose value it is; null of the server's; left out where it is nobody's. */
  client?: number | null;
  /** What the schedule's comments call that client. */
  name?: string;
  /** The value: a key of `steps`, `message`, `sent revision` and the like; or `line`. */
  key: string;
  found: string;
  otjs: string;
  /** How many characters at the front of two texts are equal. */
  place: number | null;
  /** Where the two may look alike: the code points of both from where they first differ, four at most. */
  points: { found: number[]; otjs: number[] } | null;
  /** The method of ot.js that makes the value, and what it was given. */
  rule: string | null;
  given: { name: string; value: string }[];
  /** A true sentence about what was found. */
  note: string | null;
  unknown: UnknownKey[];
  text: string;
}

/** Nothing can be compared from there on, for a limit of otbench. */
export interface NotCompared extends Stop {
  verdict: "stopped";
  conforms: false;
  unknown: UnknownKey[];
  text: string;
}

/** The schedule's comments say that the recorded session went on after it, so that nothing conforms. */
export type OfCut = (Omit<Conforms, "conforms"> | Omit<NothingCounted, "conforms"> | Omit<Differs, "conforms"> | Omit<NotCompared, "conforms">) & {
  conforms: false;
  /** What they say of it; empty where that is not shown. */
  cut: string;
};

/** All of many sessions conform; or there is none, and nothing was compared. */
export interface AllConform {
  verdict: "conforms" | "nothing compared";
  conforms: boolean;
  /** How many they are. */
  sessions: number;
  /** How often each value was printed and equal, in all together. */
  compared: Record<ComparedKey, number>;
  /** With `sparse`: the sessions, from 1, in which the port's lines end before the schedule's last instruction, each with the place. */
  linesEnd?: { session: number; place: number }[];
  /** The unknown keys of all: the session, from 1, and the line in it, as that of `conform`. */
  unknown: (UnknownKey & { session: number })[];
}

/** The first of many sessions that does not conform: its number, from 1, its text, and what `conform` gives for it, without its words. */
export type FirstOfMany = Omit<Conformance, "text"> & { session: number; schedule: string };

export type Conformance = Conforms | NothingCounted | Differs | NotCompared | OfCut;

/** An edit that the server has not taken, or messages that a client has not received. */
export type Waiting =
  /** On its way to the server, or in the client's buffer. */
  | { client: number; what: "sent" | "buffered"; operation: Operation }
  | { client: number; what: "incoming"; count: number };

/** Whether all documents must agree where the run ends, and to what. */
export interface Verdict {
  /**
   * `must be`: all is quiet. `will be`: the documents become that in every order in which the rest arrives. `depends`: what they become may
   * depend on whose edit the server takes first.
   */
  verdict: "must be" | "will be" | "depends";
  /** What all documents are, or become; null with `depends`. */
  document: string | null;
  /** How many characters it has; null with `depends`. */
  length: number | null;
  /** What has not arrived, by client. */
  waiting: Waiting[];
  /** With `depends`: whose edit the server may take first, and whose `complete` takes first. */
  choice: number[];
  first: number | null;
  /** The clients that have not joined. */
  absent: number[];
  /** The verdict as `explain` prints it, without names. */
  text: string;
}

/** What is not settled: a client that is not synchronized, its message to the server, or messages to it. */
export interface Waits {
  what: "client" | "up" | "down";
  client: number;
}

export interface Check {
  stopped: Stop | null;
  quiet: boolean;
  /** The first thing that keeps the session from being quiet. */
  waits: Waits | null;
  /** With `all`: everything that does, by client. */
  unsettled?: Waits[];
  /** Whether the trace of the run has the weak list property: `holds`, or `trace full` where it is too long to be judged. */
  property: string;
}

/** Who inserted an element, and its number. */
export type Tag = [origin: number, serial: number];

export interface Judgement {
  holds: boolean;
  violation: {
    kind: "bad-visibility" | "doubled" | "missing" | "extra" | "wrong-place" | "reversed";
    events: number[];
    tags: Tag[];
  } | null;
}

export interface GenerateOptions {
  /** Which session it is: one to nine digits; 1 where it is left out. */
  seed?: number;
  /** 1 to 64; 4 where it is left out. */
  clients?: number;
  /** How many of them are there from the start, 0 to `clients`. */
  present?: number;
  /** How many, before the reads at the end: 0 to 100,000; 60 where it is left out. */
  instructions?: number;
  /** The start text, at most 40,000 characters. */
  start?: string;
  /** Whether the session ends there, whatever is under way. */
  open?: boolean;
}

export interface EveryOptions {
  every: true;
  /** 1 to 4; 2 where it is left out. */
  clients?: number;
  /** How many at most, 0 to 6; 2 where it is left out. */
  edits?: number;
  /** The start text, at most 8 characters. */
  start?: string;
  /** How many insertions an edit has at most, 0 to 8; 1 where it is left out. */
  inserts?: number;
  /** How many characters an insertion has, 1 to 8; 1 where it is left out. */
  letters?: number;
  /** Whether the last client joins late. */
  join?: boolean;
  /** `I/N`: each N-th session alone, from the I-th on. */
  part?: string;
  /** Whether their number alone is given. */
  count?: boolean;
}

/** What the program gave: its status, and the bytes of standard output and standard error. */
export interface Answer {
  status: number;
  output: Uint8Array;
  errors: Uint8Array;
}

export interface Bench {
  /** Runs the program on its words (`["steps", "--documents"]`) and on what it reads. Never throws for what it answers. */
  serve(words: string[], input?: Text): Answer;
  /** Runs a schedule; with `image` its image. */
  run(schedule: Text, options?: { image?: boolean }): Run;
  /** The run as values: the opening, each instruction with what it changed, a stop, the end. */
  steps(schedule: Text, options?: { documents?: boolean }): Step[];
  /** The run in words, with the clients' names where comments say them. The error of a refused text says its column and cause too. */
  explain(schedule: Text): string;
  /**
   * Judges a recorded trace, a value or its JSON, and gives the line that `judge` prints, with words below it: which events, which elements, and what
   * each list has. The error of an input that is no trace says where its first fault is, what stands there and what is wanted.
   */
  explain(trace: object | Text, options: { form: "trace" }): string;
  /** Says in a line what a plan is, a value or its JSON. The error of an input that is no plan says where its first fault is, as that of a trace does. */
  explain(plan: object | Text, options: { form: "plan" }): string;
  /** The run of a schedule's image in words. The error of bytes that are no image says which field is wrong, what stands there and what is wanted. */
  explain(image: Uint8Array, options: { form: "image" }): string;
  /** Whether all documents must agree where the run of a schedule ends, and to what, as `explain --json` says it. */
  verdict(schedule: Text): Verdict;
  /** Compares what a port of ot.js printed with the run of the schedule; with `sparse` instructions without a line are passed over. */
  conform(schedule: Text, lines: PortLines, options?: { sparse?: boolean }): Conformance;
  /** Compares many sessions, one by one, in one call of the program, up to the first that does not conform. The error of a refused schedule has its `session`, from 1. */
  conformMany(sessions: Iterable<{ schedule: Text; lines: PortLines }>, options?: { sparse?: boolean }): AllConform | FirstOfMany;
  /** Whether all is quiet and one, and whether the trace has the weak list property. */
  check(schedule: Text, options?: { all?: boolean }): Check;
  /** Judges a recorded trace: a value, or its JSON. */
  judge(trace: object | Text): Judgement;
  /** A schedule's image. */
  assemble(schedule: Text): Uint8Array;
  /** The canonical text of an image. */
  disassemble(image: Uint8Array): string;
  /**
   * A schedule's canonical text, and behind it the takes and receipts that bring it to quiet. Throws where an instruction is refused, its kind the
   * refusal's name, and where there would be more than 100,000 instructions, `TooMany`.
   */
  complete(schedule: Text): string;
  /** A session made at random, of which no instruction is refused; or every small session, each with a line `%%` behind it. */
  generate(options?: GenerateOptions | EveryOptions): string;
}

/** The functions over an engine that the caller has compiled. */
export function benchOf(module: WebAssembly.Module): Bench;

export const serve: Bench["serve"];
export const run: Bench["run"];
export const steps: Bench["steps"];
export const explain: Bench["explain"];
export const verdict: Bench["verdict"];
export const conform: Bench["conform"];
export const conformMany: Bench["conformMany"];
export const check: Bench["check"];
export const judge: Bench["judge"];
export const assemble: Bench["assemble"];
export const disassemble: Bench["disassemble"];
export const complete: Bench["complete"];
export const generate: Bench["generate"];
