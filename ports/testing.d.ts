import type { ComparedKey, Conformance, PortLines } from "../npm/otbench.js";

/** A component of an operation: a text that is inserted, a length above 0 that is retained, or one below 0 that is deleted. */
export type Component = string | number;

/** What the harness uses of an operation. None of these gives a promise. */
export interface PortOperation {
  baseLength: number;
  targetLength: number;
  toJSON(): Component[];
  apply(document: string): string;
  compose(second: PortOperation): PortOperation;
  /** The operation that takes this one back, which was applied to the document. A port that declines the law `invert` needs none. */
  invert?(document: string): PortOperation;
}

/** The operation's class: `fromJSON`, or on its objects the builder `retain`, `insert` and `delete`, which the harness calls for their effect. */
export interface PortTextOperation {
  new (): any;
  fromJSON?(components: Component[]): PortOperation;
  transform(first: any, second: any): any;
}

/** What the harness calls on a client. It awaits what is given, and what is left to microtasks. */
export interface PortClient {
  applyClient(operation: any): void | Promise<void>;
  applyServer(operation: any): void | Promise<void>;
  serverAck(): void | Promise<void>;
}

/** What the harness calls on a server; the operation as it stands in the log then is given. */
export interface PortServer {
  receiveOperation(revision: number, operation: any): any | Promise<any>;
}

/**
 * A port: ot.js' three classes, each with this at least. The harness assigns `sendOperation(revision, operation)` and
 * `applyOperation(operation)` to each client, and keeps nothing else on the port's objects. A message is sent at most once in an
 * instruction, and after the one before it was acknowledged. A client's `revision`, `state.outstanding` and `state.buffer` and a
 * server's `document` and `operations` are read, or what `accessors` gives in their place. Missing parts are a TypeError that names each.
 */
export interface Port {
  TextOperation: PortTextOperation;
  Client: new (revision: number) => PortClient;
  Server: new (document: string, operations?: any[]) => PortServer;
}

/** Where a port has the values that are read, if it is not where ot.js has them. What is left out is read as of ot.js. */
export interface Accessors {
  revision?(client: any): number;
  /** The operation that was sent and not yet acknowledged; null or undefined where there is none. */
  outstanding?(client: any): PortOperation | null | undefined;
  /** What the user has edited since; null or undefined where there is none. */
  buffer?(client: any): PortOperation | null | undefined;
  document?(server: any): string;
  /** The log, of which the length is read. */
  operations?(server: any): { length: number };
}

/** Performs a schedule's text on a port, and gives its lines: docs/FORMATS.md, "What a port prints". */
export type Driver = (schedule: string) => PortLines | Promise<PortLines>;

/** A port, which is then driven as `drive` does, or a driver of one. */
export type Subject = Port | Driver;

/** A law of ot.js that no session shows. */
export type Law =
  | "invert"
  | "isNoop"
  | "equals"
  | "apply-of-another-length"
  | "compose-of-unfit-operations"
  | "transform-of-unfit-operations"
  | "revision-not-in-the-log"
  | "acknowledgement-when-synchronized"
  | "server-with-operations";

/** The names of all laws. */
export const laws: Law[];

export interface DriveOptions {
  /**
   * Whether lengths count UTF-16 units, as ot.js does. They are then given so and turned back. Where it is left out, a port counts
   * UTF-16 units, and a driver counts Unicode scalar values, as a schedule does.
   */
  utf16?: boolean;
  accessors?: Accessors;
}

export interface RandomOptions {
  /** How many, 1 at least; 100 where it is left out. */
  sessions?: number;
  /** The seed of the first, 0 to 999,999,999; each further one has the next. 1 where it is left out. Seeds that end with 9 have a longer start, or 8 or 25 times the instructions. */
  seed?: number;
  /** 1 to 64; 4 where it is left out. */
  clients?: number;
  /** How many of them are there from the beginning; all where it is left out. */
  present?: number;
  /** How many in a session, before the reads at its end: 0 to 100,000; 60 where it is left out. */
  instructions?: number;
  /** The document at the beginning. */
  start?: string;
  /** Whether sessions end there, whatever is under way. */
  open?: boolean;
}

export interface ConformsOptions extends DriveOptions, RandomOptions {
  /** Whether the sessions of the corpus are tried first; they are where it is left out. */
  corpus?: boolean;
  /**
   * All small sessions with so many edits at most, 0 to 3, are tried behind the corpus. Where it is left out they have 2 edits at most, and there are none
   * without the corpus. With 0 failures are not looked for among them either.
   */
  every?: number;
  /** How long a session may take, and twice that if it has more than 8,192 characters; 10 where it is left out. On a machine with a load average of N for each processor N times as long. */
  seconds?: number;
  /** How long a session that fails is looked for among the small ones and made smaller; 3 where it is left out. */
  reduceSeconds?: number;
  /** Laws that the port declines, and kinds of failures that are tolerated, `AwaitingConfirm.applyServer: outstanding`; none where it is left out. */
  known?: (Law | string)[];
  /** Whether it goes on behind a session that fails: then the error has all failures by their kinds, the shortest of each reduced. */
  all?: boolean;
  /** The keys of which a value has to be compared; `document` where it is left out, of each client and of the server in each session. */
  need?: (ComparedKey | "message")[];
  /** The file into which the reduced schedule of a failure is written. */
  saveTo?: string;
  /** Is called behind each session, in their order. */
  onSession?(session: SessionResult): void;
  /** Ends the run: the promise is rejected with its reason. */
  signal?: AbortSignal;
  /** Is called with each line of the run in the Test Anything Protocol, as with `all`. */
  tap?(line: string): void;
  /** The file into which the run is written as JUnit's XML, as with `all`. */
  junit?: string;
}

/** What became of a session. */
export interface SessionResult extends Session {
  conforms: boolean;
  /** Of a failure the method of ot.js and the key that differs, or what was wrong with the driver; else null. */
  kind: string | null;
  /** Whether the kind is one that is tolerated. */
  known: boolean;
}

/**
 * A session over which the port fails: an `AssertionError` of node's. The message has 60 lines at most: the schedule, reduced, without the middle
 * of a long one, what `conform` says of it, what was thrown, and how to replay it.
 */
export interface ConformanceError extends Error {
  name: "AssertionError";
  code: "ERR_ASSERTION";
  /** What was found, and what ot.js has, as `conform` prints them. */
  actual?: string;
  expected?: string;
  /** The session's name. */
  session: string;
  /** The method of ot.js and the key that differs, or what was wrong with the driver. */
  kind: string;
  /** The schedule, reduced. */
  schedule: string;
  /** What `conform` says of it; null where the driver threw, or the session did not end in time. */
  answer: Conformance | null;
  /** What the port or the driver threw, with its stack; left out where it threw nothing. */
  cause?: unknown;
}

/** All failures of a run with `all`: an `AssertionError` of node's, with the fields of the first kind's. One failure alone is a ConformanceError. */
export interface FailuresError extends ConformanceError {
  /** Of each kind, the most frequent first: how many sessions fail so, and the first small one of them or else the shortest, reduced. */
  failures: { kind: string; sessions: number; error: ConformanceError }[];
}

/** Laws that the port breaks: an `AssertionError` of node's. */
export interface LawsError extends Error {
  name: "AssertionError";
  code: "ERR_ASSERTION";
  /** What is wrong, by the law. */
  laws: Partial<Record<Law, string>>;
  cause?: unknown;
}

/** What was tried whole of the small sessions: every session of 2 clients with up to 2 edits over "xy", for example. */
export interface Covered {
  said: string;
  /** How many of them conform: all, but for those whose failure is known. */
  sessions: number;
}

/** A stage of small sessions that was not tried whole. */
export interface Untried {
  said: string;
  /** How many they are. */
  sessions: number;
  /** The number that asks for it as the option `every`. */
  every: number;
}

export interface Session {
  name: string;
  schedule: string;
}

/*
 * Options that are not understood are refused before anything runs, with an OtbenchError of the kind `Usage` that names the option.
 */

/**
 * Tries a port over the corpus, over all small sessions, over sessions made at random, and over the laws. Rejected with a ConformanceError at the first session that fails (with
 * a FailuresError where the option `all` is given), with an AssertionError where what is needed was not compared, and with a LawsError where laws are
 * broken. Resolved with how many sessions conform, which of the small ones were tried and which were not, how often each value was compared, the laws that were tried (a driver has none), and how often
 * each kind came that is known.
 *
 * `otbench port` of the command tries a driver that is a program in the same way.
 *
 * A port that is given as its classes runs in this process, and is not ended where it loops. One that may do so is given as the URL of a module that exports `TextOperation`, `Client` and `Server`, and `accessors` where it needs them,
 * or a driver as `default`. It is tried in a worker, which is ended `seconds` after a session began. The first session has to begin within 30 seconds.
 */
export function conforms(
  subject: Subject | URL,
  options?: ConformsOptions,
): Promise<{ sessions: number; every: Covered[]; untried: Untried[]; compared: Partial<Record<ComparedKey | "message", number>>; laws: Law[]; known?: Record<string, number> }>;

/** Compares over one schedule. */
export function compare(subject: Subject, schedule: string, options?: DriveOptions): Promise<Conformance>;

/** The lines of a port, or what a driver makes of it, over one schedule: one for each instruction. Where the port throws, the line says so and is the last but the end. */
export function drive(subject: Subject, schedule: string, options?: DriveOptions): Promise<PortLines>;

/** The sessions of the corpus, each written for one rule of ot.js. */
export function corpus(): Generator<Session>;

/** Sessions made at random, of which no instruction is refused. */
export function random(options?: RandomOptions): Generator<Session>;
