/** A component of an operation: a text that is inserted, a length above 0 that is retained, or one below 0 that is deleted. Lengths count UTF-16 units, as ot.js does. */
type Component = string | number;

/** What the recorder uses of an operation: ot.js' `TextOperation`, or its `WrappedOperation`, whose operation is in `wrapped`. */
export type RecordedOperation = { toJSON(): Component[] } | { wrapped: { toJSON(): Component[] } };

/** What the recorder wraps of ot.js' `Client`. `sendOperation` and `applyOperation` are the page's: they are there when the recording begins. */
export interface RecordedClient {
  revision: number;
  state: { outstanding?: RecordedOperation | null; buffer?: RecordedOperation | null };
  applyClient(operation: any): any;
  applyServer(...given: any[]): any;
  serverAck(): any;
  sendOperation(revision: number, operation: any): any;
  applyOperation(operation: any): any;
}

/** What the recorder wraps of ot.js' `Server`. */
export interface RecordedServer {
  document: string;
  operations: unknown[];
  receiveOperation(revision: number, operation: any): any;
}

/** Takes a line of the log, without an LF at its end: docs/FORMATS.md, "The recorder's log". */
export type Write = (line: string) => void;

/**
 * Records what a client does from now on: call it when the client is made, before its first edit.
 * @param how `who` is the participant's name, another one for each; `document` gives the editor's own text
 */
export function recordClient(client: RecordedClient, how: { who: string; document: () => string; write: Write }): void;

/**
 * Records what a server does from now on: call it before the first operation comes, or while all is quiet.
 * @param how `who` is its name, "server" where it is left out
 */
export function recordServer(server: RecordedServer, how: { who?: string; write: Write }): void;

declare const recorder: { recordClient: typeof recordClient; recordServer: typeof recordServer };
export default recorder;
