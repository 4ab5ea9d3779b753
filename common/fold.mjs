// The fold: from the lines of `otbench steps` to a session that knows every document, client state and message at every
// place. A place is a number of performed instructions. Lines that do not fit one another are refused.

import { START, Versions, baseLength, insertedText, insertionsIn, lastUpTo, makeElements, textOf } from "./document.mjs";
import { checkLine } from "./values.mjs";

export const SERVER = "server";

class ClientHistory {
  constructor(number, isPresent, opening) {
    this.number = number;
    this.versions = new Versions(isPresent ? opening : []);
    const state = isPresent ? "synchronized" : "not-joined";
    this.states = [{ at: 0, revision: 0, state, outstanding: null, buffer: null }];
    this.statePlaces = [0];
    this.sent = []; // its messages to the server
    this.up = null; // the one under way
  }

  get last() {
    return this.states[this.states.length - 1];
  }

  moveTo(at, { revision, state, outstanding = null, buffer = null }) {
    this.states.push({ at, revision, state, outstanding, buffer });
    this.statePlaces.push(at);
  }

  /* The history up to a place; its message that is under way there is one of its own. */
  upTo(place) {
    const front = new ClientHistory(this.number, false, []);
    const count = lastUpTo(this.statePlaces, place) + 1;
    front.states = this.states.slice(0, count);
    front.statePlaces = this.statePlaces.slice(0, count);
    front.versions = this.versions.upTo(place);
    front.sent = this.sent.filter(({ sent }) => sent <= place);
    const last = front.sent[front.sent.length - 1];
    if (last && (last.got === null || last.got > place)) front.sent[front.sent.length - 1] = front.up = { ...last, got: null };
    return front;
  }
}

/*
 * steps[p] is what led to place p: { line, moved, received, sent }, moved being a client's number or SERVER, and received
 * and sent the messages. A message is { kind, client, maker, operation, elements, sent, got }: of kind "up" from its
 * client to the server, "down" or "ack" from the server; places sent and got, got null while it is under way.
 */
export class Session {
  constructor({ clients, present, start }) {
    Object.assign(this, { clients, present, start, steps: [null], log: [], logPlaces: [-1], messages: [] });
    this.stop = null;
    this.end = null;
    const opening = makeElements(start, START, 0);
    this.server = new Versions(opening);
    this.members = Array.from({ length: clients }, (_, c) => new ClientHistory(c, c < present, opening));
  }

  get length() {
    return this.steps.length - 1;
  }

  /* A session of its own with what happened up to a place, as if the lines behind it had not been added to this one. */
  upTo(place) {
    const front = new Session(this);
    front.steps = this.steps.slice(0, place + 1);
    front.log = this.log.slice(0, lastUpTo(this.logPlaces, place));
    front.logPlaces = this.logPlaces.slice(0, front.log.length + 1);
    front.server = this.server.upTo(place);
    front.members = this.members.map((member) => member.upTo(place));
    const underWay = new Map(front.members.flatMap(({ up }) => (up ? [[up.sent, up]] : [])));
    for (const [sent, up] of underWay) front.steps[sent] = { ...front.steps[sent], sent: up };
    const isThere = ({ kind, sent, got }) => (kind === "up" ? sent : got) <= place;
    front.messages = this.messages.filter(isThere).map((message) => (message.kind === "up" && underWay.get(message.sent)) || message);
    return front;
  }

  add(line) {
    checkLine(line);
    if (line.end !== undefined) this.end = line.end;
    else if (line.stopped !== undefined) this.stop = line;
    else this.#step(line);
  }

  #step(line) {
    const at = this.steps.length;
    if (line.at !== at) throw new Error(`it is at ${line.at}, and not at ${at}`);
    const member = this.members[line.client];
    if (!member && line.do !== "read-server") throw new Error(`there is no client ${line.client}`);
    const moved = line.do === "take" || line.do === "read-server" ? SERVER : line.client;
    const step = { line, moved, received: null, sent: null };
    this.#perform(line, step, member);
    const { now } = moved === SERVER ? this.server : member.versions;
    if (line.document !== undefined && line.document !== textOf(now)) throw new Error("its document is another");
    this.steps.push(step);
  }

  #perform(line, step, member) {
    switch (line.do) {
      case "edit":
        this.#change(member.versions, line.at, line.edit, makeElements(insertedText(line.edit), line.client, line.at));
        return this.#move(line, step, member);
      case "take":
        return this.#take(line, step, member);
      case "deliver":
        step.received = this.#receive(line, member, "down");
        this.#change(member.versions, line.at, line.applied, step.received.elements);
        return this.#move(line, step, member);
      case "ack":
        step.received = this.#receive(line, member, "ack");
        return this.#move(line, step, member);
      case "join":
        member.versions.replace(line.at, this.server.now);
        return this.#move(line, step, member);
      case "read":
      case "read-server":
        return undefined;
      default:
        throw new Error(`there is no instruction ${JSON.stringify(line.do)}`);
    }
  }

  #take(line, step, member) {
    if (!member.up) throw new Error(`client ${line.client} has no message under way`);
    step.received = member.up;
    member.up.got = line.at;
    const { elements } = member.up;
    member.up = null;
    this.#change(this.server, line.at, line.appended, elements);
    const number = this.log.length;
    this.log.push({ maker: line.client, operation: line.appended, elements, sent: line.at, number });
    this.logPlaces.push(line.at);
  }

  /* The entry of the log at the head of a client's link, received. */
  #receive(line, member, kind) {
    const entry = this.log[member.last.revision];
    if (!entry) throw new Error(`nothing is under way to client ${line.client}`);
    const message = { ...entry, kind, client: line.client, got: line.at };
    this.messages.push(message);
    return message;
  }

  /* The client's new state, and the message that it sent. */
  #move(line, step, member) {
    member.moveTo(line.at, line);
    if (!line.sent) return;
    const { revision, operation } = line.sent;
    const elements = insertionsIn(member.versions.now, operation);
    const { client, at } = line;
    step.sent = { kind: "up", client, maker: client, operation, elements, revision, sent: at, got: null };
    member.up = step.sent;
    member.sent.push(step.sent);
    this.messages.push(step.sent);
  }

  #change(versions, at, operation, insertions) {
    if (!Array.isArray(operation)) throw new Error("it has no operation");
    if (baseLength(operation) !== versions.now.length) throw new Error("its operation does not fit the document");
    if ([...insertedText(operation)].length !== insertions.length) throw new Error("its operation inserts another text");
    versions.change(at, operation, insertions);
  }
}

/* A session of the opening's line, which further lines are added to. */
export function openSession(line) {
  checkLine(line);
  if (line.at === 0 && line.clients && line.start !== undefined) return new Session({ present: line.clients, ...line });
  throw new Error("the opening is missing");
}

function readLine(text) {
  try {
    return JSON.parse(text);
  } catch {
    throw new Error("it is no JSON");
  }
}

/* The session of the lines of `steps`; a fault names the line. */
export function fold(lines) {
  let session = null;
  lines.forEach((text, i) => {
    try {
      const line = readLine(text);
      if (session) session.add(line);
      else session = openSession(line);
    } catch (fault) {
      throw new Error(`line ${i + 1} is no line of otbench steps: ${fault.message}`);
    }
  });
  if (!session) throw new Error("there are no lines");
  return session;
}
