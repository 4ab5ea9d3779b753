/* Writes the events of a session, in one order, as a schedule and as the participants' own lines. */

import { nameOf } from "./events.js";
import { Unwritable, isWellFormed, toScalars, apply, inUnits } from "./scalars.js";

/* A name as a comment has it: as it is, or as a JSON string where it would not be one line's rest. */
const written = (name) => (/^[^\p{C}\s"](?:[^\p{C}]*[^\p{C}\s])?$/u.test(name) ? name : JSON.stringify(name));

/*
 * The texts over which lengths are counted: of each client its document, the server's at its revision (`base`) and at its
 * message's (`sent`), and the server's. They are made of what the logs say was applied.
 */
export class Writer {
  constructor({ server, clients }) {
    const [{ revision, document }] = server;
    if (!isWellFormed(document)) throw new Unwritable(`${nameOf(server[0])}: the document has half of a surrogate pair`);
    this.first = revision;
    this.served = document;
    this.texts = clients.map(() => ({ document, base: document, sent: document, outstanding: null }));
    this.told = new Map();
    this.notes = [];
    this.fault = null;
    const present = clients.filter((log) => log[0].revision === revision).length;
    this.schedule = clients.map((log, number) => `; client ${number} is ${written(log[0].who)}`);
    this.schedule.push(`clients ${clients.length}`);
    if (present < clients.length) this.schedule.push(`present ${present}`);
    if (document) this.schedule.push(`start ${JSON.stringify(document)}`);
    this.lines = [{ at: 0, clients: clients.length, present, start: document }];
  }

  /* Writes an event; false, and a fault, where a schedule cannot say it. */
  write(event, client) {
    const text = this.texts[client];
    let edit;
    try {
      if (event.do === "edit") edit = toScalars(event.edit, text.document);
      if (event.document !== undefined && !isWellFormed(event.document)) throw new Unwritable("leaves half of a surrogate pair");
    } catch (fault) {
      if (!(fault instanceof Unwritable)) throw fault;
      const what = event.edit ? `edit ${inUnits(event.edit)}` : event.do;
      this.fault = `${nameOf(event)}: ${what} ${fault.message}; a schedule cannot say that, and ends before it`;
      return false;
    }
    this.schedule.push(`${event.do} ${client}${edit ? ` ${JSON.stringify(edit)}` : ""}`);
    this.lines.push(this.#line(event, client, edit));
    return true;
  }

  #line(event, client, edit) {
    if (event.stopped !== undefined) return { at: this.lines.length - 1, do: event.do, client, stopped: event.stopped };
    const line = { at: this.lines.length, do: event.do, client };
    if (event.do === "take") line.message = this.#message(event, event.given, this.texts[client].sent);
    if (event.do === "deliver") this.#tell(line, "message", event, event.operation, this.texts[client].base);
    if (edit) line.edit = edit;
    line.revision = event.revision - this.first;
    if (event.do === "take") this.#take(line, event);
    else if (event.do === "join") this.#join(line, client);
    else this.#move(line, event, this.texts[client]);
    line.document = event.document;
    return line;
  }

  #take(line, event) {
    this.#tell(line, "appended", event, event.appended, this.served);
    this.served = apply(event.appended, this.served);
  }

  #join(line, client) {
    line.state = "synchronized";
    this.texts[client].document = this.texts[client].base = this.served;
  }

  /* An edit, a deliver or an ack: the client's texts move first, then its operations are counted over them. */
  #move(line, event, text) {
    const before = text.document;
    if (event.do === "edit") text.document = apply(event.edit, before);
    if (event.do === "deliver") text.base = apply(event.operation, text.base);
    if (event.do === "deliver" && event.applied) text.document = apply(event.applied, before);
    if (event.do === "ack" && text.outstanding) text.base = apply(text.outstanding, text.base);
    text.outstanding = event.outstanding;
    line.state = event.state;
    this.#tell(line, "outstanding", event, event.outstanding, text.base);
    this.#tell(line, "buffer", event, event.buffer, event.outstanding ? apply(event.outstanding, text.base) : text.base);
    if (event.do === "deliver") this.#tell(line, "applied", event, event.applied, before);
    if (event.sent) {
      text.sent = text.base;
      line.sent = this.#message(event, event.sent, text.sent);
    }
  }

  #message(event, { revision, operation }, text) {
    const message = { revision: revision - this.first };
    this.#tell(message, "operation", event, operation, text);
    return message;
  }

  /*
   * An operation of a participant, in scalars. One that does not fit its text is none that ot.js would have there: it is told
   * as it was last, where it is the same as then, else with the lengths that it has, and a note says so.
   */
  #tell(line, key, event, operation, text) {
    if (!operation) {
      line[key] = null;
      return;
    }
    const name = `${event.who} ${key}`;
    const last = this.told.get(name);
    const units = JSON.stringify(operation);
    try {
      line[key] = toScalars(operation, text);
    } catch (fault) {
      if (!(fault instanceof Unwritable)) throw fault;
      const isKept = last && last.units === units;
      line[key] = isKept ? last.scalars : operation;
      this.notes.push(`${nameOf(event)}: ${key} ${inUnits(operation)} ${fault.message}; ${isKept ? "the line has what it was in scalars" : "the line has the same, in units"}`);
    }
    this.told.set(name, { units, scalars: line[key] });
  }
}
