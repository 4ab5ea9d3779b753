/*
 * One order of all events of a session, of the participants' logs.
 *
 * Any order will do in which each participant's events keep their own order, a message is received after it was sent, and
 * a client joins between those of the server's operations that its revision says: each participant goes through the same
 * states in all of them (README.md says why). Of the events that can come next, the one with the earliest time is taken.
 */

import { nameOf } from "./events.js";
import { inUnits } from "./scalars.js";

const receives = (event) => event.do === "deliver" || event.do === "ack";
const same = (a, b) => JSON.stringify(a) === JSON.stringify(b);
const isGiven = (message, take) => same(message, { revision: take.given.revision, operation: take.given.operation });
const text = (message) => `${inUnits(message.operation)} at revision ${message.revision}`;

/* What is said of an event that threw, behind what else is said of it. */
const thrown = (event) => (event.stopped !== undefined ? `, and it stopped: ${event.stopped}` : "");

/* A client while its log is laid into the order. */
class Client {
  constructor(log, number, first) {
    this.log = log;
    this.number = number;
    this.who = log[0].who;
    this.next = 1; // its next event
    this.entries = log[0].revision - first; // how many of the server's operations it has received
    this.joined = this.entries === 0;
    this.up = null; // its message under way: { revision, operation }
    this.known = this.entries; // how many it will have received at the end of its log
  }
}

class Order {
  constructor({ server, clients }) {
    this.server = server;
    this.first = server[0].revision;
    this.taken = server.filter((event) => event.do === "take" && event.stopped === undefined).length; // in its log
    this.clients = clients.map((log, number) => new Client(log, number, this.first));
    this.makers = [];
    this.clients.forEach((client) => this.#acknowledgements(client));
    this.events = []; // { event, client }: what was laid down so far
    this.appended = []; // the server's operations among them
    this.nextTake = 1;
    this.notes = [];
    this.fault = null;
  }

  /* Who takes an operation of the server as an acknowledgement has made it. */
  #acknowledgements(client) {
    for (const event of client.log) {
      if (event.stopped !== undefined) return;
      if (!receives(event)) continue;
      const entry = client.known++;
      if (event.do !== "ack") continue;
      const other = this.makers[entry];
      if (other) throw new Error(`${other.name} and ${nameOf(event)}: both take operation ${this.first + entry} as an acknowledgement`);
      this.makers[entry] = { client, name: nameOf(event) };
    }
  }

  /* Who acknowledges the operation that a take appends; one that threw has appended none. */
  #acknowledger(take) {
    return take.stopped === undefined ? this.makers[this.appended.length] : undefined;
  }

  /* Whose message the server takes: who acknowledges it, else who has it under way. */
  #maker(take) {
    const entry = this.appended.length;
    const sender = (client) => client.up && isGiven(client.up, take);
    const acknowledger = this.#acknowledger(take);
    if (acknowledger) {
      const { client, name } = acknowledger;
      if (sender(client)) return client;
      if (client.up) this.#layChanged({ event: take, client }, `take of ${text(take.given)}; ${name} acknowledges it, and had sent ${text(client.up)}`);
      return null;
    }
    const senders = this.clients.filter(sender);
    const open = senders.filter((client) => client.known <= entry);
    const [maker] = open.length ? open : senders;
    return maker || null;
  }

  /* The events that can come next, as { event, client }. */
  #ready() {
    const ready = [];
    for (const client of this.clients) {
      const event = client.joined && client.log[client.next];
      if (event && (event.do === "edit" || client.entries < this.appended.length)) ready.push({ event, client });
    }
    const take = this.server[this.nextTake];
    const maker = take && this.#maker(take);
    if (maker) ready.push({ event: take, client: maker });
    return ready;
  }

  /* Notes whose message was taken where the logs do not say it. */
  #noteGuess(take, maker) {
    if (this.#acknowledger(take)) return;
    const other = this.clients.find((client) => client !== maker && client.known <= this.appended.length && same(client.up, maker.up));
    if (other) this.notes.push(`${nameOf(take)}: ${maker.who} and ${other.who} both sent ${text(take.given)}; taken as ${maker.who}'s`);
  }

  /* What received a message that was changed on its way ends the schedule: its line has the message. Where the method threw, it has none. */
  #layChanged({ event, client }, told) {
    if (event.stopped === undefined) this.events.push({ event, client: client.number });
    this.fault = `${nameOf(event)}: ${told}`;
  }

  #lay({ event, client }) {
    if (event.do === "deliver" && !same(event.operation, this.appended[client.entries])) {
      const [theirs, ours] = [event.operation, this.appended[client.entries]].map(inUnits);
      this.#layChanged({ event, client }, `deliver of ${theirs}, and the server's operation ${this.first + client.entries} is ${ours}${thrown(event)}`);
      return;
    }
    if (event.do === "take") this.#noteGuess(event, client);
    this.events.push({ event, client: client.number });
    if (event.stopped !== undefined) {
      this.fault = `${nameOf(event)}: ${event.do} stopped: ${event.stopped}`;
    } else if (event.do === "take") {
      client.up = null;
      this.appended.push(event.appended);
      this.nextTake++;
    } else {
      client.next++;
      if (receives(event)) client.entries++;
      if (event.sent) client.up = event.sent;
    }
  }

  #join() {
    for (const client of this.clients) {
      if (client.joined || client.entries !== this.appended.length) continue;
      client.joined = true;
      this.events.push({ event: { ...client.log[0], do: "join" }, client: client.number });
    }
  }

  /* Where nothing else can come: the first event that threw over an operation that the server did not take. It ends the schedule. */
  #layThrow() {
    const threw = ({ joined, log, next, entries }) => joined && entries >= this.taken && log[next] && log[next].stopped !== undefined;
    const client = this.clients.find(threw);
    if (client) this.events.push({ event: client.log[client.next], client: client.number });
  }

  /*
   * What a client waits for. Nothing is said of what the server's log has, as that waits for the server's next take, but where
   * a method threw over it.
   */
  #wait(client) {
    const event = client.log[client.joined ? client.next : 0];
    if (!event) return null;
    const isTaken = client.entries + (client.joined ? 1 : 0) <= this.taken;
    if (isTaken && event.stopped === undefined) return null;
    const what = client.joined ? `${event.do} of operation ${this.first + client.entries}` : `joins at revision ${event.revision}`;
    const lack = isTaken ? "" : `, which the server did not ${client.joined ? "take" : "reach"}`;
    return `${nameOf(event)}: ${what}${lack}${thrown(event)}`;
  }

  /* What is said of a take whose message nobody has under way. */
  #unsent(take) {
    const acknowledger = this.#acknowledger(take);
    if (acknowledger) return `; ${acknowledger.name} acknowledges it, and had nothing under way`;
    const sent = this.clients.flatMap(({ log }) => log).find((event) => event.sent && isGiven(event.sent, take));
    if (sent) return `, which ${nameOf(sent)} sent, and which is not under way${thrown(take)}: did it come twice?`;
    return `, which no client of these logs sent${thrown(take)}: is a client's log missing, or cut?`;
  }

  /* What waits for something that did not come: the server first, since others may wait for what it took. */
  #waiting() {
    const waits = this.clients.map((client) => this.#wait(client)).filter((wait) => wait !== null);
    const take = this.server[this.nextTake];
    if (take) waits.unshift(`${nameOf(take)}: take of ${text(take.given)}${this.#unsent(take)}`);
    return waits.length ? waits.join("; ") : null;
  }

  run() {
    while (this.fault === null) {
      this.#join();
      const ready = this.#ready();
      if (this.fault !== null || ready.length === 0) break;
      this.#lay(ready.reduce((first, other) => (other.event.time < first.event.time ? other : first)));
    }
    if (this.fault === null) this.#layThrow();
    this.fault = this.fault || this.#waiting();
  }
}

/* { events, notes, fault }: the events as { event, client number }, as far as they go, and what they do not go on with. */
export function oneOrder(logs) {
  const order = new Order(logs);
  order.run();
  return order;
}
