/* Reads the recorder's lines, and sorts them into the logs of the participants. It runs in a page too. */

import { AT, faultOf, nameOf, placeOf } from "./events.js";

/* The events in a file's text, each with its place. */
export function readEvents(text, file) {
  const events = [];
  text.split("\n").forEach((line, i) => {
    const here = `${file}, line ${i + 1}`;
    if (line.startsWith("\ufeff")) throw new Error(`${here} begins with a byte order mark: write the log without it`);
    if (line.trim() === "") return;
    let event;
    try {
      event = JSON.parse(line);
    } catch {
      throw new Error(`${here} is no JSON: is the log cut?`);
    }
    if (typeof event !== "object" || event === null || Array.isArray(event)) throw new Error(`${here} is no event`);
    const fault = faultOf(event);
    if (fault !== null) throw new Error(`${here}: ${fault}`);
    event[AT] = { file, line: i + 1 };
    events.push(event);
  });
  return events;
}

const same = (one, other) => JSON.stringify(one) === JSON.stringify(other);

/* That two events of a log have one number, and why that may be: a log that was given twice, or two participants of one name. */
function doubled(first, second, log) {
  const name = `${first.who}, event ${first.n}`;
  if (!first[AT]) return `${name} is there twice: have two participants one name?`;
  const files = [first[AT].file, second[AT].file];
  if (files[0] === files[1] && same(first, second)) return `${name} is ${placeOf(first)} and ${placeOf(second)}: is the line there twice?`;
  const [longer, shorter] = files.map((file) => log.filter((event) => event[AT].file === file)).sort((a, b) => b.length - a.length);
  const isCopy = files[0] !== files[1] && shorter.every((event, i) => same(event, longer[i]));
  if (!isCopy) return `${name} is ${placeOf(first)} and ${placeOf(second)}: have two participants one name?`;
  return `${shorter[0][AT].file} has the events of ${first.who} that ${longer[0][AT].file} has: leave it out`;
}

/* One participant's events, in order and with no hole. */
function checkLog(who, log) {
  log.sort((a, b) => a.n - b.n);
  log.forEach((event, n) => {
    if (event.n < n) throw new Error(doubled(log[n - 1], event, log));
    if (event.n > n) throw new Error(`the log of ${who} has no event ${n}${event[AT] ? `: ${placeOf(event)} is event ${event.n}` : ""}`);
    if ((event.do === "open") !== (n === 0)) throw new Error(`${nameOf(event)}: a log has one opening, at its beginning`);
    if (n > 0 && (event.do === "take") !== (log[0].role === "server"))
      throw new Error(`${nameOf(event)}: ${event.do} is no event of a ${log[0].role}`);
  });
}

/*
 * { server, clients }: the server's log, and the clients' in the order in which they joined. The clients whose revision at
 * the opening is the server's are there from the beginning.
 */
export function readLogs(events) {
  const logs = new Map();
  for (const event of events) {
    if (!logs.has(event.who)) logs.set(event.who, []);
    logs.get(event.who).push(event);
  }
  logs.forEach((log, who) => checkLog(who, log));
  const all = [...logs.values()];
  const servers = all.filter((log) => log[0].role === "server");
  if (servers.length === 0) throw new Error("no log is a server's");
  if (servers.length > 1) throw new Error(`${servers.map((log) => nameOf(log[0])).join(" and ")}: one session has one server`);
  const [server] = servers;
  const clients = all.filter((log) => log[0].role !== "server").sort((a, b) => a[0].revision - b[0].revision);
  if (clients.length === 0) throw new Error("no log is a client's");
  for (const [opening] of clients) checkOpening(opening, server[0]);
  return { server, clients };
}

function checkOpening(opening, server) {
  if (opening.revision < server.revision)
    throw new Error(`${nameOf(opening)} is at revision ${opening.revision}, before the server's log begins (${server.revision})`);
  if (opening.outstanding) throw new Error(`${nameOf(opening)}: an operation is outstanding already`);
}
