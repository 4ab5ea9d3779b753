/*
 * A live session on one page: two CodeMirror editors and a textarea that joins late, on one ot.js server. Messages take a
 * while; links keep their order. A fault in the address is planted: #adapter, where an editor deletes one character too
 * many, and #careless, where an edit is what two texts have not in common, unit by unit.
 */

import { makePort } from "../../oracle/otjs.js";

const { CodeMirror, recorder } = window;
const port = makePort();
const lines = [];
const write = (line) => lines.push(line);
const wait = (milliseconds) => new Promise((done) => setTimeout(done, milliseconds));
const server = new port.Server("Hello 😀 world");
recorder.recordServer(server, { write });
const clients = [];
let underWay = 0;

/* Numbers below n, the same on each run. */
let seed = 80750;
function random(n) {
  seed ^= seed << 13;
  seed >>>= 0;
  seed ^= seed >>> 17;
  seed ^= seed << 5;
  seed >>>= 0;
  return seed % n;
}

/* The operation from one text to another: what stands between their common front and their common end. */
function between(before, after) {
  let front = 0;
  let end = 0;
  while (front < before.length && front < after.length && before[front] === after[front]) front++;
  const rest = Math.min(before.length, after.length) - front;
  while (end < rest && before.at(-1 - end) === after.at(-1 - end)) end++;
  if (location.hash !== "#careless") {
    if (/[\ud800-\udbff]/.test(before[front - 1])) front--;
    if (end > 0 && /[\udc00-\udfff]/.test(before.at(-end))) end--;
  }
  const inserted = after.slice(front, after.length - end);
  return new port.TextOperation().retain(front).insert(inserted).delete(before.length - front - end).retain(end);
}

/* A client around an editor: { get(), set(text, operation), watch(changed) }. */
function join(who, editor, delay) {
  const member = { who, editor, text: server.document, isApplying: false, links: { up: Promise.resolve(), down: Promise.resolve() } };
  const client = new port.Client(server.operations.length);
  const send = (link, work) => {
    underWay++;
    member.links[link] = member.links[link].then(() => wait(delay())).then(work).finally(() => underWay--);
  };
  client.sendOperation = (revision, operation) =>
    send("up", () => {
      const appended = server.receiveOperation(revision, operation);
      for (const other of clients) other.receive(other === member ? null : appended);
      document.getElementById("server").textContent = server.document;
    });
  member.receive = (operation) => send("down", () => (operation ? client.applyServer(operation) : client.serverAck()));
  client.applyOperation = (operation) => {
    member.isApplying = true;
    member.text = operation.apply(member.text);
    editor.set(member.text, operation);
    member.isApplying = false;
  };
  editor.set(member.text);
  editor.watch(() => {
    if (member.isApplying || editor.get() === member.text) return;
    const edit = between(member.text, editor.get());
    member.text = editor.get();
    client.applyClient(edit);
  });
  recorder.recordClient(client, { who, document: () => editor.get(), write });
  clients.push(member);
}

/* Operations of others go in piece by piece, as ot.js' CodeMirrorAdapter does it. */
function codeMirror(id) {
  const mirror = CodeMirror(document.getElementById(id), { lineWrapping: true });
  const tooMany = location.hash === "#adapter" ? 1 : 0;
  const put = (operation) => {
    let place = 0;
    for (const component of operation.ops) {
      if (typeof component === "string") {
        mirror.replaceRange(component, mirror.posFromIndex(place));
        place += component.length;
      } else if (component > 0) place += component;
      else mirror.replaceRange("", mirror.posFromIndex(place), mirror.posFromIndex(place - component + tooMany));
    }
  };
  return {
    mirror,
    get: () => mirror.getValue(),
    set: (text, operation) => (operation ? mirror.operation(() => put(operation)) : mirror.setValue(text)),
    watch: (changed) => mirror.on("changes", changed),
  };
}

function textArea(id) {
  const area = document.getElementById(id);
  return {
    area,
    get: () => area.value,
    set: (text) => (area.value = text),
    watch: (changed) => area.addEventListener("input", changed),
  };
}

const ann = codeMirror("ann");
const ben = codeMirror("ben");
const cleo = textArea("cleo");
join("ann", ann, () => 20 + random(60));
join("ben", ben, () => 40 + random(120));

/* Inserts a word at a random place, or deletes some characters there; whole ones. */
function type({ mirror }) {
  const text = mirror.getValue();
  const whole = (place) => (/[\udc00-\udfff]/.test(text[place]) ? place + 1 : place);
  const from = whole(random(text.length + 1));
  const to = whole(Math.min(text.length, from + 1 + random(3)));
  const word = ["ab", "c\n", "😀", "é", "xyz"][random(5)];
  if (random(3)) mirror.replaceRange(word, mirror.posFromIndex(from));
  else mirror.replaceRange("", mirror.posFromIndex(from), mirror.posFromIndex(to));
}

/* The session; the test calls it. */
async function runSession() {
  for (let turn = 0; turn < 60; turn++) {
    type(turn % 3 ? ann : ben);
    await wait(random(30));
    if (turn === 20) join("cleo", cleo, () => 15 + random(40));
    if (turn <= 20 || turn % 4) continue;
    cleo.area.value = `cleo ${turn} ${cleo.area.value}`;
    cleo.area.dispatchEvent(new Event("input"));
  }
}

/* The documents that the editors and the server show when nothing is under way. */
async function settled() {
  while (underWay) await wait(10);
  return [...clients.map(({ editor }) => editor.get()), server.document];
}

/* What the test uses. */
Object.assign(window, { lines, ann, ben, cleo, runSession, settled });
