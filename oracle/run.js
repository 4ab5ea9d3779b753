#!/usr/bin/env node
/*
 * Runs schedules on the re-creation of ot.js: reads a (valid) assembly schedule on standard input and
 * prints what `run` prints; status 1 after a stop.  `present P` and `join C`
 * are understood.  `--quiet` leaves out the lists (for timing), `--time`
 * prints the milliseconds of the steps alone on standard error.  Lengths count Unicode scalar values.
 */
import fs from 'node:fs';
import { Interner } from './interner.js';
import { makePort } from './otjs.js';

const { TextOperation, Client, Server } = makePort();

/* A JSON string as serde_json writes it; JSON.stringify differs nowhere on
   texts without lone surrogates. */
function quote(s) { return JSON.stringify(s); }

function BenchClient(number, revision, document, bench) {
  Client.call(this, revision);
  this.number = number;
  this.document = document;
  this.inserted = 0;
  this.uplink = null;
  this.downlink = [];
  this.head = 0;
  this.bench = bench;
}
BenchClient.prototype = Object.create(Client.prototype);
BenchClient.prototype.sendOperation = function (revision, operation) {
  if (this.uplink) { throw new Error('uplink is full'); }
  this.uplink = { revision: revision, operation: operation };
};
BenchClient.prototype.applyOperation = function (operation) {
  this.document = operation.apply(this.document);
};

var ACK = { ack: true };

function Bench(clients, present, start) {
  this.server = new Server(start);
  this.clients = [];
  for (var c = 0; c < clients; c++) {
    this.clients.push(c < present ? new BenchClient(c, 0, start, this) : null);
  }
}

/* Performs an instruction; gives null, a refusal's name or { shown: text }. */
Bench.prototype.step = function (ins) {
  var word = ins[0];
  if (word === 'read-server') { return { shown: this.server.document }; }
  var client = this.clients[ins[1]];
  if (word === 'join') {
    if (client) { return 'AlreadyJoined'; }
    this.clients[ins[1]] = new BenchClient(ins[1], this.server.operations.length,
      this.server.document, this);
    return null;
  }
  if (!client) { return 'NotJoined'; }
  var op, i, l;
  if (word === 'edit') {
    op = ins[2];
    if (op.baseLength !== client.document.length) { return 'BadBase'; }
    var n = 0;
    for (i = 0, l = op.ops.length; i < l; i++) {
      if (typeof op.ops[i] === 'string') { n += op.ops[i].length; }
    }
    if (client.inserted + n > 15000) { return 'ClientFull'; }
    client.inserted += n;
    client.document = op.apply(client.document);
    client.applyClient(op);
    return null;
  }
  if (word === 'take') {
    var m = client.uplink;
    if (!m) { return 'LinkEmpty'; }
    client.uplink = null;
    op = this.server.receiveOperation(m.revision, m.operation);
    for (i = 0, l = this.clients.length; i < l; i++) {
      if (this.clients[i]) { this.clients[i].downlink.push(i === client.number ? ACK : op); }
    }
    return null;
  }
  if (word === 'read') { return { shown: client.document }; }
  // deliver, ack
  if (client.head === client.downlink.length) { return 'LinkEmpty'; }
  op = client.downlink[client.head];
  if ((op === ACK) !== (word === 'ack')) { return 'WrongHead'; }
  client.downlink[client.head++] = undefined;
  if (word === 'ack') { client.serverAck(); } else { client.applyServer(op); }
  return null;
};

Bench.prototype.quiet = function () {
  return this.clients.every(function (c) {
    return !c || (!c.state.outstanding && !c.uplink && c.head === c.downlink.length);
  });
};

/* Reads a valid assembly text. */
function readSchedule(text, interner) {
  var s = { clients: 0, present: -1, start: '', instrs: [] };
  var lines = text.split('\n');
  for (var i = 0; i < lines.length; i++) {
    var line = lines[i].replace(/\r$/, '').replace(/^[ \t]+|[ \t]+$/g, '');
    if (line === '' || line[0] === ';') { continue; }
    var m = /^([^ \t]+)[ \t]*([^]*)$/.exec(line);
    var word = m[1], rest = m[2];
    if (word === 'clients') {
      s.clients = parseInt(rest, 10);
    } else if (word === 'present') {
      s.present = parseInt(rest, 10);
    } else if (word === 'start') {
      s.start = interner.inward(JSON.parse(rest));
    } else if (word === 'edit') {
      m = /^([0-9]+)[ \t]+([^]*)$/.exec(rest);
      var ops = JSON.parse(m[2]).map(function (x) {
        return typeof x === 'string' ? interner.inward(x) : x;
      });
      s.instrs.push(['edit', parseInt(m[1], 10), TextOperation.fromJSON(ops)]);
    } else if (word === 'read-server') {
      s.instrs.push([word]);
    } else if (/^(take|deliver|ack|read|join)$/.test(word)) {
      s.instrs.push([word, parseInt(rest, 10)]);
    } else {
      throw new Error('line ' + (i + 1) + ': ' + word);
    }
  }
  if (s.present < 0) { s.present = s.clients; }
  return s;
}

/* Gives { out: text, status: number, ms: time of the steps } */
function runText(text, quiet) {
  var interner = new Interner();
  var s = readSchedule(text, interner);
  var bench = new Bench(s.clients, s.present, s.start);
  var out = [];
  var status = 0;
  function show(t) { return quiet ? '' : quote(interner.outward(t)); }
  var t0 = process.hrtime.bigint();
  for (var i = 0; i < s.instrs.length; i++) {
    var r = bench.step(s.instrs[i]);
    if (typeof r === 'string') {
      out.push('stopped at ' + i + ': ' + r);
      status = 1;
      break;
    }
    if (r) {
      out.push((s.instrs[i][0] === 'read' ? 'read ' + s.instrs[i][1] : 'read-server') +
        ' ' + show(r.shown));
    }
  }
  var ms = Number(process.hrtime.bigint() - t0) / 1e6;
  bench.clients.forEach(function (c, k) {
    out.push(c ? 'client ' + k + ' rev ' + c.revision + ' ' + c.state.text + ' ' + show(c.document)
      : 'client ' + k + ' rev 0 not-joined ""');
  });
  out.push('server rev ' + bench.server.operations.length + ' ' + show(bench.server.document));
  out.push(bench.quiet() ? 'quiet' : 'not quiet');
  return { out: out.join('\n') + '\n', status: status, ms: ms };
}

var args = process.argv.slice(2);
var input = fs.readFileSync(0);
if (args.indexOf('--batch') >= 0) {
  // schedules separated by a byte 0; results likewise, each "status LF out"
  var texts = input.toString('utf8').split('\0');
  process.stdout.write(texts.map(function (t) {
    var r = runText(t, false);
    return r.status + '\n' + r.out;
  }).join('\0'));
} else {
  var r = runText(input.toString('utf8'), args.indexOf('--quiet') >= 0);
  if (args.indexOf('--time') >= 0) { process.stderr.write('steps ' + r.ms.toFixed(1) + ' ms\n'); }
  process.stdout.write(r.out);
  process.exitCode = r.status;
}
