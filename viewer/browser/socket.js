/*
 * A WebSocket to a browser on this machine, for texts. It is not node's own: that of node 20 masks every frame after the first 4,097 of a process with the
 * key 0, and Firefox closes the connection at such a frame.
 */

import crypto from "node:crypto";
import { EventEmitter, once } from "node:events";
import http from "node:http";

const [TEXT, CLOSE, PING, PONG] = [1, 8, 9, 10];

/* The length of a frame's body, as its head has it. */
function lengthOf(count) {
  const bytes = Buffer.alloc(count < 126 ? 1 : count < 0x10000 ? 3 : 9);
  if (count < 126) bytes[0] = count;
  else if (count < 0x10000) bytes.writeUInt16BE(count, bytes.writeUInt8(126));
  else bytes.writeBigUInt64BE(BigInt(count), bytes.writeUInt8(127));
  return bytes;
}

/* A frame of a client. */
function frameOf(opcode, body) {
  const key = crypto.randomBytes(4);
  const length = lengthOf(body.length);
  length[0] |= 0x80;
  return Buffer.concat([Buffer.of(0x80 | opcode), length, key, body.map((byte, i) => byte ^ key[i & 3])]);
}

/* The first of a server's frames, and where it ends; null where it is not there whole. */
function firstFrame(bytes) {
  if (bytes.length < 2) return null;
  const begin = { 126: 4, 127: 10 }[bytes[1]] ?? 2;
  if (bytes.length < begin) return null;
  const count = begin === 2 ? bytes[1] : begin === 4 ? bytes.readUInt16BE(2) : Number(bytes.readBigUInt64BE(2));
  const end = begin + count;
  if (bytes.length < end) return null;
  return { isLast: bytes[0] >= 0x80, opcode: bytes[0] & 0x0f, body: bytes.subarray(begin, end), end };
}

/* Emits `message` with a text, and `close`. */
class Socket extends EventEmitter {
  #stream;
  #bytes = Buffer.alloc(0);
  #parts = []; // of a message that is not there whole

  constructor(stream) {
    super();
    this.#stream = stream;
    stream.setNoDelay();
    stream.on("data", (bytes) => this.#receive(bytes));
    stream.on("error", () => {}); // it closes then
    stream.on("close", () => this.emit("close"));
  }

  get isOpen() {
    return !this.#stream.destroyed && this.#stream.writable;
  }

  send(text) {
    this.#stream.write(frameOf(TEXT, Buffer.from(text)));
  }

  #receive(bytes) {
    this.#bytes = Buffer.concat([this.#bytes, bytes]);
    for (let frame; (frame = firstFrame(this.#bytes)); this.#bytes = this.#bytes.subarray(frame.end)) this.#take(frame);
  }

  #take({ isLast, opcode, body }) {
    if (opcode === CLOSE) this.#stream.end();
    else if (opcode === PING) this.#stream.write(frameOf(PONG, body));
    else if (opcode !== PONG) {
      this.#parts.push(body);
      if (isLast) this.emit("message", Buffer.concat(this.#parts.splice(0)).toString());
    }
  }
}

/* The socket at an address, `ws://…`. */
export async function openSocket(address) {
  const { hostname, port, pathname } = new URL(address);
  const key = crypto.randomBytes(16).toString("base64");
  const headers = { Connection: "Upgrade", Upgrade: "websocket", "Sec-WebSocket-Version": "13", "Sec-WebSocket-Key": key };
  const request = http.get({ hostname, port, path: pathname, headers });
  request.on("response", ({ statusCode }) => request.destroy(new Error(`${address} answered ${statusCode}`)));
  const [, stream] = await once(request, "upgrade");
  return new Socket(stream);
}
