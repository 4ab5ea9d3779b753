// The examples' files, and inputs that are damaged.

import fs from "node:fs";
import { MARKUP } from "./hostile.mjs";

const folder = new URL("../../examples/", import.meta.url);

/** The examples' files: [name, bytes]. */
export const files = fs.readdirSync(folder).filter((name) => /\.(ots|img|json)$/.test(name)).map((name) => [name, fs.readFileSync(new URL(name, folder))]);

/**
 * Bytes with some of them changed, left out, doubled, or with a part of a text among them.
 * @param {Uint8Array} bytes @param {(below: number) => number} random
 */
export function damaged(bytes, random, texts = [MARKUP]) {
  const out = [...bytes];
  for (let k = 1 + random(4); k > 0; k--) {
    const at = random(out.length + 1);
    const text = texts[random(texts.length)];
    const changes = [
      () => (out[at] = random(256)),
      () => out.splice(at, 1 + random(20)),
      () => out.splice(at, 0, ...out.slice(at, at + random(40))),
      () => out.splice(at, 0, ...Buffer.from(text.slice(0, random(text.length)))),
    ];
    changes[random(changes.length)]();
  }
  return Uint8Array.from(out);
}
