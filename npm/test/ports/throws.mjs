// A port that throws at a deletion, and whose error holds a function.

import { makePort } from "../../../oracle/otjs.js";

export const { TextOperation, Client, Server } = makePort();
const { apply } = TextOperation.prototype;
TextOperation.prototype.apply = function (text) {
  if (this.toJSON().some((component) => component < 0)) throw Object.assign(new RangeError("no deletions"), { again: () => {} });
  return apply.call(this, text);
};
