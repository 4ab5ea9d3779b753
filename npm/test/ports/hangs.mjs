// A port whose server never ends over an operation that deletes.

import { makePort } from "../../../oracle/otjs.js";

const port = makePort();
const { receiveOperation } = port.Server.prototype;
port.Server.prototype.receiveOperation = function (revision, operation) {
  while (operation.toJSON().some((component) => component < 0)) continue;
  return receiveOperation.call(this, revision, operation);
};

export const { TextOperation, Client, Server } = port;
