// ot.js, with its accessors.

import { makePort } from "../../../oracle/otjs.js";

export const { TextOperation, Client, Server } = makePort();
export const accessors = { buffer: (client) => client.state.buffer };
