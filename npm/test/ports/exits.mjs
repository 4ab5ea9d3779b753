// A port that ends its process at an acknowledgement.

import { makePort } from "../../../oracle/otjs.js";

export const { TextOperation, Client, Server } = makePort();
Client.prototype.serverAck = () => process.exit(3);
