// A session to and from a link.

import { brief, quoted } from "../../common/characters.mjs";
import { faultOf } from "./intake.mjs";
import { withName } from "../../common/outline.mjs";
import { addressOf, packed, readAddress, unpacked } from "./share.mjs";

/** The address, behind #, of the session and its place; a text that is no schedule has none, and the fault says so. */
export async function linkTo(bench) {
  const { text, port, place, title, outline } = bench.state;
  const { status, output, errors } = await bench.ask(["asm"], text);
  if (status) throw new Error(errors.trim());
  const lines = port && (await packed(new TextEncoder().encode(port.join("\n"))));
  return addressOf({ place, title, names: outline.names, image: await packed(output), port: lines, isSparse: bench.isSparse(port) });
}

/** Whether an address has a part that is a session's. */
const isOfSession = ({ image, port, isSparse, names, title }) => image !== null || port !== null || isSparse || names.size > 0 || title !== "";

/** Whether an address is a link: to a session, or to what is none. */
export function isLink(hash) {
  const address = readAddress(hash);
  return address.strange !== null || isOfSession(address);
}

/** Opens the session of an address; false where it names none. Of a link that cannot be read a fault says what is wrong with it. */
export async function openLink(bench, hash) {
  const address = readAddress(hash);
  const { image, port, isSparse, names, title, place, strange } = address;
  if (strange !== null) throw new Error(`it has ${quoted(brief(strange, 60))}, which is no part of a link`);
  if (image === null && isOfSession(address)) throw new Error("it has no image");
  if (image === null) return false;
  const bytes = await unpacked(image);
  const { status, output, errors } = await bench.ask(["dis"], bytes);
  if (status) throw new Error(`its image is none of a schedule: ${await faultOf(bench, "image", bytes, errors)}`);
  let text = new TextDecoder().decode(output);
  for (const [client, name] of [...names].reverse()) text = withName(text, client, name);
  const lines = port === null ? null : new TextDecoder().decode(await unpacked(port, "port")).split("\n");
  if (isSparse && lines) bench.takeAsSparse(lines);
  bench.dispatch({ do: "open", text, port: lines, title, place: place ?? 0 });
  return true;
}
