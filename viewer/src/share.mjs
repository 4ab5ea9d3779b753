// A session in an address, behind its #: the compressed image, the clients' names, a port's compressed lines, the place and the theme.

const toBase64 = (bytes) => {
  let text = "";
  for (const byte of bytes) text += String.fromCharCode(byte);
  return btoa(text).replaceAll("+", "-").replaceAll("/", "_").replace(/=+$/, "");
};

function fromBase64(text, what) {
  const [strange] = /[^A-Za-z0-9_-]/u.exec(text) ?? [];
  if (strange !== undefined) throw new Error(`its ${what} has the character ${JSON.stringify(strange)}`);
  if (text === "" || text.length % 4 === 1) throw new Error(`its ${what} is cut`);
  return Uint8Array.from(atob(text.replaceAll("-", "+").replaceAll("_", "/")), (character) => character.charCodeAt(0));
}

/** The longest image, and the longest lines, that a link may hold, in bytes: a schedule of 100,000 instructions has some 2 MB. */
const MOST = 1 << 28;

const through = (bytes, stream) => new Blob([bytes]).stream().pipeThrough(stream);

/** @param {Uint8Array} bytes @returns {Promise<string>} */
export async function packed(bytes) {
  return toBase64(new Uint8Array(await new Response(through(bytes, new CompressionStream("deflate-raw"))).arrayBuffer()));
}

/** The bytes of a part of a link, its image or port; one that is none, or too long, is refused. @returns {Promise<Uint8Array>} */
export async function unpacked(text, what = "image") {
  const parts = [];
  let length = 0;
  const reader = through(fromBase64(text, what), new DecompressionStream("deflate-raw")).getReader();
  const next = () => reader.read().catch(() => Promise.reject(new Error(`its ${what} is cut or damaged`)));
  for (let part = await next(); !part.done; part = await next()) {
    length += part.value.length;
    if (length > MOST) throw new Error(`its ${what} is too long`);
    parts.push(part.value);
  }
  return new Uint8Array(await new Blob(parts).arrayBuffer());
}

/** @typedef {{ place: number | null, theme: string | null, image: string | null, port: string | null, isSparse: boolean, title: string, names: Map<number, string>, strange: string | null }} Address */

const decoded = (value) => {
  try {
    return decodeURIComponent(value);
  } catch {
    return value;
  }
};

/** What stands behind the # of an address, as `#at=7;theme=dark`; `strange` is the first part that is none of a link. @returns {Address} */
export function readAddress(hash) {
  const address = { place: null, theme: null, image: null, port: null, isSparse: false, title: "", names: new Map(), strange: null };
  for (const part of hash.replace(/^#/, "").split(/[;&]/)) {
    const [, key, value] = /^([a-z0-9]+)=(.*)$/s.exec(part) || [];
    if (key === "at" && /^\d{1,9}$/.test(value)) address.place = Number(value);
    else if (key === "theme" && /^(dark|light)$/.test(value)) address.theme = value;
    else if (key === "image") address.image = value;
    else if (key === "port") address.port = value;
    else if (key === "sparse" && value === "1") address.isSparse = true;
    else if (key === "title") address.title = decoded(value);
    else if (/^c\d{1,2}$/.test(key || "")) address.names.set(Number(key.slice(1)), decoded(value));
    else if (part !== "") address.strange ??= decoded(part);
  }
  return address;
}

/** @param {Partial<Address>} address */
export function addressOf({ place, image, port, isSparse = false, title, names = new Map() }) {
  const parts = [`at=${place}`];
  if (title) parts.push(`title=${encodeURIComponent(title)}`);
  for (const [client, name] of names) parts.push(`c${client}=${encodeURIComponent(name)}`);
  if (image) parts.push(`image=${image}`);
  if (port) parts.push(`port=${port}`);
  if (isSparse) parts.push("sparse=1");
  return `#${parts.join(";")}`;
}
