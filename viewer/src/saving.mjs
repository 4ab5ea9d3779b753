// The session as a file: its text, with a port's lines behind it, its image or lines, or the diagram.

import { picture } from "./diagram.mjs";
import { download } from "./dom.mjs";
import { rowCount } from "./layout.mjs";
import { themeNow } from "./screen.mjs";

/** How many rows a picture has at most, and how many points of a screen's the longer side of one of points has. */
const ROWS = 2000;
const POINTS = 8000;

/* The rows around the place as SVG, all of them where they are not too many. */
function drawn(view, rows) {
  const last = rowCount(view.session) - 1;
  const isWhole = last <= rows;
  const from = isWhole ? 0 : Math.max(0, view.place - (rows >> 1));
  const to = isWhole ? last : Math.min(last, view.place + (rows >> 1));
  return picture(view.session, { ...view, from, to }, themeNow());
}

export const savePicture = (view) => download(drawn(view, ROWS), "session.svg", "image/svg+xml");

/** Saves the diagram as PNG, each of its points as two by two where there is room. */
export async function savePoints(view) {
  const url = URL.createObjectURL(new Blob([drawn(view, 300)], { type: "image/svg+xml" }));
  try {
    const image = new Image();
    image.src = url;
    await image.decode();
    const scale = Math.min(2, POINTS / Math.max(image.width, image.height));
    const canvas = document.createElement("canvas");
    [canvas.width, canvas.height] = [image.width * scale, image.height * scale];
    canvas.getContext("2d").drawImage(image, 0, 0, canvas.width, canvas.height);
    const points = await new Promise((done) => canvas.toBlob(done, "image/png"));
    if (!points) throw new Error("the browser makes none of this size");
    download(points, "session.png", "image/png");
  } finally {
    URL.revokeObjectURL(url);
  }
}

async function saveAnswer(bench, word, name, type) {
  const { output, errors } = await bench.ask([word], bench.state.text);
  if (output.length) download(output, name, type);
  else bench.dispatch({ do: "notice", notice: `Not saved: ${errors.trim()}.` });
}

/* The text; a port's lines stand behind a line %%. */
const textOf = ({ text, port }) => (port ? `${text.replace(/\n*$/, "\n")}%%\n${port.join("\n")}\n` : text);

/** Saves the session as "text", "image" or "lines". */
export function saveSession(bench, what) {
  if (what === "text") return download(textOf(bench.state), "session.ots", "text/plain");
  if (what === "image") return saveAnswer(bench, "asm", "session.img", "application/octet-stream");
  return saveAnswer(bench, "steps", "session.jsonl", "application/jsonl");
}
