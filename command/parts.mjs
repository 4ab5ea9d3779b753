/* What the command takes from beside it. In the command of one file a module that holds all of it stands in its place. */

import { existsSync, readFileSync } from "node:fs";

export { engineBytes } from "../npm/engine.mjs";
export { release } from "../npm/version.mjs";

const ENGINE = new URL("../engine/out/otbench.wasm", import.meta.url);
const RELEASE = new URL("../dist/otbench.mjs", import.meta.url);
const PAGE = new URL("../viewer/page.html", import.meta.url);

/** The engine: that which is built, else the release's; null where there is none. */
export async function engineIfThere() {
  if (existsSync(ENGINE)) return readFileSync(ENGINE);
  if (!existsSync(RELEASE)) return null;
  const { engineIn } = await import("../npm/release/bundle.mjs");
  return engineIn(readFileSync(RELEASE, "utf8"));
}

/** The page without a session in it, as text: the package's, else it is made of its parts. */
export async function viewer() {
  if (existsSync(PAGE)) return readFileSync(PAGE, "utf8");
  const { viewerPage } = await import("../npm/release/stage.mjs");
  return viewerPage();
}
