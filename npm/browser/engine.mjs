/* The engine in a browser, fetched from beside the package. */

const FILE = new URL("../../engine/out/otbench.wasm", import.meta.url);

/* A server need not know the type of a .wasm file. */
export async function engine() {
  const answer = await fetch(FILE);
  if (!answer.ok) throw new Error(`the engine is not at ${FILE}: ${answer.status}`);
  return WebAssembly.compile(await answer.arrayBuffer());
}
