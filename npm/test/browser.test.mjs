// The package in a browser: a page imports it, and runs a schedule from a file. Nothing comes from another machine.

import assert from "node:assert/strict";
import { spawn, spawnSync } from "node:child_process";
import { once } from "node:events";
import fs from "node:fs";
import http from "node:http";
import path from "node:path";
import { test } from "node:test";
import { setTimeout } from "node:timers/promises";
import { check, run } from "../otbench.mjs";
import { example, temporaryFolder, TOP } from "./files.mjs";

const TEXT = example("weak-order.ots");
const SECONDS = 90;
const TYPES = { ".html": "text/html", ".mjs": "text/javascript", ".wasm": "application/wasm" };

/* The page's end: it tells the test what came of it, once the module before it is there. */
const TOLD = `<script type="module">
  while (!window.tried) await new Promise((done) => setTimeout(done, 20));
  const told = await tried(${JSON.stringify(TEXT)}).catch(String);
  await fetch("/told", { method: "POST", body: JSON.stringify(told) });
</script>`;

/* Serves the repository to this machine, and the page with its end; `told` is what it tells. */
async function serving() {
  let tell;
  const told = new Promise((resolve) => (tell = resolve));
  const server = http.createServer(async (request, response) => {
    const { pathname } = new URL(request.url, "http://localhost");
    const file = path.join(TOP, pathname);
    if (request.method === "POST") {
      response.end();
      tell(JSON.parse((await request.toArray()).join("")));
    } else if (!fs.existsSync(file)) response.writeHead(404).end();
    else {
      response.setHeader("content-type", TYPES[path.extname(file)] ?? "text/plain");
      response.end(Buffer.concat([fs.readFileSync(file), Buffer.from(file.endsWith(".html") ? TOLD : "")]));
    }
  });
  await new Promise((resolve) => server.listen(0, "127.0.0.1", resolve));
  return { server, told, page: `http://127.0.0.1:${server.address().port}/npm/test/page.html` };
}

const BROWSERS = {
  chromium: (folder) => ["--headless", "--no-sandbox", "--disable-gpu", "--no-first-run", `--user-data-dir=${folder}`],
  firefox: (folder) => ["--headless", "--no-remote", "--profile", folder],
};

for (const [browser, wordsFor] of Object.entries(BROWSERS)) {
  const isThere = spawnSync(browser, ["--version"]).status === 0;
  test(`a page in ${browser}`, { skip: !isThere && `no ${browser}` }, async () => {
    const { server, told, page } = await serving();
    const child = spawn(browser, [...wordsFor(temporaryFolder()), page], { stdio: "ignore", detached: true });
    try {
      const { clients, server: end } = run(TEXT);
      const late = setTimeout(SECONDS * 1000, "the page told nothing", { ref: false });
      const { shown, check: verdict, isRefused } = await Promise.race([told, late]);
      assert.deepEqual([shown.clients, shown.server], [clients, end]);
      assert.deepEqual(verdict, check(TEXT));
      assert.equal(isRefused, true);
    } finally {
      process.kill(-child.pid, "SIGKILL");
      await once(child, "close");
      server.closeAllConnections();
      server.close();
    }
  });
}
