// The engine in a page that is opened from a file, in Chromium and in Firefox, without network: node --experimental-websocket --test
import assert from "node:assert/strict";
import fs from "node:fs";
import os from "node:os";
import path from "node:path";
import { test } from "node:test";
import { pathToFileURL } from "node:url";

import { serve } from "../host.mjs";
import { BROWSERS, textsOf } from "./browser.mjs";
import { ENGINE, example } from "./engine.mjs";
import { pageOf } from "./page.mjs";

const schedule = example("weak-order.ots");

for (const name of Object.keys(BROWSERS))
    test(`${name}: a page runs a schedule, and so does its worker`, async (t) => {
        const folder = fs.mkdtempSync(path.join(os.tmpdir(), "otbench-page-"));
        t.after(() => fs.rmSync(folder, { recursive: true }));
        const file = path.join(folder, "page.html");
        fs.writeFileSync(file, pageOf(fs.readFileSync(ENGINE), `${schedule}`));
        const { output } = serve(new WebAssembly.Module(fs.readFileSync(ENGINE)), ["run"], schedule);
        const wanted = `status 0\n${Buffer.from(output)}`;
        const { version, texts } = await textsOf(name, pathToFileURL(file).href, ["here", "there"]);
        t.diagnostic(version);
        assert.deepEqual(texts, [wanted, wanted]);
    });
