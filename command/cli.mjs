#!/usr/bin/env node
/* The command of the package: over its engine, or the program of the system that OTBENCH names. */

import { realpathSync } from "node:fs";
import { main } from "./command.mjs";
import { engineBytes, release } from "./parts.mjs";
import { engineProgram, nativeProgram } from "./programs.mjs";

function isThisScript(path) {
  try {
    return realpathSync(path) === realpathSync(process.argv[1]);
  } catch {
    return false;
  }
}

function version() {
  const { version, commit, proved } = release();
  return `otbench ${version} (${commit === null ? "no release" : `commit ${commit}`}, ${proved ? "proved" : "not proved"})`;
}

let module = null;
const engine = () => (module ??= new WebAssembly.Module(engineBytes()));

const { OTBENCH } = process.env;
const isNamed = OTBENCH !== undefined && OTBENCH !== "" && !/\.[cm]?js$/.test(OTBENCH) && !isThisScript(OTBENCH);
const program = isNamed ? nativeProgram(OTBENCH, OTBENCH) : engineProgram(engine, version());
main(process.argv.slice(2), { program }).then((status) => {
  process.exitCode = status;
});
