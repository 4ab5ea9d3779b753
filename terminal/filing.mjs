// The files of the debugger's commands, under node.

import { writeFileSync } from "node:fs";
import { dirname } from "node:path";
import { readFile, reasonOf, Unreadable } from "../command/files.mjs";
import { Complaint } from "./commands.mjs";

function read(file) {
  try {
    return readFile(file, ["commands"]).toString();
  } catch (fault) {
    throw fault instanceof Unreadable ? new Complaint(fault.message) : fault;
  }
}

/** @type {import("./debugger.mjs").Files} */
export const files = {
  read,
  write: (file, text) => {
    try {
      writeFileSync(file, text, { flag: "wx" });
    } catch (fault) {
      if (fault.code === "ENOENT") throw new Complaint(`${file}: there is no folder ${dirname(file)}`);
      throw fault.code ? new Complaint(reasonOf(file, fault)) : fault;
    }
  },
};
