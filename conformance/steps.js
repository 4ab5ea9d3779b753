#!/usr/bin/env node
/*
 * Prints the lines that `otbench steps` prints of the schedule on standard input, by ot.js itself: those beside the sessions of the corpus.
 *
 *     node conformance/steps.js < session.ots > session.jsonl
 */

import fs from "node:fs";
import { stepsOf } from "./lines.js";

process.stdout.write(stepsOf(fs.readFileSync(0, "utf8")));
