#!/usr/bin/env node
/*
 * Prints which sessions of the corpus find which faults, as `conformance/COVERAGE.md` has it:
 *
 *     node conformance/coverage.js > conformance/COVERAGE.md        (a minute)
 */

import { coverage, page, smallFinder } from "./finders.js";
import { listing } from "./program.js";

if (process.argv.length > 2) {
  console.error("usage: node conformance/coverage.js, which takes no words");
  process.exit(2);
}

process.stdout.write(page(coverage(smallFinder(listing()))));
