/* The command of npm/ over a program of this repository: node scripts/command.mjs PROGRAM ABOUT NAME WORD.. */

import { main } from "../command/command.mjs";
import { nativeProgram } from "../command/programs.mjs";

const MORE = `
In the repository:
  ./otbench --proved [--jobs N]   proves all and builds the proved program
  ./otbench --which               prints the path of the program that runs, and builds it where it is not there
`;

const [program, about, name, ...words] = process.argv.slice(2);
process.exitCode = await main(words, { program: nativeProgram(program, about), name, more: MORE });
