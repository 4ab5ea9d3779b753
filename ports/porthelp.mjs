/* The help of `otbench port`. */

/** What it prints. */
export const PORT_HELP = `usage: otbench port [options] [--] DRIVER ..

Tries a port of ot.js over the corpus, over all small sessions and over sessions made at random. DRIVER is a command, in any language: it reads a schedule on standard
input and prints a line of JSON for each instruction, as 'otbench steps' does. Of the first session that fails a reduced one is printed.

The driver:
      --utf16             it counts UTF-16 units, as ot.js does; without the word Unicode scalar values
      --keep-driver       one process is given several sessions, each ended by a line %%, and ends its lines for each by such a line
      --seconds S         how long it may take for a session (5); twice that for one of more than 8,192 characters, or if none has conformed yet;
                          always 3 times as long as the longest that conformed
      --most-bytes B      the most that it may print of one (16,777,216)
      --jobs J            how many sessions are tried at a time (one for each processor)
What is tried:
      --session FILE      this schedule, or those of a folder, and neither the corpus nor sessions at random; may be said again. A file may have
                          several, with lines %% between them
      --no-corpus         sessions made at random alone, and small ones where --every is given
      --every E           all small sessions of up to E edits, 0 to 3; without the word 374 sessions, with --keep-driver more if all take 5 seconds
      --sessions N        how many sessions are made at random (100)
      --seed S            the seed of the first; each further one has the next (1)
      --clients C, --present P, --instructions M, --start TEXT, --open    as for 'otbench generate'; seeds that end with 9 have more
What is said:
      --all               go on behind a failure; of each kind the shortest session is reduced
      --known FILE        kinds of failures that are tolerated, one a line, as --all names them
      --need KEYS         the status is 1 where one of these was not compared (document)
      --save-to FILE      where the first reduced schedule is written
      --reduce-seconds R  how long a failing session is reduced; without the word until 8 seconds behind the start, and 3 at least
      --tap               as --all, in the Test Anything Protocol
      --junit FILE        as --all, and JUnit's XML is written there
      --lines FILE        nothing is tried: print what the driver prints over this schedule, its lengths in scalars
  -h, --help              print this

Status 0: every session conforms, and documents of each client and the server were compared. 1: one does not, or they were not. 2: it cannot be tried.
`;

/** The options that it lists. */
export const PORT_OPTIONS = [...new Set(PORT_HELP.match(/(?<= )--[a-z][a-z0-9-]+/g))];
