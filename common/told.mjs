// The one reader of what `explain` prints of a run, of which the program has no data. Its lines begin at the margin, but for those of a paragraph behind its first:
//
//     the opening, a paragraph for each instruction, the end, the lines of the verdict, maybe a line that the schedule is cut

/**
 * The parts in lines. The last line of a paragraph says where the instruction led, or why it is refused.
 * @param {string} told what it printed; nothing of a text that is refused
 * @param {number} count how many instructions were performed, or refused
 * @param {boolean} isCut whether a comment says that the schedule is cut
 */
export function partsOf(told, count, isCut) {
  const parts = [];
  for (const line of told.split("\n").slice(0, -1)) {
    if (line.startsWith("  ")) parts.at(-1).push(line);
    else parts.push([line]);
  }
  return { opening: parts[0]?.[0], instructions: parts.slice(1, count + 1), verdict: parts.slice(count + 2, isCut ? -1 : undefined).flat() };
}

/** The refusal and its reason in the paragraph of a refused instruction. @param {string[]} paragraph */
export const reasonIn = (paragraph) => paragraph.at(-1).replace(/^ *refused: /, "");
