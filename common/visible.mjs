// What a terminal would obey, or reorder a line by, written by its number: control characters, and those of Unicode's bidirectional text.

const UNSEEN = /[\p{Cc}\p{Bidi_Control}\u2028\u2029]/gu;
const KEPT = new Set(["\n", "\t"]);

const byNumber = (character) => `\\u${character.charCodeAt(0).toString(16).padStart(4, "0")}`;

/** A text as a terminal may have it; line ends and tabs stay. In a JSON string the escape is the same character. @param {string} text */
export const visible = (text) => text.replace(UNSEEN, (character) => (KEPT.has(character) ? character : byNumber(character)));

/**
 * A text as an output may have it: visible where that is a terminal, else as it is.
 * @param {{ isTTY?: boolean }} output @param {string} text
 */
export const shownOn = (output, text) => (output.isTTY ? visible(text) : text);
