// Texts in which each character is seen.

/* Characters that are not seen, or that move others: controls, line and paragraph separators, format characters but the joiner, those that
   are none, and halves of surrogate pairs. */
const UNSEEN = /(?!\u200d)[\p{Cc}\p{Cf}\p{Zl}\p{Zp}\p{Cs}\p{Noncharacter_Code_Point}]/gu;
const UNSEEN_ONE = new RegExp(UNSEEN.source, "u");

export const isUnseen = (character) => UNSEEN_ONE.test(character);

/* The code units of a character, as JSON writes them. */
const coded16 = (character) => [...Array(character.length).keys()].map((i) => `\\u${character.charCodeAt(i).toString(16).padStart(4, "0")}`).join("");

/** A text, or another value, as JSON in which each character is seen. */
export const quoted = (value) => JSON.stringify(value).replace(UNSEEN, coded16);

/** The first character that is not seen in a line of a text, as { column, code }, the column from 1 and `code` as U+202E; null where all are seen. Tabs, and a CR at the end, are no more than blanks. */
export function unseenIn(line) {
  const found = line.replace(/\r$/, "").replace(/\t/g, " ").search(UNSEEN);
  if (found < 0) return null;
  return { column: [...line.slice(0, found)].length + 1, code: `U+${line.codePointAt(found).toString(16).toUpperCase().padStart(4, "0")}` };
}

/** A text of several lines in which such characters are written as \u202e. */
export const withEscapes = (text) =>
  text.replace(UNSEEN, (character, at) => (/^(\t|\n|\r$|\r\n)/.test(text.slice(at, at + 2)) ? character : coded16(character)));

/* A text with a sign for each character that is not seen, but line breaks, and of the same length. */
export const seen = (text) =>
  text.replace(UNSEEN, (character) => {
    const code = character.codePointAt(0);
    if (code === 10 || code > 0xffff) return character;
    return code < 32 ? String.fromCharCode(0x2400 + code) : code === 127 ? "\u2421" : "\u2426";
  });

/** At most n characters of a text. */
export function brief(text, n) {
  const characters = [...text];
  return characters.length > n ? characters.slice(0, n - 1).join("") + "…" : text;
}
