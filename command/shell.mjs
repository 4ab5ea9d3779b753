/* Words as a shell reads them. */

const PLAIN = /^[\w@%+=:,./-]+$/;

/* What a person would not see, or a terminal would obey: it is written by its number, as bash, zsh and ksh read it. */
const UNSEEN = /[\p{C}\p{Zl}\p{Zp}]/gu;

const byNumber = (character) => `\\U${character.codePointAt(0).toString(16).padStart(8, "0")}`;

/** A word, quoted where it has to be. @param {string} word */
export function quoted(word) {
  if (PLAIN.test(word)) return word;
  if (word.search(UNSEEN) < 0) return `'${word.replaceAll("'", "'\\''")}'`;
  return `$'${word.replace(/['\\]/g, "\\$&").replace(UNSEEN, byNumber)}'`;
}

/** A file's name as a word that is no option. @param {string} file */
export const fileWord = (file) => quoted(file.startsWith("-") ? `./${file}` : file);
