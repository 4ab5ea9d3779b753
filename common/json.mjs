/** A text of JSON as a value; null where it is none. @param {string} text */
export function valueIn(text) {
  try {
    return JSON.parse(text);
  } catch {
    return null;
  }
}
