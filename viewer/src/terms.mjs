// Words of ot.js and of the theory that the page says plainly, each with one sentence behind it: at the pointer, at the focus, at a click.

import { element, setText } from "./dom.mjs";

/** What the plain words stand for. */
export const TERMS = {
  quiet: "In ot.js’ words the session is quiet: nothing is outstanding and nothing is under way. Then all documents are the same.",
  lists: "This is the weak list property: at no place of the session do two documents have two letters in different orders. It is judged of letters that were deleted since, too.",
};

/* The sentence stands right below its words, so that the pointer gets there, and within the window. */
function showAt(words) {
  const { left, bottom } = words.getBoundingClientRect();
  const box = element("explained");
  setText("explained", TERMS[words.dataset.term]);
  box.hidden = false;
  box.style.left = `${Math.max(4, Math.min(left, innerWidth - box.offsetWidth - 4))}px`;
  box.style.top = `${Math.min(bottom, innerHeight - box.offsetHeight - 4)}px`;
}

/** Shows the sentence of the words that are pointed at, focused or clicked on, as long as the pointer is on either; Escape hides it. Each words' description has it, too. */
export function watchTerms() {
  for (const [name, sentence] of Object.entries(TERMS)) setText(`term-${name}`, sentence);
  const hide = () => (element("explained").hidden = true);
  const termOf = ({ target }) => target.closest?.("[data-term]");
  for (const type of ["pointerover", "focusin", "click"])
    addEventListener(type, (event) => {
      const words = termOf(event);
      if (words) showAt(words);
      else if (type !== "focusin" && event.target !== element("explained") && !termOf({ target: document.activeElement })) hide();
    });
  addEventListener("focusout", hide);
  addEventListener("resize", hide);
  addEventListener("keydown", ({ key }) => key === "Escape" && hide(), true);
}
