/* What a hostile input may do to a page. */

/** In the page: what of an input has become more than text, and what the page has asked for; `window.stays` is set before. */
export const HARM = `(() => {
  const own = "A B BODY BR BUTTON CODE DD DETAILS DIALOG DIV DL DT EM FORM H1 H2 HEADER INPUT KBD LABEL MAIN MARK OPTION P PRE SCRIPT SECTION SELECT SPAN SUMMARY TABLE TBODY TD TEXTAREA TH THEAD TR circle g path rect svg text title".split(" ");
  const found = [...document.body.querySelectorAll("*")].filter(({ tagName }) => !own.includes(tagName)).map(({ tagName }) => tagName);
  const links = [...document.querySelectorAll("[href], [src], body [onerror], body [onload]")].map(({ tagName }) => tagName);
  const scripts = document.querySelectorAll("main script, header script, dialog script").length;
  const asked = performance.getEntriesByType("resource").map(({ name }) => name).filter((name) => !name.startsWith("blob:"));
  return [...found, ...links, ...asked, ...(scripts ? ["script"] : []), ...(window.hurt ? ["hurt"] : []), ...(window.stays ? [] : ["left"])];
})()`;
