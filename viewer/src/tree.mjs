// What the page shows, as trees of plain data: elements and texts. The page builds its nodes from them, and a picture is written from
// them. No text is read as markup in either.

export const SVG = "http://www.w3.org/2000/svg";

/** An element. A value of JSON is none, whatever it looks like: it is shown as a text. */
export class Tree {
  /**
   * @param {string} name
   * @param {Record<string, string | number | boolean | null | undefined>} attributes
   * @param {(Tree | string)[]} children
   */
  constructor(name, attributes, children) {
    Object.assign(this, { name, attributes, children });
  }
}

const isShown = (child) => child !== null && child !== undefined && child !== false && child !== "";

/** Trees and texts as one list: of lists in lists the items; what is null, false or empty is left out. @returns {(Tree | string)[]} */
export const flat = (children) =>
  children
    .flat(Infinity)
    .filter(isShown)
    .map((child) => (child instanceof Tree ? child : inWords(child)));

const inWords = (value) => (typeof value === "object" ? JSON.stringify(value) : String(value));

/** An element with children. An attribute that is null or false is left out, and one that is true has no value. */
export const tree = (name, attributes = {}, ...children) => new Tree(name, attributes, flat(children));

/* The attributes that an element has, with their values as texts. */
const attributesOf = ({ attributes }) =>
  Object.entries(attributes)
    .filter(([, value]) => value !== null && value !== undefined && value !== false)
    .map(([name, value]) => [name, value === true ? "" : String(value)]);

/** Whether two lists of trees and texts show the same. */
export const sameTrees = (a, b) => a.length === b.length && a.every((child, i) => sameTree(child, b[i]));

function sameTree(a, b) {
  if (typeof a === "string" || typeof b === "string") return a === b;
  if (a.name !== b.name) return false;
  const [ours, others] = [a, b].map(attributesOf);
  const isSame = ours.length === others.length && ours.every(([name, value], i) => name === others[i][0] && value === others[i][1]);
  return isSame && sameTrees(a.children, b.children);
}

/** The node of a tree or text. @returns {Node} */
export function built(child, isOfSvg = false) {
  if (typeof child === "string") return document.createTextNode(child);
  const isSvg = isOfSvg || child.name === "svg";
  const node = isSvg ? document.createElementNS(SVG, child.name) : document.createElement(child.name);
  for (const [name, value] of attributesOf(child)) node.setAttribute(name, value);
  for (const part of child.children) node.appendChild(built(part, isSvg));
  return node;
}

const ENTITIES = { "&": "&amp;", "<": "&lt;", ">": "&gt;", '"': "&quot;" };

/* Characters that no document of XML may have. */
const NOT_OF_XML = /[^\t\n\r -\ud7ff\ue000-\ufffd\u{10000}-\u{10ffff}]/gu;

const escaped = (text) => text.replace(NOT_OF_XML, "\ufffd").replace(/[&<>"]/g, (character) => ENTITIES[character]);

/** A list of trees and texts as a text of XML. */
export const markupOf = (children) => flat([children]).map(markupOfOne).join("");

function markupOfOne(child) {
  if (typeof child === "string") return escaped(child);
  const head = `${child.name}${attributesOf(child).map(([name, value]) => ` ${name}="${escaped(value)}"`).join("")}`;
  return child.children.length ? `<${head}>${markupOf(child.children)}</${child.name}>` : `<${head}/>`;
}
