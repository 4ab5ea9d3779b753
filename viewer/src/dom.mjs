// The page's elements.

import { built, flat, sameTrees } from "./tree.mjs";

export const element = (id) => document.getElementById(id);

/** Sets an element's text where it is another. */
export function setText(id, text) {
  if (element(id).textContent !== text) element(id).textContent = text;
}

/** Sets an element's data of these names; where there is no value there is no attribute. */
export function setData(id, names, values) {
  const { dataset } = element(id);
  for (const name of names) {
    if (values[name] === undefined) delete dataset[name];
    else dataset[name] = values[name];
  }
}

const filled = new WeakMap();

/** Shows trees and texts in an element, where they are others than it was given last. */
export function fill(id, ...children) {
  const parent = element(id);
  const shown = flat(children);
  const last = filled.get(parent);
  if (last && sameTrees(last, shown)) return;
  filled.set(parent, shown);
  parent.replaceChildren(...shown.map((child) => built(child)));
}

/** Saves a file. @param {BlobPart} content */
export function download(content, name, type) {
  const link = document.createElement("a");
  link.href = URL.createObjectURL(new Blob([content], { type }));
  link.download = name;
  link.click();
  setTimeout(() => URL.revokeObjectURL(link.href), 1000);
}
