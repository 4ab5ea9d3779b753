// The components of an operation, as ot.js' transform and compose go through them, and its builder. Lengths count Unicode scalars.

/**
 * @typedef {number | string} Component a number above 0 retains, one below deletes, a text is inserted
 * @typedef {Component[]} Operation
 */

export const lengthOf = (component) => (typeof component === "string" ? [...component].length : Math.abs(component));

const kindOf = (component) => (typeof component === "string" ? "insert" : component > 0 ? "retain" : "delete");

/** Adds a component as ot.js' builder does: neighbours of one kind are merged, and an insertion stands before a deletion. @param {Operation} operation @param {Component} component */
export function add(operation, component) {
  const kind = kindOf(component);
  const behind = kind === "insert" && operation.length && kindOf(operation.at(-1)) === "delete" ? [operation.pop()] : [];
  if (operation.length && kindOf(operation.at(-1)) === kind) operation[operation.length - 1] += component;
  else operation.push(component);
  operation.push(...behind);
}

/* The first characters of a text, at most so many. */
function startOf(text, most) {
  let end = 0;
  for (let i = 0; i < most && end < text.length; i++) end += text.codePointAt(end) > 0xffff ? 2 : 1;
  return text.slice(0, end);
}

/** An operation's components, which may be taken in parts; the first one is `head`, undefined behind the last. */
export class Rest {
  /** @param {Operation} operation */
  constructor(operation) {
    Object.assign(this, { operation, next: 0, head: operation[0] });
  }

  /** Takes the whole first component. @returns {Component} */
  take() {
    const { head } = this;
    this.head = this.operation[++this.next];
    return head;
  }

  /** Takes at most so much of the first component. @returns {Component} */
  takeAtMost(most) {
    const { head } = this;
    if (typeof head === "string") {
      const text = startOf(head, most);
      if (text.length === head.length) return this.take();
      this.head = head.slice(text.length);
      return text;
    }
    if (Math.abs(head) <= most) return this.take();
    const part = head > 0 ? most : -most;
    this.head = head - part;
    return part;
  }
}
