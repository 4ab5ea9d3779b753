// What the page draws has elements and attributes of its own alone.

import assert from "node:assert/strict";
import { cardOf } from "../src/cards.mjs";
import { picture } from "../src/diagram.mjs";
import { SERVER } from "../../common/fold.mjs";
import { rowCount } from "../src/layout.mjs";
import { flat } from "../src/tree.mjs";
import { sentence } from "../src/words.mjs";

const ELEMENTS = new Set("b br button circle code dd div dl dt g h2 mark p path rect section span svg table tbody td text th thead title tr".split(" "));
const ATTRIBUTE = /^(?!on|src|href)[a-z][a-zA-Z-]*$/;

/** Every element and attribute is one of the page's own. */
export function isOwn(children) {
  for (const child of flat([children])) {
    if (typeof child === "string") continue;
    assert.ok(ELEMENTS.has(child.name), child.name);
    for (const name of Object.keys(child.attributes)) assert.match(name, ATTRIBUTE);
    isOwn(child.children);
  }
}

/** Draws all of a session that the page draws of it, at each place. */
export function drawn(session, { port = null, names = new Map() } = {}) {
  for (let place = 0; place <= session.length; place++) {
    const view = { place, port, picked: null, draft: null, canPlay: true, names, carets: new Map(), asked: [], hidden: new Set(), followed: null };
    for (const who of [SERVER, ...session.members.keys()]) isOwn(cardOf(session, who, view));
    isOwn(sentence(session, place, names));
    const whole = picture(session, { ...view, from: 0, to: rowCount(session) - 1 }, "light");
    assert.doesNotMatch(whole, /<(img|meta|script|b)\b|undefined|[\ufffe\uffff]/);
  }
}
