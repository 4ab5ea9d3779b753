// How often a text stands in the documents of ot.js: the instructions that change that. A document is followed as a text, by the operations of `steps`.

import { SERVER } from "../common/fold.mjs";
import { Search } from "./seeking.mjs";

const SURROGATE = /[\ud800-\udfff]/;

const countIn = (document, text) => document.split(text).length - 1;

/* The text that an operation makes of another; lengths count characters of 16 bits, of which each scalar is one here. */
function applied(text, operation) {
  let [made, at] = ["", 0];
  for (const component of operation) {
    if (typeof component === "string") made += component;
    else if (component < 0) at -= component;
    else made += text.slice(at, (at += component));
  }
  return made;
}

/** By place { who, counts }: whose document has the text more or less often, and how often before and behind. */
export class Occurrences extends Search {
  /** @param {import("./recording.mjs").Recording} recording @param {string} text */
  constructor(recording, text) {
    super(recording.end, recording.isStopped);
    Object.assign(this, { recording, text });
    const { start, present, members } = recording.session;
    const had = new Map([SERVER, ...members.keys()].map((who) => [who, who === SERVER || who < present ? start : ""]));
    this.documents = new Map([...had].map(([who, document]) => [who, { document, count: countIn(document, text) }]));
    this.isWide = SURROGATE.test(start); // a scalar may be two characters of 16 bits
  }

  look(place) {
    const { line, moved } = this.recording.session.steps[place];
    const operation = line.edit ?? line.appended ?? line.applied;
    if (operation === undefined && line.do !== "join") return undefined;
    this.isWide ||= (operation ?? []).some((component) => typeof component === "string" && SURROGATE.test(component));
    const before = this.documents.get(moved);
    const document = line.do === "join" ? this.documents.get(SERVER).document : this.isWide ? this.recording.text(moved === SERVER ? null : moved, place) : applied(before.document, operation);
    const count = countIn(document, this.text);
    this.documents.set(moved, { document, count });
    return count === before.count ? undefined : { who: moved, counts: [before.count, count] };
  }
}
