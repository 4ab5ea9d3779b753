// What an editor would have shown if ot.js broke ties the other way. Where it showed just that, conform says of the operation whether it is so.

import { transform } from "../../common/transform.mjs";
import { insertedText, lastUpTo, makeElements, patched, textOf } from "../../common/document.mjs";
import { SERVER } from "../../common/fold.mjs";
import { documentAt, versionsOf } from "../../common/places.mjs";
import { valuesOf } from "../../common/why.mjs";
import { isTransform } from "./reason.mjs";
import { instructionOf } from "./words.mjs";

/* The last place up to another at which a document changed; 0 where there is none. */
function changedAt(session, who, place) {
  const { places } = versionsOf(session, who);
  return places[lastUpTo(places, place)];
}

/** The place of the transform that made what a participant received last: there, or where the server took it; 0 where there is none. */
export function decidedAt(session, { at, who }) {
  const place = changedAt(session, who, at);
  const step = session.steps[place];
  if (who !== SERVER && step?.line.do !== "deliver") return 0;
  return [place, step?.received.sent].find((decided) => decided > 0 && isTransform(session, decided)) ?? 0;
}

/* What a method would make if transform had its arguments the other way round. @param {import("./reason.mjs").Reason} call */
function exchanged(call) {
  const [operation] = valuesOf(call, "operation");
  const pending = ["outstanding", "buffer"].flatMap((name) => valuesOf(call, name));
  if (pending.length > 0) return pending.reduce((received, own) => transform(received, own).first, operation);
  return valuesOf(call, "concurrent").reduce((message, other) => transform(other, message).second, operation);
}

/**
 * The port's line with the operation that ties broken the other way make, if it leads to a document that was seen; else null.
 * @param {import("../../common/fold.mjs").Session} session
 * @param {import("../../common/noted.mjs").Note} note
 * @param {import("./reason.mjs").Reason} call at the place that decided
 */
export function lineOfTie(session, { at, who, document }, call) {
  const operation = exchanged(call);
  const shown = patched(documentAt(session, who, changedAt(session, who, at) - 1), operation, makeElements(insertedText(operation), who, at));
  if (textOf(shown) !== document) return null;
  return JSON.stringify({ at: call.place, [session.steps[call.place].line.do === "take" ? "appended" : "applied"]: operation });
}

/** Conform's answer on a note, with what it says of the operation. @param {import("../../common/conformance.mjs").Told} told @param {string} note */
export function withTie({ answer, words }, note, session, { at }, { place }) {
  const said = place === at ? note : `${note} (${instructionOf(session.steps[place].line)}, place ${place})`;
  return { answer: { ...answer, note: said }, words: [...words, `note ${said}`] };
}
