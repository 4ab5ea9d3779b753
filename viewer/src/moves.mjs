// From a place to another one.

import { SERVER } from "../../common/fold.mjs";
import { shownPlace } from "./state.mjs";

/** The next place in a direction at which a participant, or any, moves. */
export function towards(state, direction, who = state.followed) {
  const { session } = state;
  const place = shownPlace(state);
  for (let p = place + direction; p > 0 && p <= session.length; p += direction) {
    const { moved, line } = session.steps[p];
    if (who === null || moved === who || (line.do === "take" && line.client === who)) return p;
  }
  if (direction < 0) return 0;
  return who === null ? session.length : place;
}

/** The other end of the message that was received or sent at the place. */
export function otherEnd(state) {
  const place = shownPlace(state);
  const { received, sent } = state.session.steps[place] || {};
  if (received) return received.sent;
  return sent && sent.got !== null ? sent.got : place;
}

/** The next place at which the one moves who moved to this place. */
export function sameMember(state, direction) {
  const place = shownPlace(state);
  const step = state.session.steps[place];
  return step ? towards(state, direction, step.line.client ?? SERVER) : place;
}
