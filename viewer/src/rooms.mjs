// Boxes of a fixed room: where one has more text than it shows, a button says so, and scrolls on. It stands beside the lines, not over them.

import { element } from "./dom.mjs";

const marks = () => [...document.querySelectorAll("[data-room]")];

/* The rooms that are scrolled leave their buttons a margin. Whether one is shows without it, where all lines are as long as they can be. */
function leaveMargins() {
  const rooms = marks().map((mark) => element(mark.dataset.room));
  const tops = rooms.map(({ scrollTop }) => scrollTop);
  for (const room of rooms) room.classList.remove("scrolled-on");
  const areLonger = rooms.map(({ scrollHeight, clientHeight }) => scrollHeight - clientHeight > 2);
  rooms.forEach((room, i) => room.classList.toggle("scrolled-on", areLonger[i]));
  rooms.forEach((room, i) => (room.scrollTop = tops[i]));
}

/** Shows the buttons of those that have more below than is in sight. */
export function markRooms() {
  for (const mark of marks()) {
    const { scrollTop, scrollHeight, clientHeight } = element(mark.dataset.room);
    mark.hidden = scrollHeight - scrollTop - clientHeight <= 2;
  }
}

/** Listens to what changes them. They are looked at behind a frame: within one that would lay the page out twice. */
export function watchRooms() {
  let isAwaited = false;
  let isOther = false; // a text or a size
  const look = () => {
    if (isOther) leaveMargins();
    isAwaited = isOther = false;
    markRooms();
  };
  const soon = () => {
    if (isAwaited) return;
    isAwaited = true;
    requestAnimationFrame(() => setTimeout(look));
  };
  const changed = () => {
    isOther = true;
    soon();
  };
  for (const mark of marks()) {
    const room = element(mark.dataset.room);
    mark.onclick = () => room.scrollBy(0, Math.max(20, room.clientHeight - mark.offsetHeight)); // the line beside it comes above it
    room.addEventListener("scroll", soon);
    new ResizeObserver(changed).observe(room);
    new MutationObserver(changed).observe(room, { childList: true, subtree: true, characterData: true, attributes: true, attributeFilter: ["hidden"] });
  }
}
