// The diagram on the page: the rows in sight, and the lanes' heads above them.

import { diagram } from "./diagram.mjs";
import { element, fill } from "./dom.mjs";
import { headTexts, laneHeads } from "./lanes.mjs";
import { GAP, HEAD_HEIGHT, layoutOf, rowCount } from "./layout.mjs";
import { tree } from "./tree.mjs";

/** How wide a printed diagram is, in pixels: a page of A4 in its height. And how many rows are printed. */
const PAPER = 700;
const PRINTED = 2000;

export class Timeline {
  layout = null;
  #view = null;
  #drawn = ""; // the rows that are drawn
  #of = []; // of what they are drawn
  #isNarrow = false; // the texts are the instructions alone
  #size = "";
  #box = { top: 0, left: 0, width: 0, height: 0 }; // how it is scrolled: asked of it after each change it would be slow

  /** Asks how it is scrolled and how wide it is, and draws. */
  measure() {
    const { scrollTop, scrollLeft, clientWidth, clientHeight } = element("time");
    const isOther = clientWidth !== this.#box.width;
    this.#box = { top: scrollTop, left: scrollLeft, width: clientWidth, height: clientHeight };
    if (isOther && this.#view) this.show(this.#view, { isNarrow: this.#isNarrow, isOther: false });
    else this.draw();
  }

  /** Draws all rows, as wide as paper is; `measure` draws again what is in sight. */
  print() {
    const height = Math.min(rowCount(this.#view.session), PRINTED) * this.layout.rowHeight;
    this.#box = { top: 0, left: 0, width: PAPER, height };
    this.show(this.#view, { isNarrow: false, isOther: false });
  }

  /** How wide the diagram is where its lanes have all the room that they want. */
  get wanted() {
    return layoutOf(this.#view.session, this.#isNarrow, this.#view.hidden).width;
  }

  /** Shows the rows of a view, where it has another place those around it. Lanes are fitted to the width of what is seen. */
  show(view, { isNarrow, isOther }) {
    this.#view = view;
    this.#isNarrow = isNarrow;
    this.layout = layoutOf(view.session, isNarrow, view.hidden, this.#box.width);
    const { rowHeight, laneWidth, width } = this.layout;
    const { session, place, port, followed, hidden } = view;
    const of = [session, place, port, followed, hidden, isNarrow, laneWidth];
    if (of.some((part, i) => part !== this.#of[i])) this.#drawn = "";
    this.#of = of;
    const height = rowCount(view.session) * rowHeight + 40;
    if (this.#size !== `${width} ${height}`) {
      this.#size = `${width} ${height}`;
      element("rows").style.height = `${height}px`;
      element("rows").style.width = element("heads").style.width = `${width}px`;
    }
    this.#showHeads();
    if (isOther) this.#scrollTo(view.place);
    this.draw();
  }

  /** Draws the rows in sight where they are others than were drawn. */
  draw() {
    if (!this.#view) return;
    const { session } = this.#view;
    const { layout } = this;
    const { top: above, height: room } = this.#box;
    const from = Math.max(0, Math.floor(above / layout.rowHeight) - 6);
    const to = Math.min(rowCount(session) - 1, Math.ceil((above + room) / layout.rowHeight) + 6);
    if (this.#drawn === `${from} ${to}`) return;
    this.#drawn = `${from} ${to}`;
    const { graph, texts } = diagram(session, layout, { ...this.#view, from, to });
    const top = from * layout.rowHeight;
    const height = Math.max(0, (to - from + 1) * layout.rowHeight);
    const box = (width) => ({ style: `top:${top}px`, width, height, viewBox: `0 ${top} ${width} ${height}` });
    const label = { role: "img", "aria-label": `space-time diagram, places ${from} to ${Math.min(to, session.length)}` };
    const words = tree("div", { class: "texts", "aria-hidden": "true" }, tree("svg", box(layout.textWidth - GAP), texts));
    fill("rows", tree("svg", { ...label, ...box(layout.width) }, graph), words);
  }

  #showHeads() {
    const { layout } = this;
    const { followed, names } = this.#view;
    const box = (width) => ({ width, height: HEAD_HEIGHT, "aria-hidden": "true" });
    const corner = tree("svg", { ...box(layout.textWidth - GAP), style: `top:-${HEAD_HEIGHT}px` }, headTexts(layout));
    fill("heads", tree("svg", box(layout.width), laneHeads(layout, followed, names)), tree("div", { class: "texts" }, corner));
  }

  /* Scrolls to a place, and to the lane of who moved there. */
  #scrollTo(place) {
    const { layout } = this;
    const box = this.#box;
    const top = place * layout.rowHeight;
    if (top < box.top || top + layout.rowHeight * 3 > box.top + box.height - HEAD_HEIGHT) {
      const most = rowCount(this.#view.session) * layout.rowHeight + 40 + HEAD_HEIGHT - box.height;
      box.top = Math.max(0, Math.min(most, top - box.height / 2));
      element("time").scrollTop = box.top;
    }
    const moved = this.#view.session.steps[place]?.moved;
    if (moved === undefined || !layout.members.has(moved)) return;
    const lane = layout.x(moved);
    const [from, to] = [lane - layout.laneWidth / 2, lane + layout.laneWidth / 2];
    const whole = (left) => layout.leftOf(Math.max(0, Math.round((left - GAP) / layout.laneWidth)));
    const isInSight = from >= box.left + layout.textWidth - GAP && to <= box.left + box.width;
    if (isInSight && Math.abs(whole(box.left) - box.left) < 1) return;
    box.left = whole(Math.max(0, lane - (box.width + layout.textWidth) / 2));
    element("time").scrollLeft = box.left;
  }

  /** The place of a click, by its height on the screen. */
  placeAt(clientY) {
    return Math.floor((clientY - element("rows").getBoundingClientRect().top) / this.layout.rowHeight);
  }
}
