/* A timeline of slots. Its tab has the words for a slot, says what a key and the choice of a receiver do, and asks for the
   behaviours that it wants. */
import * as painter from "../display/painter.js";
import { $, number } from "./parts.js";
import { Play } from "./play.js";

const LEAST = 8;
const STILL = 3;
const WHEEL = 1.25;

const STEPS = { ArrowRight: 1, ArrowLeft: -1, PageDown: 16, PageUp: -16, Home: -Infinity, End: Infinity };
/** What a button or a key does, and the behaviour that it belongs to.
 *  @type {Record<string, [string, keyof Behaviours, (it: Timeline) => void]>} */
const ACTIONS = {
  in: ["+=w", "zooms", (it) => it.zoom(0.5)],
  out: ["-s", "zooms", (it) => it.zoom(2)],
  all: ["0", "zooms", (it) => it.zoomTo(0, it.count)],
  next: ["n", "texts", (it) => it.step(1)],
  previous: ["p", "texts", (it) => it.step(-1)],
  nextFault: ["f", "faults", (it) => it.stepFault(1)],
  previousFault: ["d", "faults", (it) => it.stepFault(-1)],
};

/** `zooms`: some of the slots may be in sight, and a strip above shows which. `texts` and `faults`: buttons lead to the next
 *  one. `top`: what is above is not drawn, as the axis of the road.
 *  @typedef {{ zooms?: boolean, texts?: boolean, faults?: boolean, top?: number }} Behaviours */

export class Timeline {
  /** @type {painter.Lane[]} */ lanes = [];
  count = 1;
  from = 0;
  across = 1;
  cursor = 0;
  width = 0;
  gutter = 0;
  room = 0;
  /** @type {number | null} */ chosen = null;
  /** @type {Record<string, string>} */ ink = {};
  /** The slots under the fingers or the pointer that are down. @type {Map<number, { slot: number, x: number }>} */
  held = new Map();
  isWaiting = false;

  /** @param {any} tab @param {Behaviours} behaviours */
  constructor(tab, behaviours) {
    const root = $(`${tab.id}-time`);
    root.append($("timeline").content.cloneNode(true));
    const [canvas, output] = ["canvas", "output"].map((query) => root.querySelector(query));
    this.tab = tab;
    this.behaviours = behaviours;
    this.root = root;
    this.canvas = canvas;
    this.output = output;
    canvas.ariaLabel = `Slot of the ${tab.id}`;
    this.play = new Play(root, this);
    this.listen();
    painter.watchInks(root, (ink) => {
      this.ink = ink;
      // paper has no frames
      this.paint();
    });
  }

  has(behaviour) { return Boolean(this.behaviours[behaviour]); }

  get head() { return this.has("zooms") ? painter.STRIP : 0; }

  listen() {
    const { canvas } = this;
    canvas.onpointerdown = (event) => this.press(event);
    canvas.onkeydown = (event) => this.key(event);
    if (this.has("zooms")) canvas.addEventListener("wheel", (event) => this.turn(event), { passive: false });
    for (const button of this.root.querySelectorAll("[data-do]")) {
      const [, behaviour, act] = ACTIONS[button.dataset.do];
      if (this.has(behaviour)) button.onclick = () => act(this); else button.remove();
    }
    new ResizeObserver(() => this.draw()).observe(canvas);
  }

  show(lanes, count, { fit = false } = {}) {
    const before = this.count;
    Object.assign(this, { lanes, count: Math.max(1, count) });
    if (fit || this.count !== before) Object.assign(this, { from: 0, across: this.count });
    for (const button of this.root.querySelectorAll("[data-do$=Fault]")) button.hidden = !this.marks?.length;
    this.move(this.cursor, { keep: true });
  }

  get marks() { return this.lanes.find(({ kind }) => kind === "marks")?.marks; }

  x(slot) { return this.gutter + (slot - this.from) / this.across * this.room; }

  slotAt({ offsetX }) { return this.from + (offsetX - this.gutter) / this.room * this.across; }
  within(slot) { return Math.min(this.count - 1, Math.max(0, Math.floor(slot))); }
  slotUnder(event) { return this.within(this.slotAt(event)); }

  showFrom(from) {
    this.from = Math.min(Math.max(0, this.count - this.across), Math.max(0, from));
    this.draw();
  }

  sight(from, across) {
    this.across = Math.min(this.count, Math.max(LEAST, across));
    this.showFrom(from);
  }

  zoomTo(from, to) {
    const across = Math.min(this.count, Math.max(LEAST, to - from));
    this.sight((from + to - across) / 2, across);
  }

  /* The slot `at` keeps its place if it is in sight, and else the middle. */
  zoom(by, at = this.cursor + 0.5) {
    const share = (at - this.from) / this.across;
    const fixed = share >= 0 && share <= 1 ? share : 0.5;
    const across = Math.min(this.count, Math.max(LEAST, this.across * by));
    this.sight(this.from + fixed * (this.across - across), across);
  }

  step(by) {
    const { runs } = this.lanes.find(({ strong }) => strong) ?? {};
    const found = runs?.nearest(this.cursor, by);
    if (found !== undefined) this.move(found);
  }

  stepFault(by) {
    const found = this.marks?.nearest(this.cursor, by);
    if (found !== undefined) this.lead(found);
  }

  /* Chooses a slot, with so many slots before and behind it in sight, or with fewer if fewer are. */
  lead(slot) {
    const near = Math.min(this.tab.near + 0.5, this.across / 2);
    this.zoomTo(slot + 0.5 - near, slot + 0.5 + near);
    this.move(slot, { keep: true });
  }

  /* Chooses a slot, and brings it into sight unless the others keep their places. */
  move(slot, { keep = false } = {}) {
    this.cursor = Math.min(this.count - 1, Math.max(0, slot));
    if (!keep && this.cursor < this.from) this.from = this.cursor - this.across / 8;
    if (!keep && this.cursor >= this.from + this.across) this.from = this.cursor - this.across * 7 / 8;
    const shown = this.tab.showSlot(this.cursor);
    const place = this.place();
    this.output.textContent = place;
    const ariaValueText = `${place}. ${shown}`;
    Object.assign(this.canvas, { ariaValueMax: this.count - 1, ariaValueNow: this.cursor, ariaValueText });
    this.showFrom(this.from);
  }

  place() {
    const { cursor, tab, count, marks } = this;
    const i = marks?.indexAt(cursor) ?? -1;
    const isFault = i >= 0 && marks.from(i) === cursor;
    const fault = isFault && `${marks.piece(i).label}, fault ${number(i + 1)} of ${number(marks.length)}`;
    return [`slot ${number(cursor)} of ${number(count)}`, tab.elapsed(cursor), fault].filter(Boolean).join(" · ");
  }

  laneAt({ offsetY }) {
    const y = offsetY + (this.behaviours.top ?? 0);
    return this.lanes.find(({ top, height }) => y >= top && y < top + height);
  }

  /* The slot under the pointer keeps its place; a wheel across moves the slots. What changes nothing moves the page. */
  turn(event) {
    const { from, across } = this;
    const { deltaX, deltaY, deltaMode } = event;
    if (event.shiftKey) return;
    const pixels = deltaMode ? 16 : 1;
    if (Math.abs(deltaX) > Math.abs(deltaY)) this.showFrom(from + deltaX * pixels / this.room * across);
    else this.zoom(deltaY < 0 ? 1 / WHEEL : WHEEL, this.slotAt(event));
    if (this.from !== from || this.across !== across) event.preventDefault();
  }

  /* A drag moves the slots in sight. With Shift it chooses a span, of which the tab says what it means. Two fingers keep their
     slots. A place in the strip comes into sight. */
  press(event) {
    if (event.button) return;
    const { canvas } = this;
    canvas.focus();
    canvas.setPointerCapture(event.pointerId);
    const gesture = this.held.size ? this.pinch() : this.gestureOf(event);
    this.held.set(event.pointerId, { slot: this.slotAt(event), x: event.offsetX });
    canvas.onpointermove = (moved) => gesture.move(moved);
    canvas.onpointerup = canvas.onpointercancel = (released) => {
      this.held.delete(released.pointerId);
      canvas.onpointermove = canvas.onpointerup = canvas.onpointercancel = null;
      if (released.type === "pointerup") gesture.end?.(released);
      this.held.clear();
    };
    gesture.begin?.(event);
  }

  gestureOf(event) {
    const choose = (at) => this.move(this.slotUnder(at));
    if (!this.has("zooms")) return { move: choose, end: choose };
    if (event.offsetY < this.head) return this.scroll();
    return this.drag(event, event.shiftKey && this.tab.choosesSpans);
  }

  /* The strip has all slots. */
  scroll() {
    const go = ({ offsetX }) => this.showFrom((offsetX - this.gutter) / this.room * this.count - this.across / 2);
    return { begin: go, move: go };
  }

  drag(event, chooses) {
    const { from } = this;
    const first = this.slotUnder(event);
    const { group } = this.laneAt(event) ?? {};
    let isDrag = false;
    const move = ({ clientX }) => {
      isDrag ||= Math.abs(clientX - event.clientX) > STILL;
      if (isDrag && !chooses) this.showFrom(from - (clientX - event.clientX) / this.room * this.across);
    };
    const end = (released) => {
      if (isDrag && chooses) this.tab.chooseSpan(first, this.slotUnder(released));
      if (isDrag) return;
      if (group !== undefined) this.tab.choose(group);
      this.move(this.slotUnder(released), { keep: true });
    };
    return { move, end };
  }

  pinch() {
    const move = ({ pointerId, offsetX }) => {
      const finger = this.held.get(pointerId);
      if (!finger) return;
      finger.x = offsetX;
      const [one, other] = this.held.values();
      const across = (other.slot - one.slot) / (other.x - one.x) * this.room;
      if (!(across > 0) || !Number.isFinite(across)) return;
      this.sight(one.slot - (one.x - this.gutter) / this.room * across, across);
    };
    return { move };
  }

  key(event) {
    if (event.altKey) return;
    const key = event.key.length === 1 ? event.key.toLowerCase() : event.key;
    const by = STEPS[key];
    const [, , act] = Object.values(ACTIONS).find(([keys, behaviour]) => keys.includes(key) && this.has(behaviour)) ?? [];
    if (!this.tab.key(key, event)) {
      if (event.ctrlKey || event.metaKey || !(by || act)) return;
      if (by) this.move(this.cursor + by); else act(this);
    }
    event.preventDefault();
  }

  draw() {
    if (this.isWaiting) return;
    this.isWaiting = true;
    requestAnimationFrame(() => {
      this.isWaiting = false;
      this.paint();
    });
  }

  paint() {
    const { canvas, lanes: all, head } = this;
    const { top = 0 } = this.behaviours;
    const height = painter.place(all, head);
    // the width is asked of the page once a frame, since each question may lay it out
    const width = canvas.clientWidth;
    if (!width) return;
    const gutter = parseFloat(getComputedStyle(canvas).getPropertyValue("--gutter"));
    Object.assign(this, { width, gutter, room: Math.max(20, width - gutter - 4) });
    painter.paint(painter.sized(canvas, width, height, top), all, this, this.ink, height);
  }
}
