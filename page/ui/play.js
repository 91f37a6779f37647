/* Runs a cursor over the slots in real time. It stops at the end, and when its button goes out of sight. */
import * as lines from "../model/lines.js";

export class Play {
  constructor(root, slots) {
    const button = root.querySelector(".play");
    this.button = button;
    this.slots = slots;
    this.frame = 0;
    button.onclick = () => { if (this.frame) this.stop(); else this.start(); };
  }

  start(end = this.slots.count - 1) {
    this.stop();
    const { slots } = this;
    let slot = slots.cursor < end ? slots.cursor : 0;
    let last = performance.now();
    const step = (now) => {
      // a pointer or a key moved the cursor
      if (Math.floor(slot) !== slots.cursor) slot = slots.cursor;
      slot = Math.min(end, slot + (now - last) / 1000 / lines.SLOT);
      last = now;
      if (Math.floor(slot) !== slots.cursor) slots.move(Math.floor(slot));
      if (slot < end && this.button.checkVisibility()) this.frame = requestAnimationFrame(step);
      else this.stop();
    };
    slots.move(slot);
    this.frame = requestAnimationFrame(step);
    this.tell();
  }

  stop() {
    cancelAnimationFrame(this.frame);
    this.frame = 0;
    this.tell();
  }

  tell() {
    this.button.textContent = this.frame ? "❚❚" : "▶";
    this.button.ariaPressed = this.frame !== 0;
  }

  /* Starts without being asked for by a hand: not if the reader wants no motion. */
  greet(from, end) {
    if (matchMedia("(prefers-reduced-motion: reduce)").matches) return;
    this.slots.move(from);
    this.start(end);
  }
}
