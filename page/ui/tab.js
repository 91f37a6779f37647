/* What the tabs of a log and of a script share. */
import * as lines from "../model/lines.js";
import * as links from "./links.js";
import { $, hear, isolated, problemOf, soon } from "./parts.js";
import { Timeline } from "./timeline.js";

const PATIENCE = 150;

export class Tab {
  /** @type {Promise<any>} */ work = Promise.resolve();
  turn = new AbortController();
  isStart = false;
  text = "";
  /** @type {import("./links.js").Link | null} */ link = null;
  timer = 0;
  /* what names its content in the history, and whether it came as a file */
  ownKey = 0;
  isFile = false;
  /* the M and the K of the last file */
  numbers = {};

  /** @param {string} id @param {import("./timeline.js").Behaviours} behaviours */
  constructor(id, behaviours) {
    this.id = id;
    this.putAddressSoon = soon(() => links.putAddress(this));
    this.timeline = new Timeline(this, behaviours);
  }

  field(name) { return $(`${this.id}-${name}`); }
  value(name) { return this.field(name).value; }

  setFields(values) {
    for (const [name, value] of Object.entries(values)) if (value !== undefined) this.field(name).value = value;
  }

  /* The next file gets the M and the K of this one. */
  keepNumbers() {
    const [m, k] = ["m", "k"].map((name) => this.value(name));
    if (this.isFile && !problemOf(this.field("form"))) this.numbers = { m, k };
  }

  /** @returns {{ content: string | Uint8Array, settings: object }} */
  whatIsOpen() { return { content: this.text, settings: {} }; }

  nameFile(name, isEdited = false) {
    this.isFile = name !== "";
    this.field("file-name").replaceChildren(...name ? [isolated(name), isEdited ? ", edited" : ""] : []);
  }

  why(words) {
    this.field("why").textContent = words;
    if (!$(this.id).hidden) hear(words);
  }

  tellLines(name, command, text) {
    $(`${name}-lines`).textContent = text;
    $(`${name}-command`).textContent = command;
  }

  working(promise) { return this.work = promise; }

  /* Drops the look before. Returns whether the result is shown. */
  look(how = {}) { return this.working(this.lookNow(how)); }
  async lookNow(how) {
    this.turn.abort();
    this.turn = new AbortController();
    const { signal } = this.turn;
    clearTimeout(this.timer);
    const timer = setTimeout(() => this.wait(true), PATIENCE);
    this.timer = timer;
    try {
      this.prepare();
      this.keepNumbers();
      const problem = this.problem();
      if (problem) throw new Error(problem);
      await this.show(signal, how);
      return true;
    } catch (error) {
      // another look has taken the place of this one
      if (signal.reason?.name !== "AbortError") this.showProblem(error.message.replace(/\.?$/, "."));
      return false;
    } finally {
      clearTimeout(timer);
      if (this.timer === timer) this.wait(false);
    }
  }

  wait(isWaiting) {
    $(this.id).ariaBusy = isWaiting ? "true" : null;
    this.field("wait").hidden = !isWaiting;
    if (isWaiting) this.field("waits").textContent = this.waitsFor;
  }

  get waitsFor() { return ""; }
  /** @param {AbortSignal} signal @param {any} how @returns {Promise<any>} */
  async show(signal, how) { signal.throwIfAborted(); return how; }
  /** @param {string} problem @param {{ isRefused?: boolean }} [how] */
  showProblem(problem, how) { console.assert(!how, problem); }
  /** @param {any} content @param {any} [settings] @returns {Promise<any>} */
  open(content, settings) { return this.look({ content, settings }); }
  stop() {}
  prepare() {}
  problem() { return problemOf(this.field("form")); }

  choose() {}
  get near() { return 0; }
  choosesSpans = false;
  /** @param {...number} _ */ chooseSpan(..._) {}
  elapsed(slot) { return lines.time(slot); }
  key() { return false; }

  options() {
    return ["m", "k", "w"].filter((name) => this.value(name)).map((name) => `${name}=${this.value(name)}`).join("&");
  }

  moreSight() { return ""; }
  afterLink() {}

  async refuse(why, defaults) {
    await this.open("", defaults);
    this.showProblem(why, { isRefused: true });
  }

  /* `changed` is called for changes of these fields. */
  begin(names, changed) {
    for (const name of names) this.field(name).oninput = soon(changed);
    this.field("share").onclick = () => links.give(this);
    this.field("stop").onclick = () => this.stop();
  }
}
