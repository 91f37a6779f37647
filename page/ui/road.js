/* The first screen: a car on a road with tunnels, in which its receivers get nothing. The program says what they show. */
import { AXIS } from "../display/painter.js";
import { Texts, View } from "../model/displays.js";
import * as lines from "../model/lines.js";
import * as records from "../model/records.js";
import { Program } from "../program/program.js";
import * as links from "./links.js";
import { $, filled, hear, isolated, make, quoted, radio, soon, whyNoMix } from "./parts.js";
import { Timeline } from "./timeline.js";

/* The first tunnels [from, to), and the slot in which the first text is there: the drive begins in it. */
const TUNNELS = [[26, 47], [55, 71]];
const BEGIN = 18;
/* The letters of a text. */
const LONGEST = 64;
const UNSURE = "waits to be sure";
const STEPS = { ArrowRight: 1, ArrowLeft: -1, ArrowUp: 1, ArrowDown: -1, Home: -Infinity, End: Infinity };
const within = (low, slot, high) => Math.max(low, Math.min(slot, high));

/** @typedef {{ from: number, to: number, place: HTMLElement, exit: HTMLElement }} Tunnel */

class Road {
  id = "road";
  /** @type {import("../model/records.js").Row[]} */ rows = [];
  /** @type {Tunnel[]} */ tunnels = [];
  text = "";
  /** @type {Promise<void>} */ work = Promise.resolve();
  /** @type {links.Link | null} */ link = null;
  /** @type {Tunnel | null} */ held = null;
  hasPlayed = false;
  /** @type {Note | null} */ fault = null;
  /** @type {Map<import("../model/records.js").Row, HTMLInputElement>} */ fields = new Map();
  air = new View();
  dwell = new View();
  alone = new View();
  /* The slots of the first road: no link has more. */
  most = 0;
  isMoved = false;
  isPlaying = false;
  /** @type {Program} */ program;
  /** @type {Timeline} */ timeline;
  /** @type {HTMLElement} */ car;
  /* The start has the address of its link. */
  isStart = true;
  road = this;

  get count() { return this.rows.length; }
  percent(slot) { return `${100 * slot / this.count}%`; }

  take(text, tunnels = null) {
    this.rows = records.read(text);
    const isLost = (slot) => this.rows[slot]?.receptions[0] === "L";
    const slots = [...this.rows.keys()];
    const starts = slots.filter((slot) => isLost(slot) && !isLost(slot - 1));
    const ends = slots.filter((slot) => isLost(slot) && !isLost(slot + 1));
    const places = tunnels ?? starts.map((from, i) => [from, ends[i] + 1]);
    this.tunnels = places.map(([from, to], i) => this.tunnel(from, to, i));
    $("road-band").replaceChildren(...this.tunnels.flatMap(({ place, exit }) => [place, exit]), this.car);
    const texts = this.rows.filter(({ command }) => command === "text");
    this.fields = new Map(texts.map((row, i) => [row, this.fieldOf(row, i)]));
    $("road-texts").replaceChildren(...this.fields.values());
    this.placeTunnels();
    return this.play();
  }

  fieldOf(row, i) {
    const props = { className: `hue-${i % 3}`, maxLength: LONGEST, ariaLabel: `Text ${i + 1}` };
    const field = make("input", { ...props, value: row.argument });
    field.oninput = soon(() => {
      row.argument = [...field.value].map((letter) => RDSRT_CLOSEST[letter] ?? letter).join("");
      this.play();
    });
    return field;
  }

  /* A tunnel: its place with its entry, and its exit. The keys need no third slider for the entry. */
  tunnel(from, to, i) {
    const [place, exit] = filled("tunnel", {});
    const it = { from, to, place, exit };
    place.ariaLabel = `${["First", "Second"][i] ?? "Next"} tunnel, its place`;
    exit.ariaLabel = place.ariaLabel.replace("place", "exit");
    this.slider(place, () => it.from, (slot) => this.moveTunnel(i, "whole", slot));
    this.slider(exit, () => it.to, (slot) => this.moveTunnel(i, "to", slot));
    this.slider(place.lastChild, () => it.from, (slot) => this.moveTunnel(i, "from", slot), place);
    return it;
  }

  /* Moves a tunnel or one of its ends as near to a slot as the other tunnels let it. One slot stays between two. */
  moveTunnel(i, what, slot) {
    const it = this.tunnels[i];
    const { from, to } = it;
    const { to: before = -1 } = this.tunnels[i - 1] ?? {};
    const { from: behind = this.count + 1 } = this.tunnels[i + 1] ?? {};
    if (what === "to") it.to = within(from + 1, slot, behind - 1);
    else it.from = within(before + 1, slot, what === "from" ? to - 1 : behind - 1 - (to - from));
    if (what === "whole") it.to = it.from + to - from;
    if (it.from === from && it.to === to) return;
    this.held = it;
    this.placeTunnels();
    this.play();
  }

  placeTunnels() {
    for (const { from, to, place, exit } of this.tunnels) {
      const length = lines.time(to - from);
      const ariaValueText = `tunnel from slot ${from} to ${to}, ${length}`;
      place.firstChild.textContent = length;
      Object.assign(place.style, { left: this.percent(from), width: this.percent(to - from) });
      exit.style.left = this.percent(to);
      Object.assign(place, { ariaValueMax: this.count, ariaValueNow: from, ariaValueText });
      Object.assign(exit, { ariaValueMax: this.count, ariaValueNow: to, ariaValueText });
    }
  }

  slotAt({ clientX }) {
    const { left, width } = $("road-band").getBoundingClientRect();
    return (clientX - left) / width * this.count;
  }

  /* A slider on the road: `value` reads its slot, `move` sets it. Without a value it goes to the pointer at once. */
  slider(element, value, move, focus = element) {
    element.onpointerdown = (event) => {
      if (event.button || !event.isPrimary) return;
      event.preventDefault();
      event.stopPropagation();
      this.timeline.play.stop();
      focus.focus({ preventScroll: true, focusVisible: false });
      const grabbed = value ? this.slotAt(event) - value() : 0.5;
      const go = (moved) => move(Math.round(this.slotAt(moved) - grabbed));
      element.setPointerCapture(event.pointerId);
      element.onpointermove = go;
      element.onpointerup = element.onpointercancel = () => { element.onpointermove = null; };
      if (!value) go(event);
    };
    if (value) element.onkeydown = (event) => {
      if (!(event.key in STEPS) || event.altKey || event.ctrlKey || event.metaKey) return;
      event.preventDefault();
      event.stopPropagation();
      this.timeline.play.stop();
      move(value() + STEPS[event.key]);
    };
  }

  play() {
    this.isMoved = true;
    if (!this.isPlaying) this.work = this.playMoves();
    return this.work;
  }

  async playMoves() {
    const say = (error) => { $("road-says").textContent = error.message; };
    for (this.isPlaying = true; this.isMoved;) await this.playNow().catch(say);
    this.isPlaying = false;
  }

  /* The car stands where the radio begins to show its longest mix, or else behind the tunnel that was moved. */
  async playNow() {
    this.isMoved = false;
    const isLost = (slot) => this.tunnels.some(({ from, to }) => from <= slot && slot < to);
    for (const [slot, row] of this.rows.entries()) row.receptions = [isLost(slot) ? "L" : "G"];
    this.text = records.write(this.rows);
    if (this.link) links.keep(this);
    const played = await this.program.ask("play", { ...RDSRT_EXAMPLES.script[0], text: this.text });
    this.fault = lines.noteOf(played.notes, "fault") ?? null;
    const wrong = this.fault && this.rows[this.fault.row - 1];
    for (const [row, field] of this.fields) field.ariaInvalid = row === wrong ? "true" : null;
    // the road before stays
    if (this.fault && this.hasPlayed) { this.tell(this.timeline.cursor); return; }
    const values = new Texts(played.values);
    const [air, dwell, alone] = [played.air, played.views[0], played.alone[0]].map((packed) => new View(packed, values));
    air.shadeTexts();
    Object.assign(this, { hasPlayed: true, air, dwell, alone });
    this.timeline.show(this.lanes(), this.count);
    this.timeline.move(this.longestMix()?.from ?? this.held?.to ?? this.timeline.cursor);
  }

  lanes() {
    const { air, dwell, alone } = this;
    const lane = (name, view) => ({ name, kind: "bars", runs: view.parts.text, strong: true });
    return [lane("on air", air), lane("with rdsrt", dwell), lane("ordinary radio", alone)];
  }

  longestMix() {
    const { text } = this.alone.parts;
    return text.mixes().map((i) => text.at(i)).sort((one, other) => other.to - other.from - (one.to - one.from))[0];
  }

  showSlot(slot) {
    const { air, dwell, alone } = this;
    const onAir = radio($("road-air"), "On air", air, slot, { none: "silence" });
    const shown = radio($("road-dwell"), "A receiver with rdsrt", dwell, slot, { none: UNSURE });
    const other = radio($("road-alone"), "An ordinary radio", alone, slot, { air, mixed: "never sent" });
    this.car.style.left = this.percent(slot + 0.5);
    this.tell(slot);
    return `On air ${onAir}. A receiver with rdsrt: ${shown}. An ordinary radio: ${other}`;
  }

  tell(slot) {
    const { dwell, alone } = this;
    if (!this.hasPlayed) return;
    const mix = this.longestMix();
    const run = alone.at("text", slot);
    const later = mix && `The ordinary radio shows a text that was never sent from ${lines.time(mix.from)} on.`;
    const now = run?.state === "mix" && `“${run.value}” was never on air. ${whyNoMix(dwell, alone, slot)}`;
    const calm = "Each display shows texts that were sent. Drag the ends of the tunnels.";
    const words = this.fault ? this.refusal() : [now || later || calm, ...this.replaced()];
    $("road-says").replaceChildren(...words);
    if ($("road").checkVisibility()) hear($("road-says").textContent);
  }

  /* What is wrong with a text, by its field: a visitor has no rows. */
  refusal() {
    const row = this.rows[this.fault.row - 1];
    const { character: letter } = this.fault;
    const number = [...this.fields.keys()].indexOf(row) + 1;
    if (number && letter) return [`Text ${number}: rdsrt’s character table has no “`, isolated(letter), "”."];
    return [number ? `Text ${number} is refused: ` : "", quoted(this.fault.text), "."];
  }

  /* What is sent for letters of the fields that the table lacks. */
  replaced() {
    const all = [...this.fields.values()].flatMap(({ value }) => [...value]);
    const strange = [...new Set(all)].filter((letter) => RDSRT_CLOSEST[letter] !== undefined);
    const sent = (letter) => `”: “${RDSRT_CLOSEST[letter]}” is sent.`;
    return strange.flatMap((letter) => [" rdsrt’s character table has no “", isolated(letter), sent(letter)]);
  }

  choose() {}
  key() { return false; }
  get near() { return this.count; }
  elapsed(slot) { return lines.time(slot); }

  field(name) { return $(`road-${name}`); }
  options() { return ""; }
  moreSight() { return ""; }

  async open(text, hash) {
    if (records.read(text).length > this.most) throw links.tooLong(this.most);
    await this.take(text);
    this.link = { text: this.text, options: this.options(), hash, isNow: true };
  }

  begin(compiled, open) {
    const { text, m, k, pty } = RDSRT_EXAMPLES.script[0];
    this.most = records.read(text).length;
    this.program = new Program(compiled);
    this.car = $("road-car");
    this.timeline = new Timeline(this, { top: AXIS });
    this.slider($("road-band"), null, (slot) => this.timeline.move(slot), this.timeline.canvas);
    $("road-script").onclick = () => open(this.text, { m, k, pty });
    $("road-share").onclick = () => links.give(this);
    return this.take(text, TUNNELS);
  }

  async greet() {
    await this.work;
    const mix = this.hasPlayed && this.longestMix();
    if (!mix || !$("road").checkVisibility()) return;
    this.timeline.move(mix.from);
    this.timeline.play.greet(BEGIN, mix.from);
  }
}

export const road = new Road();
