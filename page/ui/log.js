/* The tab of a log. One worker shows what receivers show, another one judges. */
import * as clock from "../model/clock.js";
import { Marks, Texts, View, lastAt } from "../model/displays.js";
import * as lines from "../model/lines.js";
import * as logs from "../model/slots.js";
import { Program } from "../program/program.js";
import * as faults from "./faults.js";
import * as groups from "./groups.js";
import * as links from "./links.js";
import { $, counted, latest, number, radio, refuse, whyNoMix } from "./parts.js";
import { Tab } from "./tab.js";
import * as verdict from "./verdict.js";

/* The worker that has searched a log of more slots ends, to free its memory. */
const LONG = 100_000;
/* How many slots after a no are searched for a witness, about a day: each takes some 41 bytes of memory. */
const SEARCHED = 1_000_000;
/* A display takes no longer with another M, and a new worker would have to read the log again. */
const PATIENCE = 20_000;
const NO_SEARCH = { message: "the search is for a receiver without a window" };
const KINDS = ["nothing", "text", "name", "tags", "other"];
const LONGEST_LINE = 96;
/* A log of noise has thousands of programmes. */
const MOST_PROGRAMMES = 50;
const encoder = new TextEncoder();
const decoder = new TextDecoder("utf-8", { ignoreBOM: true });
/** @type {LogPlaces} */
const NO_LOG = { count: 0, end: 0, starts: new Uint32Array(0), malformed: Infinity, programmes: [] };
/** @type {Recording} */
const NO_RECORDING = {
  bytes: new Uint8Array(0), m: 0, isFilled: false, hasTimes: false, hasMark: false, added: 0, untimed: 0, cut: null, notes: [],
  rows: new Uint32Array(0), places: new Uint32Array(0), slots: new Uint32Array(0),
};
/** @type {FaultList} */
const NO_FAULTS = { slots: new Int32Array(0), numbers: new Uint8Array(0), kinds: [] };
const empty = () =>
  ({ view: new View(), alone: new View(), sent: new View(), codes: new Uint8Array(0), answer: null, witness: null });

class LogTab extends Tab {
  file = new Uint8Array(0);
  isPacked = false;
  recording = NO_RECORDING;
  log = NO_LOG;
  /** @type {Set<number>} */ lost = new Set();
  hadLost = false;
  pi = 0;
  tags = 11;
  w = 0;
  view = new View();
  alone = new View();
  /* what a receiver shows that loses nothing */
  sent = new View();
  codes = new Uint8Array(0);
  /** @type {{ no: Note | null, isSure: boolean, audit: Audit, of: string } | null} */ answer = null;
  /** @type {Witness | null} */ witness = null;
  /** @type {Program} */ display;
  /** @type {Program} */ judge;
  /** @type {Program} */ filler;

  constructor() {
    super("log", { zooms: true, texts: true, faults: true });
    this.home(true);
  }

  /* what is judged and shown */
  get bytes() { return this.recording.bytes; }

  home(isStart) {
    this.isStart = isStart;
    $("log").classList.toggle("unopened", isStart);
  }

  get no() { return this.answer?.no ?? null; }

  /* A fault and what it is about are in sight. */
  get near() {
    const { m, k } = this.asking();
    return m + k;
  }

  goTo(slot) {
    this.timeline.lead(slot);
    this.timeline.canvas.focus();
  }

  lose(slots) {
    for (const slot of slots) if (!this.lost.delete(slot)) this.lost.add(slot);
    return this.look();
  }

  /* All of a span are lost, or received again if all were lost. */
  choosesSpans = true;
  chooseSpan(one, other) {
    const first = Math.min(one, other);
    const span = Array.from({ length: Math.abs(one - other) + 1 }, (_, i) => first + i);
    const isLost = span.every((slot) => this.lost.has(slot));
    return this.lose(span.filter((slot) => isLost || !this.lost.has(slot)));
  }

  /* The spans of lost slots, as they are typed. */
  typed() {
    const letters = this.value("spans").replaceAll(/\s/g, "").replaceAll(",", ".");
    const lost = links.slotsIn(letters, this.log.count);
    const isRefused = !lost || (letters !== "" && !lost.size);
    refuse(this.field("spans"), isRefused ? `Give slots from 0 to ${number(this.log.count - 1)} in their order, as 3-7,12.` : "");
    if (isRefused) return;
    this.lost = lost;
    this.look();
  }

  /* A slot, or a time. It says how the time was read. */
  go() {
    const found = clock.find(this.value("go").trim(), this);
    refuse(this.field("go"), found.why ?? "");
    if (found.slot === undefined) return;
    $("log-refused").textContent = found.says ?? "";
    this.goTo(found.slot);
  }

  key(key, event) {
    if (key !== "l" || event.ctrlKey || event.metaKey) return false;
    this.lose([this.timeline.cursor]);
    return true;
  }

  /* Returns when display and verdict are shown. The workers read the page's own bytes: the file may change. */
  /** @param {string | Uint8Array} content @param {any} [settings] */
  open(content, settings = {}) {
    const { m, k, w, tags = 11, running = false, padded = false, fill = true, lost = [], example = "", file = "", pi } = settings;
    const bytes = typeof content === "string" ? encoder.encode(content) : content;
    // a link holds no longer text
    const text = bytes.length > links.MOST_PLAIN ? null : decoder.decode(bytes);
    const opened = { log: NO_LOG, file: bytes, isPacked: settings.isPacked ?? false, recording: NO_RECORDING, text };
    Object.assign(this, empty(), opened, { lost: new Set(lost), ownKey: settings.ownKey ?? links.newKey() });
    this.hadLost = example !== "" && this.lost.size > 0;
    this.home(false);
    this.nameFile(file);
    this.setFields({ example, m, k, w: w || "", tags });
    $("log-running").checked = running;
    $("log-padded").checked = padded;
    $("log-fill").checked = fill;
    return this.look({ opens: true, pi });
  }

  /* Makes of the file what is judged and shown, by a worker of its own: two keep what comes of it. The lost slots stay those
     of the same groups. */
  async record(signal) {
    const { m, k } = this.asking();
    const before = this.recording;
    const given = { bytes: this.file, m: m + k, wants: $("log-fill").checked };
    const recording = await latest(signal, this.filler.ask("fill", given, { signal }));
    this.filler.stop();
    this.recording = recording;
    for (const program of [this.display, this.judge]) program.keep(this.bytes);
    this.carry(before);
    this.showBox();
  }

  /* Lost slots and the cursor, from the slots before to those of the same groups now. */
  carry({ slots: before }) {
    const { slots: now } = this.recording;
    if (!before.length) return;
    const group = (slot) => lastAt(before.length, (i) => before[i], slot);
    const lost = [...this.lost].filter((slot) => before[group(slot)] === slot);
    this.lost = new Set(lost.map((slot) => now[group(slot)]));
    this.timeline.cursor = now[group(this.timeline.cursor)] ?? 0;
  }

  /* The box says what was added and left out. */
  showBox() {
    const { isFilled, hasTimes, hasMark, added, untimed, cut, notes } = this.recording;
    const [breaks, coarse] = ["breaks", "coarse"].map((kind) => lines.noteOf(notes, kind));
    const atBreaks = breaks ? `, at ${counted(breaks.count, "break")} of the times at least M + K each` : "";
    const said = [
      isFilled && `${counted(Math.abs(added), "lost slot")} ${added < 0 ? "left out" : "added"} by the times${atBreaks}`,
      !isFilled && hasTimes && !coarse && "Add the lost slots by the times",
      coarse && "No lost slot added: the times are too coarse",
      isFilled && untimed && `${counted(untimed, "group")} without a time left out`,
      cut && `line ${number(cut)} and all after it left out`, hasMark && "byte-order mark left out", this.isPacked && "unpacked",
    ].filter(Boolean);
    $("log-fills").hidden = said.length === 0;
    $("log-fill").hidden = !hasTimes || Boolean(coarse);
    $("log-filled").textContent = said.join("; ");
  }

  async read(pi, signal) {
    const tell = (share) => { $("log-progress").value = share; };
    this.take(await latest(signal, this.display.ask("open", {}, { signal, tell })), pi);
  }

  /* The line in the file of a line of what is judged. */
  lineOf(line) {
    const { rows, places, isFilled } = this.recording;
    const group = lastAt(places.length, (i) => places[i], line);
    return isFilled && places[group] === line ? rows[group] : line;
  }

  /* A command over the file, with what the page did before it. */
  commandOf(command) {
    const { hasMark, isFilled, cut, m } = this.recording;
    const shortened = isFilled ? `rdsrt slots --m ${m}` : cut && `head -n ${cut - 1}`;
    return [this.isPacked && "gunzip", hasMark && "tail -c +4", shortened, command].filter(Boolean).join(" | ");
  }

  take(log, pi) {
    const optionOf = (code, count) => new Option(`${code} (${counted(count, "group")})`, code);
    const options = log.programmes.slice(0, MOST_PROGRAMMES).map(([code, count]) => optionOf(lines.hex(code), count));
    this.log = log;
    $("log-pi").replaceChildren(...options.length ? options : [new Option("no group", "C201")]);
    if (options.some(({ value }) => value === pi)) $("log-pi").value = pi;
    this.prepare();
    $("log").classList.toggle("without-slots", !this.log.count);
  }

  get waitsFor() {
    return this.log === NO_LOG ? "Reading the log" : `Decoding with M = ${number(Number(this.value("m")))}`;
  }

  wait(isWaiting) {
    super.wait(isWaiting);
    if (!isWaiting) return;
    $("log-progress").removeAttribute("value");
    if (!this.answer) verdict.showNone(`${this.waitsFor} …`, "");
    if (this.log !== NO_LOG) return;
    this.timeline.show([], 1);
    faults.hide();
  }

  stop() {
    this.turn.abort(new Error("Reading was stopped"));
    for (const program of [this.display, this.judge]) program.stop();
  }

  /* What the form holds. A window makes what it shows later by its length less one. */
  asking() {
    const [m, k, w, tags] = ["m", "k", "w", "tags"].map((name) => Number(this.value(name)));
    const [running, padded] = ["running", "padded"].map((name) => $(`log-${name}`).checked);
    return { pi: this.value("pi"), tags, m, k: k + Math.max(0, w - 1), w, running, padded };
  }

  prepare() {
    $("log-unlose").hidden = !this.lost.size;
    if (document.activeElement !== $("log-spans")) $("log-spans").value = lines.spansOf(this.lost).join(",");
    const [m, k, w] = ["m", "k", "w"].map((name) => this.value(name));
    const words = [this.value("pi"), `M = ${m}`, `K = ${k}`, w && `W = ${w}`];
    const options = words.filter(Boolean).join(", ");
    $("log-options").textContent = options;
    const [file, added] = ["file-name", "filled"].map((name) => $(`log-${name}`).textContent);
    const example = $("log-example").selectedOptions[0]?.text;
    $("log-what").textContent = [file || example, options].filter(Boolean).join(" · ");
    const printed = [this.recording.isFilled && added, new Date().toISOString().slice(0, 10)];
    $("log-paper").textContent = printed.filter(Boolean).map((it) => ` · ${it}`).join("");
  }

  async show(signal, { opens = false, pi }) {
    const asked = this.asking();
    const { isFilled, m } = this.recording;
    // at a break of the times `slots` adds M slots
    const isOther = isFilled && m !== asked.m + asked.k && lines.noteOf(this.recording.notes, "breaks");
    if (isOther) Object.assign(this, { log: NO_LOG, answer: null, witness: null });
    if (this.log === NO_LOG) {
      await this.record(signal);
      await this.read(pi ?? asked.pi, signal);
      asked.pi = this.value("pi");
    }
    links.keep(this);
    const { answer } = this;
    // lost slots change nothing of what was sent
    const isAnswered = answer?.of === JSON.stringify(asked);
    if (!isAnswered) Object.assign(this, { answer: null, witness: null });
    const passes = isAnswered && answer.isSure && !answer.no;
    const shown = this.showDisplay({ ...asked, lost: [...this.lost], passes }, opens, signal);
    await Promise.all([shown, isAnswered || this.showAnswer(asked, signal)]);
    if (opens) this.begins();
    if (!this.witness) this.working(this.search(asked, signal));
  }

  /* A log is opened at its fault, if no slot is lost. */
  begins() {
    if (this.no && !this.lost.size) this.timeline.lead(this.no.slot);
    else this.timeline.move(this.firstSlot(), { keep: true });
  }

  async showDisplay(asked, fit, signal) {
    const shown = await latest(signal, this.display.ask("decode", asked, { signal }));
    if (shown.log) this.take(shown.log, asked.pi);
    // the slots before a malformed line may be those of another programme
    if (this.value("pi") !== asked.pi) this.look({ opens: fit });
    signal.throwIfAborted();
    const values = new Texts(shown.values);
    const [view, alone, sent] = [shown.view, shown.alone, shown.sent ?? shown.view].map((packed) => new View(packed, values));
    Object.assign(this, { view, alone, sent, codes: shown.codes, pi: parseInt(asked.pi, 16), tags: asked.tags, w: asked.w });
    this.timeline.show(this.lanes(), this.log.count, { fit });
    this.tellLines("log", this.commandOf(shown.command), shown.output);
  }

  async showAnswer(asked, signal) {
    /** @type {Audit} */
    const audit = await latest(signal, this.judge.ask("audit", asked, { signal }));
    const given = { ...asked, audit, recording: this.recording };
    this.answer = { ...verdict.show(given, this.actions), audit, of: JSON.stringify(asked) };
    const notes = audit.notes.map(({ text }) => `rdsrt: ${text}\n`).join("");
    this.tellLines("audit", this.commandOf(audit.command), audit.output);
    $("audit-notes").textContent = notes;
    faults.show({ ...audit, isSure: this.answer.isSure }, this.actions);
    // the faults have marks
    if (this.no && this.timeline.lanes.length) this.timeline.show(this.lanes(), this.log.count);
  }

  /* The slot to look at first without a no: the first mix, or else the last text. */
  firstSlot() {
    const { text } = this.view.parts;
    for (const runs of [text, this.alone.parts.text]) {
      const mix = runs.find((i) => runs.isMix(i));
      if (mix >= 0) return runs.from(mix);
    }
    const last = [...text.starts.keys()].filter((i) => text.isShown(i)).at(-1);
    return last === undefined ? 0 : text.from(last);
  }

  /* What the page refuses is red. */
  showProblem(problem, { isRefused = false } = {}) {
    Object.assign(this, empty());
    this.timeline.show([], this.log.count);
    faults.hide();
    if (isRefused) verdict.showNone(problem, "No log is open.", "no"); else verdict.showNone("No verdict", problem);
    for (const name of ["log", "audit"]) this.tellLines(name, "", "");
    $("audit-notes").textContent = "";
  }

  /* Looks for a witness after a no, which takes longer. */
  async search({ pi, tags, m, k, w }, signal) {
    const { no, answer, log } = this;
    if (!no || !answer.isSure) return;
    const slots = Math.min(log.count, no.slot + SEARCHED);
    const given = { pi, tags, m, slots, end: log.starts[slots] ?? log.end, isAll: slots === log.count };
    const failed = ({ message }) => ({ lost: null, shown: [], failure: message });
    const witness = w ? failed(NO_SEARCH) : await this.judge.ask("witness", given, { signal }).catch(failed);
    if (signal.aborted) return;
    this.witness = witness;
    verdict.showWitness({ ...this.witness, k }, this.actions);
    if (log.count > LONG) this.judge.stop();
  }

  actions = {
    goTo: (slot) => this.goTo(slot),
    lineOf: (line) => this.lineOf(line),
    lose: async (slot, first, last) => {
      this.lost = new Set(Array.from({ length: last - first + 1 }, (_, i) => first + i));
      await this.look();
      this.goTo(slot);
    },
  };

  marks() {
    const { slots, numbers, kinds } = this.answer?.audit.list ?? NO_FAULTS;
    return new Marks(slots, numbers, kinds.map((label) => ({ label, isSure: this.answer.isSure })));
  }

  lanes() {
    const { view, alone, codes, lost } = this;
    return [
      // a slot without a group may have been silent: it is not drawn as lost
      { name: "received", kind: "ticks", codes, lost }, { name: "faults", kind: "marks", marks: this.marks() },
      ...view.lanes("with rdsrt", {}, { strong: true, gap: 10 }), ...alone.lanes("ordinary radio", {}, { gap: 12 }),
    ];
  }

  lineAt(start) {
    const end = Math.min(logs.endOf(this.bytes, start), start + LONGEST_LINE);
    const text = decoder.decode(this.bytes.subarray(start, end)).trimEnd();
    return end === start + LONGEST_LINE ? `${text}…` : text;
  }

  /* Empty if slots may be missing before this one: at a break of the times, or if more than blocks is in a line. */
  elapsed(slot) {
    const { starts, count } = this.log;
    const { isFilled, notes } = this.recording;
    if (isFilled && !lines.noteOf(notes, "breaks")) return super.elapsed(slot);
    const isBare = !count || this.lineAt(starts[Math.min(slot, count - 1)]).length <= logs.BLOCKS;
    return isBare ? super.elapsed(slot) : "";
  }

  showSlot(slot) {
    const { bytes, log, view, alone, sent: air } = this;
    const group = logs.groupAt(bytes, log, slot);
    const sent = group ? `${KINDS[lines.codeOf(group, this.pi, this.tags)]} group` : "nothing received";
    const what = this.lost.has(slot) ? "lost" : sent;
    const led = this.answer ? what : "";
    const caption = `A receiver with rdsrt${this.w ? `, W = ${this.w}` : ""}`;
    const shown = radio($("log-radio"), caption, view, slot, { led, air, later: 2 });
    const other = radio($("log-alone"), "An ordinary radio", alone, slot, { air, later: 2 });
    this.why(whyNoMix(view, alone, slot));
    const rest = slot < log.count ? this.lineAt(log.starts[slot]).slice(logs.BLOCKS) : "";
    $("log-group").replaceChildren(...groups.ofSlot(bytes, log, slot, this), rest);
    this.putAddressSoon();
    return `${what}. A receiver with rdsrt: ${shown}. An ordinary radio: ${other}.`;
  }

  whatIsOpen() {
    const { pi, tags, running, padded } = this.asking();
    const [m, k, w] = ["m", "k", "w"].map((name) => this.value(name));
    const { ownKey, isPacked, lost } = this;
    const file = $("log-file-name").textContent;
    const settings = { pi, tags, running, padded, m, k, w, ownKey, isPacked, lost: [...lost], fill: $("log-fill").checked, file };
    return { content: this.file, settings };
  }

  options() {
    // an example may begin with lost slots
    const lost = this.lost.size || this.hadLost ? `&lost=${links.inLetters(this.lost)}` : "";
    const boxes = ["running", "padded"].filter((name) => $(`log-${name}`).checked).map((name) => `&${name}=1`);
    const [tags, fill] = [this.value("tags"), $("log-fill").checked];
    const more = `${tags === "11" ? "" : `&tags=${tags}`}${boxes.join("")}${fill ? "" : "&fill=0"}`;
    return `pi=${this.value("pi")}&${super.options()}${more}${lost}`;
  }

  settingsOf({ given, option }, { pi, tags = 11, running = false, padded = false, fill = true, lost = [] }) {
    return {
      pi: given.get("pi") ?? pi, lost: given.has("lost") ? links.slotsOf(given.get("lost")) : lost,
      running: option("running", 0, 1, Number(running)) === 1, padded: option("padded", 0, 1, Number(padded)) === 1,
      fill: option("fill", 0, 1, Number(fill)) === 1, tags: option("tags", 5, 13, tags),
    };
  }

  afterLink({ given }) {
    if ((given.has("pi") && given.get("pi") !== this.value("pi")) || !this.value("tags")) throw links.damaged();
  }

  begin(compiled) {
    super.begin(["pi", "m", "k", "w", "tags", "running", "padded"], () => this.look());
    $("log-fill").oninput = () => {
      Object.assign(this, empty(), { log: NO_LOG });
      this.look({ opens: true, pi: this.value("pi") });
    };
    Object.assign(this, { display: new Program(compiled, PATIENCE), judge: new Program(compiled), filler: new Program(compiled) });
    // a log finds its workers ready
    for (const program of [this.display, this.judge]) program.next();
    $("log-lose").onclick = () => this.lose([this.timeline.cursor]);
    $("log-spans").onchange = () => this.typed();
    $("log-go").onchange = () => this.go();
    $("log-unlose").onclick = () => { this.lost.clear(); this.look(); };
  }
}

export const logTab = new LogTab();
