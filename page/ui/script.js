/* The tab of a script: a station and up to eight receivers, each beside one with the flag bit alone. */
import { Texts, View } from "../model/displays.js";
import * as lines from "../model/lines.js";
import * as records from "../model/records.js";
import { Program } from "../program/program.js";
import * as links from "./links.js";
import { $, counted, number, quoted, radio, soon, staleAt, whyNoMix } from "./parts.js";
import { Tab } from "./tab.js";

const UNPLAYED = "not played";
const MOST_RECEIVERS = 8;
const MOST_SLOTS = 200_000;
const unplayed = () => ({
  played: 0, air: new View(), views: [], alone: [], heard: [], codes: new Uint8Array(0), fault: null, replies: new Map(),
});

class ScriptTab extends Tab {
  /** @type {records.Row[]} */ rows = [];
  /** @type {{ text: string, input: string | Uint8Array, file: string, example: string }} */
  opened = { text: "", input: "", file: "", example: "" };
  /** @type {View[]} */ views = [];
  /** @type {View[]} */ alone = [];
  /** @type {Uint8Array[]} */ heard = [];
  /** @type {Note | null} */ fault = null;
  /** @type {{ receiver: number, slot: number } | undefined} */ firstMix;
  /** @type {Program} */ program;
  air = new View();
  words = new Uint16Array(0);
  codes = new Uint8Array(0);
  replies = new Map();
  played = 0;
  chosen = 0;
  pty = "10";

  constructor() { super("script", { zooms: true, texts: true }); }

  get waitsFor() { return "Playing the script"; }
  get receivers() { return this.rows[0]?.receptions.length ?? 0; }

  choose(receiver) {
    this.chosen = Math.max(0, Math.min(receiver, this.receivers - 1));
    this.timeline.chosen = this.receivers ? this.chosen : null;
    this.timeline.move(this.timeline.cursor, { keep: true });
  }

  key(key) {
    const { chosen, receivers } = this;
    const by = { ArrowDown: 1, ArrowUp: -1 }[key];
    if (receivers && by) this.choose((chosen + receivers + by) % receivers);
    return receivers > 0 && by !== undefined;
  }

  /* `input` is what the program gets: of a file its bytes. */
  /** @param {string} text @param {any} [settings] */
  async open(text, settings = {}) {
    const { m, k, w = "", pty = "10", example = "", file = "", input = text } = settings;
    Object.assign(this, { pty, text, opened: { text, input, file, example }, ownKey: settings.ownKey ?? links.newKey() });
    this.setFields({ m, k, w });
    if (!await this.look({ fit: true })) return;
    const { text: onAir } = this.air.parts;
    const behindFirst = onAir.length ? onAir.from(0) + Number(this.value("m")) : this.timeline.cursor;
    if (this.firstMix) this.choose(this.firstMix.receiver);
    this.timeline.move(this.firstMix?.slot ?? behindFirst, { keep: true });
  }

  prepare() {
    const { opened, text } = this;
    this.rows = records.read(text);
    this.setFields({ example: text === opened.text ? opened.example : "" });
    this.nameFile(opened.file, text !== opened.text);
    links.keep(this);
    if (this.value("text") !== text) this.field("text").value = text;
  }

  async show(signal, { fit = false }) {
    const { text, opened } = this;
    const [m, k, w] = ["m", "k", "w"].map((name) => this.value(name));
    const input = text === opened.text && opened.input !== text ? opened.input : undefined;
    const played = await this.program.ask("play", { text, input, pty: this.pty, m, k, w }, { signal });
    const values = new Texts(played.values);
    const view = (packed) => new View(packed, values);
    Object.assign(this, played, {
      air: view(played.air), views: played.views.map(view), alone: played.alone.map(view),
      replies: new Map(played.replies.map((reply) => [reply.slot, reply])), fault: lines.noteOf(played.notes, "fault"),
    });
    this.air.shadeTexts();
    this.choose(this.chosen);
    this.timeline.show(this.lanes(), this.rows.length, { fit });
    this.tellLines("script", played.command, played.output);
    const wait = lines.noteOf(played.notes, "refused");
    this.tell(this.mixesInWords(), wait ? [quoted(wait.text), "."] : [], this.faultInNodes());
  }

  problem() {
    const { receivers, rows } = this;
    const isWide = receivers > MOST_RECEIVERS;
    if (!isWide && rows.length <= MOST_SLOTS) return super.problem();
    const has = isWide ? counted(receivers, "receiver") : counted(rows.length, "row");
    return `The script has ${has}. The page plays at most ${number(isWide ? MOST_RECEIVERS : MOST_SLOTS)}.`;
  }

  showProblem(problem, { isRefused = false } = {}) {
    Object.assign(this, unplayed());
    this.timeline.show([], this.rows.length);
    this.tellLines("script", "", "");
    this.tell("", [], [problem], isRefused);
  }

  tell(count, note, fault, isRefused = false) {
    $("script-count").textContent = count;
    $("script-note").replaceChildren(...note);
    $("script-fault").replaceChildren(...fault);
    $("script-fault").classList.toggle("no", isRefused);
  }

  lanes() {
    const receivers = this.heard.flatMap((codes, group) => [
      { name: `receiver ${group}`, kind: "ticks", codes, losses: true, group, gap: 14 },
      ...this.views[group].lanes("  with rdsrt", { group, gap: 2 }),
      ...this.alone[group].lanes("  ordinary radio", { group, gap: 2 }),
    ]);
    const sent = { name: "sent", kind: "ticks", codes: this.codes };
    return [sent, ...this.air.lanes("on air", {}, { strong: true, gap: 8 }), ...receivers];
  }

  /* That no receiver with rdsrt shows a mix is proved. */
  mixesInWords() {
    const mixes = this.alone.flatMap((view, receiver) => Object.entries(view.parts).flatMap(([part, runs]) =>
      runs.mixes().map((i) => ({ receiver, slot: runs.from(i), part: part.replace(/[12]$/, "") }))));
    mixes.sort((one, other) => one.receiver - other.receiver || one.slot - other.slot);
    this.firstMix = mixes[0];
    const count = (part) => mixes.filter((it) => it.part === part).length;
    const inWords = (part) => count(part) === 1 ? `a ${part}` : counted(count(part), part);
    const kinds = ["text", "name", "tag"].filter(count).map(inWords);
    if (this.receivers === 0 || this.fault) return "";
    if (!mixes.length) return "No receiver shows a mix here. Lose more slots: a whole text and the next flip of the flag.";
    const word = mixes.length === 1 ? "a mix" : "mixes";
    return `Ordinary radios show ${word}: ${kinds.join(" and ")}. With rdsrt none does.`;
  }

  faultInNodes() {
    if (!this.fault) return [];
    return [quoted(this.fault.text), ". The rows from this one on are not played."];
  }

  receptionInWords(letter, slot) {
    if (letter[0] !== "G") return { L: "loses", R: "restarts", W: "gets a wrong group" }[letter[0]] ?? "";
    return letter.length > 1 ? `gets slot ${slot - Number(letter.slice(1))}` : "gets";
  }

  showSlot(slot) {
    const { chosen, receivers, air } = this;
    const row = this.rows[slot];
    const reply = this.replies.get(slot);
    const [view, alone] = [this.views[chosen], this.alone[chosen]];
    const isPlayed = slot < this.played;
    const orUnplayed = (word) => isPlayed ? word : UNPLAYED;
    const none = isPlayed ? undefined : UNPLAYED;
    const named = (what) => receivers ? `Receiver ${chosen}, ${what}` : "No receiver";
    const got = orUnplayed(this.receptionInWords(row?.receptions[chosen] ?? "", slot));
    const sent = reply ? `${reply.what} ${reply.reply}` : orUnplayed(this.codes[slot] ? "sends" : "");
    const stale = { led: orUnplayed(staleAt(alone, slot)), none, air };
    const onAir = radio($("script-air"), "On air", air, slot, { led: sent, none: orUnplayed("silence") });
    const shown = radio($("script-radio"), named("with rdsrt"), view, slot, { led: got, none });
    const other = radio($("script-alone"), named("ordinary radio"), alone, slot, stale);
    this.why(whyNoMix(view, alone, slot));
    this.putAddressSoon();
    if (!isPlayed) return `${UNPLAYED}.`;
    const received = receivers ? ` Receiver ${chosen} ${got}: ${shown}. An ordinary radio: ${other}.` : "";
    return `On air ${onAir}.${received}`;
  }

  stop() { this.turn.abort(new Error("Playing was stopped")); }

  whatIsOpen() {
    const { text, pty, ownKey, opened: { input, file } } = this;
    const [m, k, w] = ["m", "k", "w"].map((name) => this.value(name));
    return { content: text, settings: { m, k, w, pty, ownKey, file, input: text === this.opened.text ? input : text } };
  }

  options() { return `${super.options()}&pty=${this.pty}`; }
  moreSight() { return `&receiver=${this.chosen}`; }
  settingsOf({ option }, { pty = 10 }) { return { pty: String(option("pty", 0, 31, Number(pty))) }; }
  afterLink({ within }) { this.choose(within("receiver", 0, this.receivers - 1) ?? this.chosen); }

  begin(compiled) {
    super.begin(["m", "k", "w"], () => this.look());
    this.program = new Program(compiled);
    const played = soon(() => this.look({ fit: true }));
    $("script-text").oninput = ({ target }) => {
      this.text = target.value;
      played();
    };
  }
}

export const scriptTab = new ScriptTab();
