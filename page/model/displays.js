/* Displays over time. A worker packs them into typed arrays, since the log of a day may change its display a million
   times. The page draws what is in sight. */

/* The kind of each part. Texts have three shades. */
export const KIND_OF = { text: "text", name: "name", tag1: "tags", tag2: "tags" };
export const PARTS = Object.keys(KIND_OF);
const SHADES = 3;
export const NOTHING = -1;
/* What a run that shows something is, as the program says. */
const STATES = ["on air", "mix", "old", "replaced"];
/* Why a run shows nothing, as the program says. Nothing was shown before the first one. */
const WHYS = ["", "incomplete", "dropped", "restarted"];
const MOST_SHOWN = 400_000;

/* The distinct values of some displays, each with a number. */
export class Values {
  constructor() { this.numbers = new Map(); }

  numberOf(part, printed) {
    const value = `${KIND_OF[part]} ${printed}`;
    if (!this.numbers.has(value)) this.numbers.set(value, this.numbers.size);
    return this.numbers.get(value);
  }

  /* One text is handed over faster than many. Texts have their shades in turn. */
  packed() {
    const all = [...this.numbers.keys()];
    let texts = 0;
    const shadeOf = (value) => value.startsWith("text ") ? texts++ % SHADES : 0;
    let end = 0;
    const ends = Int32Array.from(all, ({ length }) => end += length);
    return { text: all.join(""), ends, shades: Uint8Array.from(all, shadeOf) };
  }
}

class Writer {
  parts = Object.fromEntries(PARTS.map((part) => [part, { starts: [], numbers: [], states: [], state: 0 }]));

  /** @param {Values} values */
  constructor(values) { this.values = values; }

  change({ starts, numbers, states }, slot, number, state) {
    const at = starts.at(-1) === slot ? starts.length - 1 : starts.length;
    [starts[at], numbers[at], states[at]] = [slot, number, state];
  }

  write(part, slot, said) {
    const runs = this.parts[part];
    const state = STATES.indexOf(said);
    const number = runs.numbers.at(-1) ?? NOTHING;
    if (state >= 0) runs.state = state;
    if (said.startsWith("none")) this.change(runs, slot, NOTHING, WHYS.indexOf(said.slice("none ".length)));
    else if (state < 0) this.change(runs, slot, this.values.numberOf(part, said), runs.state);
    else if (number !== NOTHING) this.change(runs, slot, number, state);
  }

  packed(end) {
    const pack = ({ starts, numbers, states }) =>
      ({ starts: Int32Array.from(starts), numbers: Int32Array.from(numbers), states: Uint8Array.from(states), end });
    return Object.fromEntries(PARTS.map((part) => [part, pack(this.parts[part])]));
  }
}

/* Gives the displays by who shows them: "r0", "air", or nobody's name. `tell` hears the other lines of `sim`. */
const LINE = /^(\d+) (?:(r\d|air) )?(\w+) ?(.*)$/;
export function read(output, values, tell = null) {
  const displays = {};
  // a million lines at once would take much memory
  for (let at = 0, end; at < output.length; at = end + 1) {
    end = output.indexOf("\n", at);
    if (end < 0) end = output.length;
    const [, slot, by = "", word, rest] = LINE.exec(output.slice(at, end)) ?? [];
    if (tell && slot && !by) tell(Number(slot), word, rest);
    else if (word in KIND_OF) (displays[by] ??= new Writer(values)).write(word, Number(slot), rest);
  }
  return displays;
}

export const displayOf = (output, values, count) => (read(output, values)[""] ?? new Writer(values)).packed(count);
export const beginOf = (output) => output.length > MOST_SHOWN ? `${output.slice(0, MOST_SHOWN)}…` : output;

/* Marks mixes by the lines of `witness --lose`, which are in order. */
const MIX = STATES.indexOf("mix");
export function markMixes(display, printed) {
  const from = {};
  for (const [, slot, , part] of printed.matchAll(new RegExp(LINE, "gm"))) {
    const { starts, states } = display[part];
    const at = starts.indexOf(Number(slot), from[part]);
    states[at] = MIX;
    from[part] = at;
  }
}

// ---- what the page reads

/* A class of RadioText Plus in small letters, as ITEM.ARTIST. */
export const kindOf = (tag) => tag.kind.replace(/^ITEM\./, "").toLowerCase();
export const wordsOfTag = (tag) => `${kindOf(tag)}: ${tag.text}`;
export function labelOf(value) {
  if (typeof value === "string") return value || "(empty)";
  return value && wordsOfTag(value);
}

/* The letters of a text by fours, as its segments have them. */
const FOUR = /(?:\\x[0-9A-F]{2}|[^]){1,4}/gu;
export const foursOf = (text) => text?.match(FOUR) ?? [];

export class Texts {
  /** @param {{ text: string, ends: Int32Array, shades: Uint8Array }} packed */
  constructor({ text, ends, shades }) {
    this.text = text;
    this.ends = ends;
    this.shades = shades;
  }

  at(number) {
    const packed = this.text.slice(number ? this.ends[number - 1] : 0, this.ends[number]);
    const [, tag, text] = /^\w+ (?:(\S+) )?"(.*)"$/.exec(packed);
    return tag === undefined ? text : { kind: tag, text };
  }
}

/* The last of `length` places whose slot is this one or before, or -1. */
export function lastAt(length, slotOf, slot) {
  let low = 0;
  let high = length;
  while (low < high) {
    const middle = (low + high) >> 1;
    if (slotOf(middle) <= slot) low = middle + 1; else high = middle;
  }
  return low - 1;
}

/* What a lane draws: entries in order of their slots. `piece(i)` makes what is drawn of an entry. */
class List {
  end = 0;

  /** @param {Int32Array} starts */
  constructor(starts) { this.starts = starts; }

  get length() { return this.starts.length; }
  from(i) { return this.starts[i]; }
  to(i) { return i + 1 < this.length ? this.starts[i + 1] : this.end; }
  isShown(i) { return i < this.length; }
  indexAt(slot) { return lastAt(this.length, (i) => this.starts[i], slot); }

  find(fits, from = 0) {
    for (let i = from; i < this.length; i++) if (fits(i)) return i;
    return -1;
  }

  /* The first entry from this one on that ends behind the slot. */
  firstBehind(slot, from = 0) {
    const i = Math.max(from, this.indexAt(slot));
    return i < this.length && this.to(i) <= slot ? i + 1 : i;
  }

  nearest(slot, by) {
    const isThere = (i) => by * (this.from(i) - slot) > 0 && this.isShown(i);
    let i = Math.max(0, this.indexAt(slot));
    while (i >= 0 && i < this.length && !isThere(i)) i += by;
    return this.starts[i];
  }
}

/* The runs [from, to) of a part of a display. */
class Runs extends List {
  /** @type {number[] | undefined} */ mixed;

  /** @param {typeof NO_RUNS} packed @param {Texts} values @param {string} kind */
  constructor({ starts, numbers, states, end }, values, kind) {
    super(starts);
    this.numbers = numbers;
    this.states = states;
    this.end = end;
    this.values = values;
    this.kind = kind;
  }

  isShown(i) { return this.numbers[i] !== NOTHING; }
  value(i) { return this.isShown(i) ? this.values.at(this.numbers[i]) : null; }
  state(i) { return this.isShown(i) ? STATES[this.states[i]] : ""; }
  isMix(i) { return this.state(i) === "mix"; }
  /* The entries that are mixes. A strip asks for them in each frame. */
  mixes() { return this.mixed ??= this.findMixes(); }

  findMixes() {
    const found = [];
    for (let i = 0; i < this.length; i++) if (this.isMix(i)) found.push(i);
    return found;
  }

  at(i) {
    const value = this.value(i);
    const why = value === null ? WHYS[this.states[i]] : "";
    return { from: this.from(i), to: this.to(i), value, state: this.state(i), why };
  }

  piece(i) {
    const { from, to, value, state } = this.at(i);
    const shade = value === null ? 0 : this.values.shades[this.numbers[i]];
    const old = state === "old" || state === "replaced";
    return { from, to, value, label: labelOf(value), kind: this.kind, shade, mix: state === "mix", old };
  }
}

export class Marks extends List {
  /** @param {Int32Array} starts @param {Uint8Array} numbers @param {{ label: string, isSure: boolean }[]} labels */
  constructor(starts, numbers, labels) {
    super(starts);
    this.numbers = numbers;
    this.labels = labels;
  }

  get isSure() { return this.labels.every(({ isSure }) => isSure); }

  to(i) { return this.starts[i] + 1; }
  piece(i) { return { from: this.starts[i], ...this.labels[this.numbers[i]] }; }
}

const NO_RUNS = { starts: new Int32Array(0), numbers: new Int32Array(0), states: new Uint8Array(0), end: 0 };

export class View {
  constructor(packed = {}, values = null) {
    const runsOf = (part) => new Runs(packed[part] ?? NO_RUNS, values, KIND_OF[part]);
    this.parts = Object.fromEntries(PARTS.map((part) => [part, runsOf(part)]));
  }

  at(part, slot) {
    const runs = this.parts[part];
    const i = runs.indexAt(slot);
    return i >= 0 && slot < runs.to(i) ? runs.at(i) : null;
  }

  /* Gives the texts of the station their shades in turn. */
  shadeTexts() {
    const { numbers, values } = this.parts.text;
    [...numbers].filter((number) => number !== NOTHING).forEach((number, i) => { values.shades[number] = i % SHADES; });
  }

  /* The shade of the newest text up to a slot, or up to so many texts later, that has these four letters at this place. */
  shadeOf(letters, i, slot, later = 0) {
    const { text } = this.parts;
    const has = (at) => !text.isMix(at) && foursOf(text.value(at))[i] === letters;
    let at = Math.min(text.indexAt(slot) + later, text.length - 1);
    while (at >= 0 && !has(at)) at--;
    return at < 0 ? null : text.piece(at).shade;
  }

  lanes(text, more, first) {
    const names = { text, name: "  its name", tag1: "  its tag 1", tag2: "  its tag 2" };
    const lane = (part) => ({ name: names[part], kind: "bars", runs: this.parts[part], gap: 3, ...more });
    const isShown = ({ runs }) => runs.find((i) => runs.isShown(i)) >= 0;
    return [{ ...lane("text"), ...first }, ...["name", "tag1", "tag2"].map(lane).filter(isShown)];
  }
}
