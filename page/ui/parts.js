/* Small pieces that the tabs share: numbers in words, templates of index.html, and the display of a radio. */
import { foursOf, kindOf, wordsOfTag } from "../model/displays.js";
import { hex } from "../model/lines.js";

export const number = (n) => n.toLocaleString("en");
/** @type {(id: string) => any} */
export const $ = (id) => document.getElementById(id);
/** @type {(tag: string, props?: object, ...inside: (string | Node)[]) => any} */
export const make = (tag, props = {}, ...inside) => {
  const element = Object.assign(document.createElement(tag), props);
  element.append(...inside);
  return element;
};
/* Copies a template. `given` has the words or nodes of elements, what buttons do, and which elements are there. */
/** @type {(id: string, given: Record<string, any>) => any[]} */
export function filled(id, given) {
  const copy = $(id).content.cloneNode(true);
  const named = (name) => copy.querySelectorAll(`[data-${name}]`);
  for (const it of named("if")) if (!given[it.dataset.if]) it.remove();
  for (const it of named("act")) it.onclick = given[it.dataset.act];
  // these may be copies of other templates, which have their own
  for (const it of named("value")) it.append(...[given[it.dataset.value]].flat());
  return [...copy.children];
}

/* The answer to a question, unless another look has taken the place of this one meanwhile. */
/** @param {AbortSignal} signal @param {Promise<any>} answer @returns {Promise<any>} */
export async function latest(signal, answer) {
  const it = await answer;
  signal.throwIfAborted();
  return it;
}

export const counted = (n, one) => `${number(n)} ${one}${n === 1 ? "" : "s"}`;
export const soon = (what) => {
  let timer = 0;
  return () => {
    clearTimeout(timer);
    timer = setTimeout(what, 120);
  };
};

export function problemOf(form) {
  // a browser takes 1e2 too, and the program does not
  const isBad = ({ validity, value }) => !validity.valid || /\D/.test(value);
  const bad = [...form.querySelectorAll("[type=number]")].find(isBad);
  if (!bad) return "";
  const name = bad.dataset.name ?? bad.labels[0].textContent.trim();
  return `${name} must be a whole number from ${number(Number(bad.min))} to ${number(Number(bad.max))}.`;
}

/* Characters that control or turn the direction become escapes. */
const CONTROLS = /[\u0000-\u001F\u007F-\u009F\u061C\u200E\u200F\u2028-\u202E\u2066-\u2069\uFEFF]/g;
const escaped = (text) => text.replace(CONTROLS, (c) => `\\u${hex(c.charCodeAt(0))}`);

export const isolated = (text) => make("bdi", { textContent: escaped(text) });

export function nodesOf(note) {
  // an apostrophe within a word quotes nothing
  const [, before, quoted, after] = /^(.*?)(?<!\w)(".*"|'.*')(.*)$/s.exec(note) ?? [];
  return quoted ? [escaped(before), isolated(quoted), escaped(after)] : [escaped(note)];
}

/* A sentence of the program, as it is. */
export const quoted = (text) => make("q", {}, ...nodesOf(text));

/* What screen readers hear of a cursor that moves: the newest words, at most once a second. */
const EACH = 1000;
let heard = "";
let timer = 0;
export function hear(words) {
  heard = words;
  if (timer || $("heard").textContent === words) return;
  $("heard").textContent = words;
  timer = setTimeout(() => {
    timer = 0;
    hear(heard);
  }, EACH);
}

/* Says beside a field why it is refused, or that it is not. */
export function refuse(field, why) {
  const place = $(field.getAttribute("aria-describedby"));
  field.ariaInvalid = why ? "true" : null;
  place.textContent = why;
  place.classList.toggle("no", Boolean(why));
}

/* Why a display is empty: by the word of the program. */
const EMPTY = {
  incomplete: "waits for all parts", dropped: "no part for M slots", restarted: "the receiver restarted",
};

const WORDS = {
  text: (text) => `“${text}”`, name: (name) => `name ${name.trim()}`, tag1: wordsOfTag, tag2: wordsOfTag,
};
const partsAt = (view, slot) => Object.entries(WORDS).map(([part, words]) => {
  const { value = null, state = "" } = view?.at(part, slot) ?? {};
  return { name: part.replace(/\d$/, ""), value, state, words: value !== null && words(value) };
});
const namesOf = (all) => [...new Set(all.map(({ name }) => name))];
const isStale = ({ state }) => state === "old" || state === "replaced";

/** @typedef {{ led?: string, none?: string, mixed?: string, air?: import("../model/displays.js").View, later?: number }} How */

/* The letters of a text in its hue; those of a mix, each four of them, in the hue of the text that has them there: one that this
   display showed, or else one on air. */
/** @param {How} how */
function lettersOf(view, slot, how) {
  const { air, later } = how;
  const { label, mix, shade } = view.parts.text.piece(view.parts.text.indexAt(slot));
  const hueOf = (letters, i) => view.shadeOf(letters, i, slot) ?? air?.shadeOf(letters, i, slot, later) ?? "";
  return (mix ? foursOf(label) : [label]).map((textContent, i) =>
    make("span", { className: `hue-${mix ? hueOf(textContent, i) : shade}`, textContent }));
}

/* Shows a display as a car has it, and returns it in words. `air` has the texts of the station, each so many texts later than it
   began. */
/** @param {How} how */
export function radio(root, caption, view, slot, how = {}) {
  const { led: calm = "", none: other, mixed: bad = "mix" } = how;
  const all = partsAt(view, slot);
  const [text, name, ...tags] = all;
  const none = other ?? EMPTY[view?.at("text", slot)?.why] ?? "no text";
  const mixes = namesOf(all.filter(({ state }) => state === "mix"));
  const pieces = tags.map(({ value }) => value).filter(Boolean).map((tag) =>
    make("span", {}, make("b", { textContent: kindOf(tag) }), tag.text));
  const mixed = mixes.includes("text") ? bad : `${mixes.join(" and ")}: ${bad}`;
  const led = mixes.length ? mixed : calm;
  const letters = text.value === null ? `— ${none} —` : lettersOf(view, slot, how);
  root.replaceChildren(...filled("display", { caption, led, name: name.value ?? "", text: letters, tags: pieces }));
  root.querySelector(".text").classList.toggle("none", text.value === null);
  root.classList.toggle("mixed", mixes.length > 0);
  root.ariaLabel = caption;
  const inWords = (it) => it.state === "on air" ? it.words : `${it.words}, ${it.state}`;
  return [...text.value === null ? [none] : [], ...all.filter(({ words }) => words).map(inWords)].join(", ");
}

export function staleAt(view, slot) {
  const stale = partsAt(view, slot).filter(isStale);
  if (stale[0]?.name === "text") return stale[0].state;
  return [...new Set(stale.map(({ name, state }) => `${name}: ${state}`))].join(", ");
}

/* Beside a mix: why the receiver with rdsrt shows no text. Empty in other slots. */
export function whyNoMix(view, alone, slot) {
  const run = view?.at("text", slot);
  if (alone?.at("text", slot)?.state !== "mix" || (run && run.value !== null)) return "";
  const { text: runs } = view.parts;
  const next = runs.find((i) => runs.isShown(i), runs.indexAt(slot) + 1);
  const none = `The receiver with rdsrt shows no text${run?.why ? `: ${EMPTY[run.why]}` : ""}.`;
  return next < 0 ? none : `${none} It shows the next one when it is complete: in slot ${number(runs.from(next))}.`;
}
