/* The address: what is open, with its options, lost slots and slot. And links that hold a log or a script. */
import * as lines from "../model/lines.js";
import { $ } from "./parts.js";

/* The most bytes of a link, and of its text: a few letters can hold many bytes. */
const MOST = 8000;
export const MOST_PLAIN = 4_000_000;
/* No text of a link has more lines with a group. */
const MOST_SLOTS = MOST_PLAIN / 20;
/** @typedef {{ text: string | null, options: string, hash: string, isNow: boolean }} Link */
class Refusal extends Error {}
export const damaged = () => new Refusal("The link is damaged: an option of it is wrong.");
export const tooLong = (most) => new Refusal(`The link holds a road of more than ${most} slots. The page does not open it.`);
/* A link without it at its end was cut. */
const END = "&end";
const FROM_DISK = "This page was opened from a disk, so its links are of no use to others.";

/* Packs or unpacks, and reads no further than the bound. Returns null beyond it. */
/** @param {BlobPart} bytes @param {Packing} by @param {number} most */
export async function squeezed(bytes, by, most) {
  const pieces = [];
  let length = 0;
  // Safari has no iterator of a stream
  const reader = new Blob([bytes]).stream().pipeThrough(by).getReader();
  for (let { done, value } = await reader.read(); !done; { done, value } = await reader.read()) {
    length += value.length;
    if (length > most) return null;
    pieces.push(value);
  }
  return new Uint8Array(await new Blob(pieces).arrayBuffer());
}

async function pack(text) {
  const plain = new TextEncoder().encode(text ?? "");
  const isLong = text === null || plain.length > MOST_PLAIN;
  const bytes = isLong ? null : await squeezed(plain, new CompressionStream("deflate-raw"), MOST);
  return bytes && btoa(String.fromCharCode(...bytes)).replaceAll("+", "-").replaceAll("/", "_").replace(/=+$/, "");
}

async function unpack(id, packed) {
  const letters = atob(packed.replaceAll("-", "+").replaceAll("_", "/"));
  const given = Uint8Array.from(letters, (letter) => letter.charCodeAt(0));
  const bytes = await squeezed(given, new DecompressionStream("deflate-raw"), MOST_PLAIN);
  if (!bytes) throw new Refusal(`The link holds a ${id} of more than 4 MB. The page does not open it.`);
  return new TextDecoder("utf-8", { fatal: true, ignoreBOM: true }).decode(bytes);
}

/* What the address names: nothing, a tab, or an example. */
const nameOf = (hash) => /^\w*(?:&example=\d+)?/.exec(hash)[0];
const now = () => location.hash.slice(1);

/* What a visitor opened, which no address holds: a log or a script of the last steps, by their keys in the history. */
const MOST_KEPT = 6;
const MOST_BYTES = 100_000_000;
let newest = 0;
/** @type {Map<number, { id: string, content: string | Uint8Array, settings: any }>} */
const opened = new Map();
export const newKey = () => ++newest;
export const keptBy = (state) => opened.get(state?.own);

function keepContent(tab) {
  opened.delete(tab.ownKey);
  opened.set(tab.ownKey, { id: tab.id, ...tab.whatIsOpen() });
  const bytes = () => [...opened.values()].reduce((sum, { content }) => sum + content.length, 0);
  while (opened.size > MOST_KEPT || (opened.size > 1 && bytes() > MOST_BYTES)) opened.delete(opened.keys().next().value);
}

/* The hash of what a tab holds: its link, its example, or its name if it holds another input. */
export function hashOf(tab) {
  const { id, link } = tab;
  const example = $(`${id}-example`)?.value;
  if (link?.isNow) return link.hash;
  return example ? `${id}&example=${example}&${tab.options()}&slot=${tab.timeline.cursor}` : id;
}

/* Puts what a tab holds into the address, or the link of the road. Back leads to what was open before. */
export function putAddress(tab) {
  const { link } = tab.isStart ? tab.road : tab;
  const hash = tab.isStart ? link?.isNow && link.hash || "" : hashOf(tab);
  const own = !tab.isStart && nameOf(hash) === tab.id ? tab.ownKey : undefined;
  const before = history.state?.own;
  if ($(tab.id).hidden || (now() === hash && before === own)) return;
  const isSame = nameOf(now()) === nameOf(hash) ? before === own || before === undefined && now() !== tab.id
    : now() !== "" && hash.startsWith(now());
  // some browsers refuse it to a file
  try { history[isSame ? "replaceState" : "pushState"](own && { own }, "", `#${hash}`); } catch { /* the address stays */ }
}

function hold(tab, link) {
  tab.link = { ...link, isNow: true };
  putAddress(tab);
}

/* Drops the link of a tab if the tab holds another input by now. */
export function keep(tab) {
  const { link } = tab;
  const isNow = link?.text === tab.text && link.options === tab.options();
  if (link) link.isNow = isNow;
  if (tab.ownKey && hashOf(tab) === tab.id) keepContent(tab);
  putAddress(tab);
  if (isNow) return;
  tab.field("link").hidden = true;
  tell(tab, "");
}

export const tell = (tab, words) => { tab.field("saved").textContent = words; };

export async function give(tab) {
  const { id, text } = tab;
  const options = tab.options();
  const packed = await pack(text);
  const isShown = packed !== null && location.protocol !== "file:";
  tab.field("link").hidden = !isShown;
  if (packed === null) { tell(tab, `This ${id} is too long for a link.`); return; }
  hold(tab, { text, options, hash: `${id}=${packed}&${options}&slot=${tab.timeline.cursor}${tab.moreSight()}${END}` });
  if (isShown) await hand(tab); else tell(tab, FROM_DISK);
}

/* Hands the link on: a phone has a sheet for that, and a desk the clipboard. */
async function hand(tab) {
  const field = tab.field("link");
  field.value = `${location.href.split("#")[0]}#${tab.link.hash}`;
  if (navigator.share && matchMedia("(pointer: coarse)").matches) {
    const isShared = await navigator.share({ url: field.value }).then(() => true, () => false);
    tell(tab, isShared ? "The link was shared." : "This is the link: copy it.");
    return;
  }
  field.focus();
  field.select();
  try {
    await navigator.clipboard.writeText(field.value);
    tell(tab, "The link was copied.");
  } catch { tell(tab, "This is the link: copy it."); }
}

/* `within` gives a number within bounds or undefined. `option` gives one without which the link is damaged. */
export function optionsIn(hash) {
  const given = new URLSearchParams(hash);
  const within = (name, low, high) => {
    const number = /^\d{1,7}$/.test(given.get(name) ?? "") ? Number(given.get(name)) : NaN;
    return number >= low && number <= high ? number : undefined;
  };
  const option = (name, low, high, other) => {
    const number = given.has(name) ? within(name, low, high) : other;
    if (number === undefined) throw damaged();
    return number;
  };
  return { given, option, within };
}

export function textOf({ id }, hash) {
  if (!hash.endsWith(END)) throw new Refusal("The link was cut: copy the whole link.");
  return unpack(id, new URLSearchParams(hash).get(id));
}

export async function open(tab, hash, text, defaults) {
  const options = optionsIn(hash);
  const { option } = options;
  const isLink = hash.startsWith(`${tab.id}=`);
  const numbers = {
    // a link has its M
    m: option("m", 1, 65535, isLink ? undefined : defaults.m),
    k: option("k", 0, 1024, defaults.k),
    w: option("w", 2, 255, defaults.w ?? ""),
  };
  await tab.open(text, { ...defaults, ...numbers, ...tab.settingsOf(options, defaults) });
  tab.afterLink(options);
  tab.timeline.move(options.within("slot", 0, tab.timeline.count - 1) ?? tab.timeline.cursor, { keep: true });
  if (isLink) hold(tab, { text, options: tab.options(), hash });
}

/* Slots as a link has them: 2-4.9 is 2, 3, 4 and 9. Those from `most` on are left out. Null for other letters. */
export const inLetters = (slots) => lines.spansOf(slots).join(".");

/** @returns {Set<number> | null} */
export function slotsIn(letters, most) {
  const all = new Set();
  let next = 0;
  if (!letters) return all;
  if (!/^\d{1,7}(-\d{1,7})?(\.\d{1,7}(-\d{1,7})?)*$/.test(letters)) return null;
  for (const span of letters.split(".")) {
    const [first, last = first] = span.split("-").map(Number);
    if (first < next || last < first) return null;
    next = last + 1;
    for (let slot = first; slot <= last && slot < most; slot++) all.add(slot);
  }
  return all;
}

export function slotsOf(letters) {
  const all = slotsIn(letters, MOST_SLOTS);
  if (!all) throw damaged();
  return all;
}

export const whyNot = ({ id }, error) => error instanceof Refusal ? error.message : `The link has no ${id}.`;
