/* Finds the slot that a person means: by its number, by the clock of the lines, or by the time since the first slot. */
import * as lines from "./lines.js";
import * as logs from "./slots.js";

const DAY = 86_400;
const LONGEST = 59;
/* The time of a line, behind its blocks: docs/FORMATS.md has its forms. */
const DATE = /^ @?(\d{4})[-/](\d\d)[-/](\d\d)[T ](\d\d):(\d\d):(\d\d(?:\.\d+)?)/;
const SECONDS = /^ (\d{1,12}(?:\.\d+)?)(?=\s|$)/;
const decoder = new TextDecoder();

const inSeconds = (hours, minutes, seconds) => 3600 * Number(hours) + 60 * Number(minutes) + Number(seconds);
/** @param {string[]} parts */
const ofDate = ([year, month, day, hours, minutes, seconds]) =>
  Date.UTC(Number(year), Number(month) - 1, Number(day)) / 1000 + inSeconds(hours, minutes, seconds);

/* The time of a slot: its text, its seconds, and whether it is one of a clock. Null if the line has none. */
function timeAt(bytes, { starts }, slot) {
  const start = starts[slot] + logs.BLOCKS;
  const rest = decoder.decode(bytes.subarray(start, Math.min(logs.endOf(bytes, start), start + LONGEST)));
  const date = DATE.exec(rest);
  if (date) return { text: date[0].replace(/^ @?/, ""), seconds: ofDate(date.slice(1)), isClock: true };
  const [, seconds] = SECONDS.exec(rest) ?? [];
  return seconds === undefined ? null : { text: seconds, seconds: Number(seconds), isClock: false };
}

/* The nearest slot with a time from this one on, by steps of 1 or -1, short of an end. */
function timed(bytes, log, slot, by, end) {
  for (let at = slot; at !== end; at += by) if (timeAt(bytes, log, at)) return at;
  return -1;
}

/* The last slot with a time up to this second, of two between which the clock passes it. */
function passing(bytes, log, seconds, first) {
  let [low, from, high] = [first, first, log.count];
  while (high - from > 1) {
    const middle = (from + high) >> 1;
    const at = timed(bytes, log, middle, -1, low);
    if (at < 0) from = middle;
    else if (timeAt(bytes, log, at).seconds <= seconds) [low, from] = [at, middle];
    else high = at;
  }
  return low;
}

/* What two or three numbers can mean on a clock: hours, minutes and seconds; hours and minutes; minutes and seconds of an hour
   of the log. */
/** @param {string[]} numbers @param {number[]} span */
function readings([one, two, three], [first, last]) {
  const midnight = Math.floor(first / DAY) * DAY;
  const days = Array.from({ length: Math.floor((last - midnight) / DAY) + 1 }, (_, day) => midnight + day * DAY);
  if (three !== undefined) return days.map((day) => day + inSeconds(one, two, three));
  const hours = days.flatMap((day) => Array.from({ length: 24 }, (_, hour) => day + 3600 * hour));
  return [...days.map((day) => day + inSeconds(one, two, 0)), ...hours.map((hour) => hour + inSeconds(0, one, two))];
}

/* All times that a text can mean, in seconds: a date has one, and other letters have none. */
function meanings(text, span) {
  const date = DATE.exec(` ${text}`);
  if (date) return [ofDate(date.slice(1))];
  const numbers = /^(\d{1,2}):(\d\d)(?::(\d\d(?:\.\d+)?))?$/.exec(text);
  return numbers ? readings(numbers.slice(1), span) : [];
}

const notThere = (from, to) => ({ why: `No slot has this time. The log goes from ${from.text} to ${to.text}.` });

function byClock(text, { bytes, log }, first, last) {
  const [from, to] = [first, last].map((slot) => timeAt(bytes, log, slot));
  const wanted = meanings(text, [from.seconds, to.seconds]).find((it) => it > from.seconds - 1 && it < to.seconds + 1);
  if (wanted === undefined) return notThere(from, to);
  const slot = passing(bytes, log, wanted + 0.005, first);
  const { text: own, seconds } = timeAt(bytes, log, slot);
  return { slot, says: `${wanted - seconds > 1 ? "No group came then. The one before it has" : "It has"} the time ${own}.` };
}

/* By the time since the first slot, if the lines have no clock. */
function since(text, { log }) {
  const [, hours = 0, minutes, seconds] = /^(?:(\d+):)?(\d+):(\d+(?:\.\d+)?)$/.exec(text) ?? [];
  const slot = minutes === undefined ? -1 : Math.floor(inSeconds(hours, minutes, seconds) / lines.SLOT);
  const [count, end] = [log.count.toLocaleString("en"), lines.time(log.count)];
  const isThere = slot >= 0 && slot < log.count;
  if (!isThere) return { why: `Give a slot below ${count}, or a time such as 1:30. The log has ${end}.` };
  return { slot, says: `It is ${lines.time(slot)} after the first slot.` };
}

function bySeconds(text, { bytes, log }, first, last) {
  const [from, to] = [first, last].map((slot) => timeAt(bytes, log, slot));
  const wanted = Number(text);
  if (!(wanted >= from.seconds && wanted <= to.seconds)) return notThere(from, to);
  const slot = passing(bytes, log, wanted, first);
  return { slot, says: `It has the time ${timeAt(bytes, log, slot).text}.` };
}

/** @param {string} text @param {{ bytes: Uint8Array, log: LogPlaces }} given
 *  @returns {{ slot?: number, says?: string, why?: string }} */
export function find(text, given) {
  const { bytes, log } = given;
  if (!text) return {};
  if (/^\d+$/.test(text)) return Number(text) < log.count ? { slot: Number(text) } : since("", given);
  const first = timed(bytes, log, 0, 1, log.count);
  const last = timed(bytes, log, log.count - 1, -1, -1);
  if (first < 0) return since(text, given);
  if (timeAt(bytes, log, first).isClock) return byClock(text, given, first, last);
  return /^\d+\.\d+$/.test(text) ? bySeconds(text, given, first, last) : since(text, given);
}
