/* The places of the slots in the bytes of a log. The program says which line is malformed: the page reads fixed places. */
import * as lines from "./lines.js";

const [NEWLINE, DASH] = [..."\n-"].map((letter) => letter.charCodeAt(0));
/* A line that begins with one of these letters, or is empty, is no slot. */
const SKIPPED = new Uint8Array(256);
for (const letter of "<#%\n\r") SKIPPED[letter.charCodeAt(0)] = 1;
export const BLOCKS = 19;
const PLACES = [0, 5, 10, 15];
const PER_STEP = 100_000;
const LOST = new TextEncoder().encode(lines.LOST);

const DIGITS = new Uint8Array(256);
for (const digit of "0123456789abcdefABCDEF") DIGITS[digit.charCodeAt(0)] = parseInt(digit, 16);

export function endOf(bytes, start) {
  let end = start;
  // a call of indexOf for each line takes twice as long
  while (end < bytes.length && bytes[end] !== NEWLINE) end++;
  return end;
}

const wordAt = (bytes, at) =>
  DIGITS[bytes[at]] << 12 | DIGITS[bytes[at + 1]] << 8 | DIGITS[bytes[at + 2]] << 4 | DIGITS[bytes[at + 3]];
const isMissing = (bytes, at) => bytes[at] === DASH;

export const blocksAt = (bytes, start) =>
  PLACES.map((place) => isMissing(bytes, start + place) ? null : wordAt(bytes, start + place));

/* Whether a line has all four blocks. A list of the places would take longer than all else. */
function isWhole(bytes, at) {
  const isFirstHalf = !isMissing(bytes, at) && !isMissing(bytes, at + 5);
  return isFirstHalf && !isMissing(bytes, at + 10) && !isMissing(bytes, at + 15);
}

/* Reads a log up to a malformed line: the first byte of each slot, where the slots end, and the programmes, by their
   numbers of groups. */
/** @param {(share: number) => void} tell */
export function read(bytes, malformed = Infinity, tell = () => {}) {
  const most = Math.floor((bytes.length + 1) / (BLOCKS + 1)) + 1;
  const starts = new Uint32Array(most);
  const counts = new Uint32Array(1 << 16);
  let count = 0;
  let start = 0;
  for (let number = 1; start < bytes.length && number < malformed; number++) {
    const isSlot = !SKIPPED[bytes[start]];
    if (isSlot) starts[count++] = start;
    if (isSlot && isWhole(bytes, start)) counts[wordAt(bytes, start)]++;
    // the line of a slot is no shorter than its blocks
    const end = endOf(bytes, isSlot ? start + BLOCKS : start);
    if (number % PER_STEP === 0) tell(end / bytes.length);
    start = end + 1;
  }
  const programmes = [];
  counts.forEach((groups, pi) => { if (groups) programmes.push([pi, groups]); });
  programmes.sort((one, other) => other[1] - one[1]);
  return { starts: starts.slice(0, count), count, end: Math.min(start, bytes.length), malformed, programmes };
}

/* The number of slots; and of those with a group the first byte, the line and the slot. */
export function groupsOf(bytes) {
  const most = Math.floor((bytes.length + 1) / (BLOCKS + 1)) + 1;
  const [starts, numbers, slots] = [0, 1, 2].map(() => new Uint32Array(most));
  let [count, groups] = [0, 0];
  for (let [start, number] = [0, 1]; start < bytes.length; number++) {
    const isSlot = !SKIPPED[bytes[start]];
    if (isSlot && isWhole(bytes, start)) {
      starts[groups] = start;
      numbers[groups] = number;
      slots[groups++] = count;
    }
    count += Number(isSlot);
    start = endOf(bytes, start) + 1;
  }
  return { count, starts: starts.subarray(0, groups), lines: numbers.subarray(0, groups), slots: slots.subarray(0, groups) };
}

/* Returns the group of a slot; null if a block is missing. */
export function groupAt(bytes, { starts, count }, slot) {
  const blocks = slot < count ? blocksAt(bytes, starts[slot]) : [null];
  return blocks.includes(null) ? null : blocks;
}

export function codes(bytes, { starts, count }, pi, tags) {
  const all = new Uint8Array(count);
  for (let slot = 0; slot < count; slot++) {
    const at = starts[slot];
    if (isWhole(bytes, at)) all[slot] = lines.markedCodeOf([wordAt(bytes, at), wordAt(bytes, at + 5)], pi, tags);
  }
  return all;
}

/* Calls while the bytes of the log are those of a receiver that loses these slots. */
export function whileLost(bytes, { starts, count }, lost, call) {
  const places = lost.filter((slot) => slot < count).map((slot) => starts[slot]);
  const kept = places.map((at) => bytes.slice(at, at + BLOCKS));
  for (const at of places) bytes.set(LOST, at);
  try { return call(); } finally { places.forEach((at, i) => bytes.set(kept[i], at)); }
}
