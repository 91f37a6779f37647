/* Reads what `audit --all` prints, a line for each fault, and what `witness` prints. */

const LINE = /^no (\d+) (\w+)$/gm;
const LOSE = /^lose (\d+)(?:-(\d+))?: ((\d+) .*)$/gm;
const UP_TO = / up to slot (\d+)$/m;

/* A log of a day may have hundreds of thousands of faults, so they are in typed arrays. */
export function read(output) {
  const kinds = [];
  const slots = [];
  const numbers = [];
  for (const [, slot, kind] of output.matchAll(LINE)) {
    if (!kinds.includes(kind)) kinds.push(kind);
    slots.push(Number(slot));
    numbers.push(kinds.indexOf(kind));
  }
  return { kinds, slots: Int32Array.from(slots), numbers: Uint8Array.from(numbers) };
}

export function witness(output) {
  const [found, ...more] = output.matchAll(LOSE);
  const stopped = UP_TO.exec(output);
  if (!found) return { lost: null, shown: [], upto: stopped && Number(stopped[1]) };
  const [, first, last = first, line, slot] = found;
  return { slot: Number(slot), lost: [Number(first), Number(last)], shown: [line, ...more.map((it) => it[3])], upto: null };
}
