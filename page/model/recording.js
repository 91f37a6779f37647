/* What the page judges and shows of a file. As `slots` does, it adds the lost slots by the times, leaves out groups without a
   time, and ends before a malformed line. What it did, and why, is in the numbers and in the notes of `slots`. */
import * as rdsrt from "../program/rdsrt.js";
import * as lines from "./lines.js";
import * as logs from "./slots.js";

const MARK = [0xEF, 0xBB, 0xBF];

/* Whether a line of the file begins with this line of the output. `slots` drops what is behind the time. */
function isFrom(file, at, output, from) {
  const end = logs.endOf(output, from);
  for (let i = 0; from + i < end; i++) if (file[at + i] !== output[from + i]) return false;
  return true;
}

/* The places in both of the groups that `slots` keeps, which are in the same order. */
function kept(file, output) {
  const [before, after] = [file, output].map(logs.groupsOf);
  const pairs = new Uint32Array(after.starts.length);
  let group = 0;
  for (let i = 0; i < pairs.length; i++) {
    while (group < before.starts.length && !isFrom(file, before.starts[group], output, after.starts[i])) group++;
    pairs[i] = group++;
  }
  const of = (all) => Uint32Array.from(pairs, (group) => all[group]);
  return { before, after, rows: of(before.lines), slots: of(before.slots) };
}

/* The bytes of the lines before this one. */
function head(bytes, line) {
  let end = 0;
  for (let i = 1; i < line && end < bytes.length; i++) end = logs.endOf(bytes, end) + 1;
  return bytes.subarray(0, end);
}

/* The lines before a malformed one, with what `slots` makes of them: after a malformed line it notes nothing else. */
function readBy(words, file) {
  const all = rdsrt.askForBytes(words, file);
  const bad = lines.noteOf(all.notes, "fault");
  if (!bad) return { ...all, read: file };
  const read = head(file, bad.line);
  const { output, notes } = rdsrt.askForBytes(words, read);
  return { output, notes: [...notes, bad], read };
}

/** @param {{ bytes: Uint8Array, m: number, wants: boolean }} given @returns {Recording} */
export function recordingOf({ bytes: given, m, wants }) {
  const hasMark = MARK.every((byte, i) => given[i] === byte);
  const file = hasMark ? given.subarray(MARK.length) : given;
  const { output, notes, read } = readBy(["slots", "--m", m], file);
  const noted = (kind) => lines.noteOf(notes, kind);
  const { before, after, rows, slots } = kept(read, output);
  const untimed = before.lines.length - rows.length;
  const added = after.count - (before.count - untimed);
  const hasTimes = rows.length > untimed && Boolean(added > 0 || untimed || noted("breaks") || noted("coarse"));
  // a file whose first slot is malformed has nothing before it
  const cut = before.count ? noted("fault")?.line ?? null : null;
  const told = { m, hasTimes, hasMark, added, untimed, cut, notes, rows };
  if (hasTimes && wants && !noted("coarse")) {
    return { ...told, isFilled: true, bytes: output, places: after.lines, slots: after.slots };
  }
  return { ...told, isFilled: false, bytes: before.count ? read : file, places: rows, slots };
}
