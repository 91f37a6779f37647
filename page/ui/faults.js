/* The list of the faults of a log, by the numbers of the notes of `audit --all`. */
import { $, counted, filled, number } from "./parts.js";

/* Which texts or names the number is of. Tags before the first text are of none. */
const OF = { text: (count) => counted(count, "text"), name: (count) => counted(count, "name") };

/* Where a fault is, with the line in the file. */
function whereIs(slot, line, time, { lineOf, goTo }) {
  const place = [`line ${number(lineOf(line))}`, time].filter(Boolean).join(", ");
  return { slot: `slot ${number(slot)}`, place: ` (${place})`, goTo: () => goTo(slot) };
}

/** @param {Note} note */
function item(note, actions) {
  const { fault, of, count, judged, harmless, because } = note;
  const first = whereIs(note.first_slot, note.first_line, note.first_time, actions);
  const last = whereIs(note.last_slot, note.last_line, note.last_time, actions);
  const among = OF[of] ? `${number(count)} of ${OF[of](judged)}` : "tags before the first text";
  return filled("fault", {
    fault, among, first: filled("place", first), isMore: count > 1, last: filled("place", last),
    harmless: harmless ? ` ${number(Number(harmless))} may be harmless, since ${because}.` : "",
  });
}

/** @param {{ list: FaultList, notes: Note[], isSure: boolean }} given */
export function show({ list, notes, isSure }, actions) {
  $("log-faults").hidden = list.slots.length === 0;
  $("log-faults").classList.toggle("unsure", !isSure);
  $("log-kinds").replaceChildren(...notes.filter(({ kind }) => kind === "faults").flatMap((note) => item(note, actions)));
}

export const hide = () => { $("log-faults").hidden = true; };
