/* Plays a script: what is on air, and what each receiver gets and shows, beside one with the flag bit alone. */
import * as rdsrt from "../program/rdsrt.js";
import * as displays from "./displays.js";
import * as lines from "./lines.js";
import * as records from "./records.js";

export const PI = "C201";

/* The kind of what a receiver gets in a slot. A group that has nothing to do with texts is not printed. */
export function kindHeard(codes, reception = "L", slot) {
  const [letter, rest] = [reception[0], reception.slice(1)];
  const source = slot - Number(rest);
  if (letter === "W") return lines.codeOf(lines.groupIn(`${PI} ${rest.match(/.{4}/g).join(" ")}`), null);
  return letter === "G" && source >= 0 ? codes[source] & ~lines.FLAG || lines.OTHER : lines.NOTHING;
}

function read({ output: text, notes }, count, values) {
  const codes = new Uint8Array(count);
  const replies = [];
  const found = displays.read(text, values, (slot, what, reply) => {
    if (what !== "sent") { replies.push({ slot, what, reply }); return; }
    codes[slot] = lines.markedCodeOf(lines.groupIn(reply), null);
  });
  // the rows from a bad one on are not played
  const { row } = lines.noteOf(notes, "fault") ?? {};
  const played = Math.min(count, row ? row - 1 : count);
  return { packed: (by) => found[by]?.packed(played), codes: codes.slice(0, played), replies, played };
}

export function play({ text, input = text, pty, m, k, w }) {
  const words = ["sim", "--pi", PI, "--pty", pty, "--m", m, "--k", k, ...rdsrt.windowWords(w), "--why"];
  const simulated = rdsrt.ask(words, input);
  const rows = records.read(text);
  const values = new displays.Values();
  const { packed, ...station } = read(simulated, rows.length, values);
  const radios = read(rdsrt.ask([...words, "--flag-alone"], input), rows.length, values);
  const each = [...rows[0]?.receptions.keys() ?? []];
  const heardBy = (i) =>
    Uint8Array.from(station.codes, (_, slot) => kindHeard(station.codes, rows[slot].receptions[i], slot));
  return {
    ...station, command: rdsrt.command(words), output: displays.beginOf(simulated.output), notes: simulated.notes,
    heard: each.map(heardBy),
    views: each.map((i) => packed(`r${i}`)), alone: each.map((i) => radios.packed(`r${i}`)),
    air: radios.packed("air"), values: values.packed(),
  };
}
