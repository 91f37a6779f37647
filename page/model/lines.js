/* Slots in time, and groups. docs/FORMATS.md has the forms of the lines. */

export const LOST = "---- ---- ---- ----";
export const SLOT = 104 / 1187.5;

export const seconds = (slots) => slots * SLOT;
/* Rounded first, so that no part comes to 60. */
export function time(slots) {
  const exact = seconds(slots);
  const whole = Math.round(exact);
  if (exact < 59.95) return `${exact.toFixed(exact < 9.995 ? 2 : 1)} s`;
  const minutes = Math.floor(whole / 60);
  const short = `${minutes % 60} min ${whole % 60} s`;
  return minutes < 60 ? short : `${Math.floor(minutes / 60)} h ${short}`;
}

export function spansOf(slots) {
  const spans = [];
  for (const slot of [...slots].sort((one, other) => one - other)) {
    const last = spans.at(-1);
    if (last && last[1] + 1 === slot) last[1] = slot; else spans.push([slot, slot]);
  }
  return spans.map(([first, last]) => first === last ? `${first}` : `${first}-${last}`);
}

export const hex = (n) => n.toString(16).toUpperCase().padStart(4, "0");
export const groupIn = (line) => line.split(" ").map((word) => parseInt(word, 16));

export const noteOf = (notes, kind) => notes.find((note) => note.kind === kind);

/* The second block has the group type with its version, and for a text its A/B flag and the address of its segment. */
const KIND_SHIFT = 11;
export const FLAG_BIT = 0x10;
export const typeOf = (group) => `${group[1] >> 12}${group[1] >> KIND_SHIFT & 1 ? "B" : "A"}`;

/* The kinds of groups. In a list of codes FLAG marks a text whose A/B flag is 1. */
export const NOTHING = 0;
export const TEXT = 1;
export const NAME = 2;
export const TAGS = 3;
export const OTHER = 4;
export const FLAG = 8;
/* The group types of the services, with their versions: 2A, 10A, and that of the tags, usually 11A. */
const SERVICES = { [2 << 1]: TEXT, [10 << 1]: NAME };
export function codeOf(group, pi, tags = 11) {
  if (!group || (pi !== null && group[0] !== pi)) return NOTHING;
  const kind = group[1] >> KIND_SHIFT;
  return kind === tags << 1 ? TAGS : SERVICES[kind] ?? OTHER;
}
export function markedCodeOf(group, pi, tags = 11) {
  const kind = codeOf(group, pi, tags);
  return kind === TEXT && group[1] & FLAG_BIT ? kind | FLAG : kind;
}
