/* A group in words and in colours: its type, flag and segment, and its blocks. */
import * as lines from "../model/lines.js";
import * as logs from "../model/slots.js";
import { make } from "./parts.js";

const TYPES = {
  "0A": "station name (PS), not read", "0B": "station name (PS), not read", "2A": "RadioText",
  "3A": "announcement of a data service", "4A": "clock time", "10A": "programme type name (PTYN)",
};
const TAGS = "data service (RadioText Plus, if announced)";
const SEGMENTS = { "2A": 0x0F, "10A": 0x01 };
const SERVICE = 0x1F;
const RADIOTEXT_PLUS = 0x4BD7;

const part = (meaning, textContent) => make("span", { className: meaning, textContent });

function details(words, type) {
  const [, second, , fourth] = words;
  const service = second & SERVICE;
  const aid = `AID ${lines.hex(fourth)}${fourth === RADIOTEXT_PLUS ? " (RadioText Plus)" : ""}`;
  if (type === "3A") return [`${aid} in group ${service >> 1}${service & 1 ? "B" : "A"}`];
  if (!(type in SEGMENTS)) return [];
  const flag = part("flag", `flag ${second & lines.FLAG_BIT ? "B" : "A"}`);
  return [flag, part("segment", `segment ${second & SEGMENTS[type]}`)];
}

/* In the second block of a text or a name, the first digit has the type, the third the flag, the last the segment. */
function blocksOf(words, type) {
  const [pi, second, ...others] = words.map((word) => word === null ? "----" : lines.hex(word));
  const [first, version, flag, segment] = second;
  const isRead = type in SEGMENTS;
  const parts = isRead ? [part("type", first), version, part("flag", flag), part("segment", segment)] : [second];
  return [part("pi", pi), " ", ...parts, ...others.flatMap((block) => [" ", isRead ? part("letters", block) : block])];
}

const dotted = (things) => things.flatMap((thing, i) => i ? [" · ", thing].flat() : thing);

export function ofSlot(bytes, log, slot, { pi, tags }) {
  if (slot >= log.count) return [];
  const words = logs.blocksAt(bytes, log.starts[slot]);
  if (words.every((word) => word === null)) return ["nothing received"];
  if (words.includes(null)) return dotted([blocksOf(words, ""), "not whole, so it counts as lost"]);
  const type = lines.typeOf(words);
  if (words[0] !== pi) return dotted([type, blocksOf(words, ""), "another programme"]);
  const meaning = type === `${tags}A` ? TAGS : TYPES[type];
  const name = part("type", meaning ? `${type} ${meaning}` : `${type}, not read`);
  return dotted([name, ...details(words, type), blocksOf(words, type)]);
}
