/* Calls the module: words and input go into its memory, and output, status and notes come back. */
const HEAP = 1 << 20;
const ROOM = 1 << 16;
const NOTES = 1 << 14;
const PAGE = 1 << 16;
const FAULT = "fault memory\n";
const NO_MEMORY = "no memory for this input: the page takes up to about 180 MB";
const encoder = new TextEncoder();
const decoder = new TextDecoder();
/** The exports of the module.
 *  @typedef {{ memory: WebAssembly.Memory, __heap_base: WebAssembly.Global, rdsrt_heap: Function, rdsrt_run: Function }} Exports
 *  @type {Exports} */
let module;

/* Compiles the module, which the page has packed in it: one that was opened from a disk may fetch nothing. */
export async function load() {
  const packed = Uint8Array.from(atob(RDSRT_ENGINE), (letter) => letter.charCodeAt(0));
  const plain = new Blob([packed]).stream().pipeThrough(new DecompressionStream("gzip"));
  const compiled = await WebAssembly.compile(await new Response(plain).arrayBuffer());
  await begin(compiled);
  return compiled;
}

/** @param {WebAssembly.Module} compiled */
export async function begin(compiled) {
  const { exports } = await WebAssembly.instantiate(compiled, {});
  module = /** @type {any} */ (exports);
}

function layout(words, input, room, heap) {
  const up = (place) => 16 * Math.ceil(place / 16);
  const ended = up(Number(module.__heap_base.value));
  const at = { ended, words: ended + 64 };
  at.input = up(at.words + words);
  at.output = up(at.input + input);
  at.notes = up(at.output + room);
  at.heap = at.notes + NOTES;
  at.end = at.heap + heap;
  return at;
}

/* Makes the memory as large as this. It has 4 GB at most, and a phone gives less. */
function grow(end) {
  const pages = Math.ceil((end - module.memory.buffer.byteLength) / PAGE);
  if (pages <= 0) return;
  try { module.memory.grow(pages); } catch { throw new Error(NO_MEMORY); }
}

/* One call. The program was compiled for 64 bits, so its calls take addresses and lengths as BigInts. */
function call(words, input, room, heap) {
  const at = layout(words.length, input.length, room, heap);
  grow(at.end);
  const bytes = new Uint8Array(module.memory.buffer);
  bytes.set(words, at.words);
  bytes.set(input, at.input);
  module.rdsrt_heap(BigInt(at.heap), BigInt(at.end));
  const given = [at.words, words.length, at.input, input.length];
  module.rdsrt_run(...[at.ended, ...given, at.output, room, at.notes, NOTES].map(BigInt));
  const ended = new DataView(module.memory.buffer, at.ended, 32);
  const [length, failures, noted] = [0, 8, 16].map((place) => Number(ended.getBigUint64(place, true)));
  return { at, length, failures, noted, status: ended.getUint8(24) };
}

const textAt = (at, length) => decoder.decode(new Uint8Array(module.memory.buffer, at, length));

/* A last note without room is left out. A line that is no object is a sentence. */
const notesOf = (text) => text.split("\n").slice(0, -1).map((line) => line.startsWith("{") ? JSON.parse(line) : line);

/* Runs the program, and again with more memory or room if it lacked them. The output stands in the module's memory. */
function ran(words, input) {
  const given = encoder.encode(["rdsrt", ...words].join("\n"));
  const bytes = typeof input === "string" ? encoder.encode(input) : input;
  let room = ROOM + 4 * bytes.length;
  let heap = HEAP + 2 * room;
  for (;;) {
    const { at, length, failures, noted, status } = call(given, bytes, room, heap);
    const last = Math.min(length, FAULT.length);
    if (failures > 0 || (length <= room && textAt(at.output + length - last, last) === FAULT)) heap *= 2;
    else if (length > room) {
      room = length;
      heap = Math.max(heap, HEAP + 2 * room);
    } else {
      const output = new Uint8Array(module.memory.buffer, at.output, length);
      return { status, output, notes: notesOf(textAt(at.notes, Math.min(noted, NOTES))) };
    }
  }
}

export function run(words, input) {
  const { output, ...more } = ran(words, input);
  return { output: decoder.decode(output), ...more };
}

export const ask = (words, input) => run([...words, "--json-notes"], input);

/* The same, with the bytes of the output. */
export function askForBytes(words, input) {
  const { output, ...more } = ran([...words, "--json-notes"], input);
  return { output: output.slice(), ...more };
}

export const tagWords = (tags) => tags === 11 ? [] : ["--rtplus", `${tags}A`];
export const windowWords = (window) => window ? ["--confirm", window] : [];
export const command = (words) => ["rdsrt", ...words].join(" ");
