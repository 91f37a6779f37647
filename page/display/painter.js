/* Draws the lanes of a timeline, and nothing out of sight: a frame costs what its pixels do. */
import { lastAt } from "../model/displays.js";
import * as lines from "../model/lines.js";

/* The heights of the strip with all slots, and of the axis. */
export const STRIP = 16;
export const AXIS = 24;
/** A lane: ticks of groups by their codes, bars of what a display shows, or marks of faults. Painting gives it its place.
 *  @typedef {{ name: string, kind: string, strong?: boolean, group?: number, gap?: number, top?: number, height?: number,
 *    codes?: Uint8Array, lost?: Set<number>, losses?: boolean, runs?: any, marks?: import("../model/displays.js").Marks }} Lane */
const TICKS = 20;
const BARS = 22;
export const FONT = "system-ui, 'Noto Sans', 'DejaVu Sans', sans-serif";
const SHADES = ["text-0", "text-1", "text-2", "name-0", "tags-0"].map((shade) => `shade-${shade}`);
const INKS = [
  "card", "text", "dim", "line", "lane", "chosen", "bad", "wrong", "cursor", "stale", "stale-text", "on-bar",
  "on-wrong", "other", ...SHADES,
];
const INK_OF = {
  [lines.TEXT]: "shade-text-0", [lines.TEXT | lines.FLAG]: "shade-text-2", [lines.NAME]: "shade-name-0",
  [lines.TAGS]: "shade-tags-0", [lines.OTHER]: "other", [lines.NOTHING]: "dim",
};
const MODES = ["print", "(prefers-color-scheme: dark)", "(forced-colors: active)"];
const STEPS = [1, 2, 5, 10, 20, 50, 100, 200, 500, 1000, 2000, 5000, 10000, 20000, 50000, 100000, 200000];
const APART = 64;
const NEAR = 12;
/* The heights [from, to] of a tick by the code of its slot: kinds differ in shape as well as in colour. */
const TALL = 16;
const SHAPES = {
  [lines.TEXT]: [[0, TALL]], [lines.TEXT | lines.FLAG]: [[0, 6], [10, TALL]],
  [lines.NAME]: [[0, 7]], [lines.TAGS]: [[9, TALL]], [lines.OTHER]: [[6, 10]], [lines.NOTHING]: [[14, TALL]],
};
/* A lost slot differs in shape from one without a group. */
const LOST = [[0, 2], [14, TALL]];

/* The colours of the page's style. In forced colours these are the system's. */
function inks(root) {
  const probe = root.appendChild(document.createElement("i"));
  probe.style.forcedColorAdjust = "none";
  const ink = (name) => {
    probe.style.color = `var(--${name})`;
    return getComputedStyle(probe).color;
  };
  const all = Object.fromEntries(INKS.map((name) => [name, ink(name)]));
  probe.remove();
  return all;
}

export function watchInks(root, take) {
  for (const mode of MODES) matchMedia(mode).addEventListener("change", () => take(inks(root)));
  take(inks(root));
}

/* Sizes a canvas in pixels of the screen. What is above `top` is out of sight. */
export function sized(canvas, width, height, top = 0) {
  const scale = devicePixelRatio || 1;
  const [across, down] = [width, height - top].map((length) => Math.round(length * scale));
  if (canvas.style.height !== `${height - top}px`) canvas.style.height = `${height - top}px`;
  if (canvas.width !== across || canvas.height !== down) Object.assign(canvas, { width: across, height: down });
  const ctx = canvas.getContext("2d");
  ctx.setTransform(scale, 0, 0, scale, 0, -top * scale);
  ctx.clearRect(0, 0, width, height);
  return ctx;
}

/* Places the lanes under the strip, if there is one, and the axis. */
export function place(lanes, head) {
  let top = head + AXIS;
  for (const lane of lanes) {
    Object.assign(lane, { top: top + (lane.gap ?? 4), height: lane.kind === "ticks" ? TICKS : BARS });
    top = lane.top + lane.height;
  }
  return top + 6;
}

function rect(ctx, color, place, alpha = 1) {
  Object.assign(ctx, { fillStyle: color, globalAlpha: alpha });
  ctx.fillRect(...place);
  ctx.globalAlpha = 1;
}

function clipped(ctx, place, draw) {
  ctx.save();
  ctx.beginPath();
  ctx.rect(...place);
  ctx.clip();
  draw();
  ctx.restore();
}

function fillPoints(ctx, ...points) {
  ctx.beginPath();
  for (const [x, y] of points) ctx.lineTo(x, y);
  ctx.fill();
}

/* As much of a text as has room, with … in place of the rest. A letter or two would say nothing. */
function fitted(ctx, text, room) {
  if (ctx.measureText(text).width <= room) return text;
  const count = lastAt(text.length, (i) => ctx.measureText(`${text.slice(0, i + 1)}…`).width, room) + 1;
  return count > 2 ? `${text.slice(0, count).trimEnd()}…` : "";
}

function labels(ctx, sight, y, all) {
  for (const [slot, text] of all) {
    const x = Math.round(sight.x(slot)) + 3;
    if (x >= sight.gutter && x + ctx.measureText(text).width <= sight.width) ctx.fillText(text, x, y);
  }
}

function multiples(step, from, to) {
  const first = Math.ceil(from / step);
  const length = Math.max(0, Math.floor(to / step) - first + 1);
  return Array.from({ length }, (_, i) => (first + i) * step);
}

export const ends = ({ from, across }) => [Math.floor(from), Math.ceil(from + across) - 1];

function axis(ctx, sight, ink) {
  const slots = multiples(STEPS.find((it) => it / sight.across * sight.room > APART) ?? STEPS.at(-1), ...ends(sight));
  const middle = sight.head + AXIS - 12;
  ctx.font = `11px ${FONT}`;
  ctx.fillStyle = ink.line;
  for (const slot of slots) ctx.fillRect(Math.round(sight.x(slot)), middle - 6, 1, 12);
  ctx.fillStyle = ink.dim;
  ctx.fillText("slot", 4, middle);
  labels(ctx, sight, middle, slots.map((slot) => [slot, slot.toLocaleString("en")]));
}

/* Strokes at these slots, one a pixel. */
function strokes(ctx, starts, at) {
  let last = -1;
  for (let i = 0; i < starts.length; i++) {
    const x = Math.floor(at(starts[i]));
    if (x > last) ctx.fillRect(x, 3, 2, STRIP - 6);
    last = Math.max(x, last);
  }
}

/* All slots in a strip, with the faults and the mixes, and a frame around those in sight. */
function strip(ctx, lanes, sight, ink) {
  const { gutter, room, count, from, across } = sight;
  const at = (slot) => gutter + slot / count * room;
  rect(ctx, ink.lane, [gutter, 2, room, STRIP - 4]);
  Object.assign(ctx, { font: `11px ${FONT}`, fillStyle: ink.dim });
  ctx.fillText("all slots", 4, STRIP / 2 + 1);
  const frame = [at(from), 2, Math.max(4, at(from + across) - at(from)), STRIP - 4];
  if (across < count) rect(ctx, ink.cursor, frame, 0.25);
  for (const { marks: faults, runs } of lanes) {
    ctx.fillStyle = faults && !faults.isSure ? ink.dim : ink.bad;
    strokes(ctx, faults?.starts ?? runs?.mixes().map((i) => runs.from(i)) ?? [], at);
  }
  Object.assign(ctx, { strokeStyle: ink.cursor, lineWidth: 1.5 });
  if (across < count) ctx.strokeRect(...frame);
}

/* A lane of groups that were sent has no shape for a slot without one. */
function shapeOf({ lost, losses }, slot, code) {
  if (lost?.has(slot) || (losses && code === lines.NOTHING)) return LOST;
  return code === lines.NOTHING && !lost ? [] : SHAPES[code];
}

function wideTicks(ctx, lane, sight, ink) {
  const each = sight.room / sight.across;
  const width = Math.max(1, each > 4 ? each - 1 : each);
  const [first, last] = ends(sight);
  for (let slot = Math.max(0, first); slot <= Math.min(lane.codes.length - 1, last); slot++) {
    const code = lane.lost?.has(slot) ? lines.NOTHING : lane.codes[slot];
    for (const [from, to] of shapeOf(lane, slot, code)) {
      rect(ctx, ink[INK_OF[code]], [sight.x(slot), lane.top + 2 + from, width, to - from]);
    }
  }
}

/* Draws more slots than pixels: a column is as high as its share of groups. */
function narrowTicks(ctx, { codes, top }, sight, ink) {
  const each = sight.across / sight.room;
  for (let column = 0; column < sight.room; column++) {
    const from = Math.floor(sight.from + column * each);
    const some = codes.subarray(from, Math.max(from + 1, Math.floor(sight.from + (column + 1) * each)));
    const share = some.reduce((sum, code) => sum + (code !== lines.NOTHING), 0) / Math.max(1, some.length);
    rect(ctx, ink.other, [sight.gutter + column, top + 2 + TALL * (1 - share), 1, TALL * share]);
  }
}

function ground(ctx, piece, x, width, { top, height }, ink) {
  const { mix, old, kind, shade } = piece;
  ctx.beginPath();
  if (old && !mix && width > 4) {
    Object.assign(ctx, { strokeStyle: ink.stale, lineWidth: 1.5 });
    ctx.setLineDash([4, 2]);
    ctx.roundRect(x + 0.75, top + 1.75, width - 1.5, height - 3.5, 3.5);
    ctx.stroke();
    ctx.setLineDash([]);
    return;
  }
  ctx.fillStyle = ink[mix ? "wrong" : `shade-${kind}-${shade}`];
  if (width > 8) ctx.roundRect(x, top + 1, width, height - 2, 4);
  else ctx.rect(Math.round(x), top + 1, Math.max(1, Math.round(width)), height - 2);
  ctx.fill();
}

function bar(ctx, piece, x, end, lane, sight, ink) {
  const width = Math.max(1, end - x - (end - x > 6 ? 1 : 0));
  ground(ctx, piece, x, width, lane, ink);
  if (width <= 22) return;
  const start = Math.max(x, sight.gutter) + 6;
  const room = Math.min(x + width, sight.gutter + sight.room) - 4 - start;
  const label = fitted(ctx, (piece.mix ? "⚠ " : "") + piece.label, room);
  clipped(ctx, [x, lane.top, width - 3, lane.height], () => {
    const calm = piece.old ? "stale-text" : "on-bar";
    ctx.fillStyle = ink[piece.mix ? "on-wrong" : calm];
    ctx.fillText(label, start, lane.top + lane.height / 2 + 0.5);
  });
}

function bars(ctx, lane, sight, ink) {
  const { runs } = lane;
  const end = sight.from + sight.across;
  const edge = (slot) => sight.x(Math.min(Math.max(slot, sight.from - 1), end + 1));
  ctx.font = `12px ${FONT}`;
  for (let i = runs.firstBehind(sight.from); i < runs.length && runs.from(i) < end;) {
    const [from, to] = [edge(runs.from(i)), edge(runs.to(i))];
    if (runs.isShown(i) && runs.from(i) < runs.to(i)) bar(ctx, runs.piece(i), from, to, lane, sight, ink);
    i++;
    // of bars of less than a pixel, on to the first that reaches the next one
    const next = sight.from + (Math.floor(from - sight.gutter) + 1) / sight.room * sight.across;
    if (to - from < 1) i = runs.firstBehind(next, i);
  }
}

function mark(ctx, x, isSure, { top, height }, ink) {
  const middle = top + height / 2;
  ctx.fillStyle = isSure ? ink.bad : ink.text;
  ctx.fillRect(x - 1, top + 1, 2, height - 2);
  fillPoints(ctx, [x, middle], [x + 5, middle - 6], [x + 10, middle], [x + 5, middle + 6]);
}

/* Marks that are too close for their shapes are strokes, one a pixel. */
function marks(ctx, lane, sight, ink) {
  const all = lane.marks;
  const slots = sight.across / sight.room;
  const at = (i) => all.starts[i] ?? (i < 0 ? -Infinity : Infinity);
  const isNear = (i) => Math.min(at(i) - at(i - 1), at(i + 1) - at(i)) < NEAR * slots;
  ctx.font = `11px ${FONT}`;
  for (let i = all.firstBehind(sight.from - 1); i < all.length && at(i) <= sight.from + sight.across;) {
    const { label, isSure } = all.piece(i);
    const x = sight.x(at(i));
    if (isNear(i)) {
      rect(ctx, isSure ? ink.bad : ink.dim, [Math.floor(x), lane.top + 6, 1, lane.height - 9]);
      i = Math.max(i + 1, all.firstBehind(at(i) + slots, i));
      continue;
    }
    const start = x + 13;
    const room = Math.min(sight.x(at(i + 1)) - 4, sight.gutter + sight.room) - start;
    mark(ctx, x, isSure, lane, ink);
    ctx.fillStyle = ink.dim;
    if (ctx.measureText(label).width <= room) ctx.fillText(label, start, lane.top + lane.height / 2 + 0.5);
    i++;
  }
}

function laneOf(ctx, lane, sight, ink) {
  const { top, height } = lane;
  const { gutter, room } = sight;
  const ticks = room / sight.across < 2 ? narrowTicks : wideTicks;
  const isChosen = lane.group !== undefined && lane.group === sight.chosen;
  rect(ctx, isChosen ? ink.chosen : ink.lane, [gutter, top, room, height]);
  if (isChosen) rect(ctx, ink.cursor, [gutter - 4, top, 3, height]);
  ctx.font = `${lane.strong ? "600 " : ""}12px ${FONT}`;
  ctx.fillStyle = isChosen || lane.strong ? ink.text : ink.dim;
  ctx.fillText(fitted(ctx, lane.name, gutter - 10), 4, top + height / 2);
  clipped(ctx, [gutter, top, room, height], () => ({ ticks, bars, marks })[lane.kind](ctx, lane, sight, ink));
}

function cursor(ctx, sight, ink, height) {
  const start = sight.x(sight.cursor);
  const end = Math.max(sight.x(sight.cursor + 1), start + 2);
  const x = Math.max(sight.gutter, start);
  if (end < sight.gutter || x > sight.gutter + sight.room) return;
  const top = sight.head + AXIS;
  rect(ctx, ink.cursor, [x, top - 4, end - x, height - top - 2], 0.16);
  rect(ctx, ink.cursor, [x - 0.75, top - 4, 1.5, height - top - 2]);
  fillPoints(ctx, [x - 5, top - 9], [x + 5, top - 9], [x, top - 2]);
}

export function paint(ctx, lanes, sight, ink, height) {
  ctx.textBaseline = "middle";
  if (sight.head) strip(ctx, lanes, sight, ink);
  axis(ctx, sight, ink);
  for (const lane of lanes) laneOf(ctx, lane, sight, ink);
  cursor(ctx, sight, ink, height);
}
