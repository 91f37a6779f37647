/* The answer of the audit. Its sentences are those of the program's notes, the other words are templates of index.html. */
import * as lines from "../model/lines.js";
import { $, counted, filled, number, quoted } from "./parts.js";

/* Shows a card, and says its heading to screen readers: the card itself changes often. */
function showCard(kind, ...elements) {
  $("verdict").className = `verdict ${kind}`.trim();
  $("verdict").replaceChildren(...elements);
  $("verdict-status").textContent = $("verdict").querySelector("h2").textContent;
}

export const showNone = (title, words, kind = "fault") => showCard(kind, ...filled("no-answer", { title, words }));

/** @param {Note} no */
function drawn({ slot, earlier, needed }) {
  if (earlier === undefined) return [];
  const right = number(earlier + needed);
  const [bracket] = filled("bracket", {
    earlier: number(earlier), slot: number(slot), have: counted(slot - earlier, "slot"), needed: number(needed), right,
  });
  bracket.style.setProperty("--have", `${(slot - earlier) / needed}`);
  bracket.ariaLabel = `From slot ${number(earlier)} to slot ${number(slot)}: ${counted(slot - earlier, "slot")}. `
    + `It needs ${number(needed)}, so the first right slot is ${right}.`;
  return [bracket];
}

/* Where a no is, by its line in the file: the sentence is that of the rule alone. A line with a time says itself when it was:
   slots may be missing before it. */
/** @param {Note} no */
function shownOf(no, { lineOf, goTo }) {
  const { fault, slot, line, time, rule, because } = no;
  const at = [`Slot ${number(slot)}`, `line ${number(lineOf(line))} of the file`, time].filter(Boolean).join(", ");
  return {
    fault, place: `slot ${number(slot)}`, goTo: () => goTo(slot), rule: quoted(rule), because, bracket: drawn(no), at: `${at}: `,
    cure: filled(fault === "NotOneText" && no.of === "name" ? "NotOneName" : fault, {}), time: !time && lines.time(slot),
  };
}

/** @param {Note} fault */
function faulty({ line, text }) {
  if (!line) return filled("no-answer", { title: "No verdict", words: quoted(text) });
  return filled("malformed", { line: number(line), reason: quoted(text) });
}

/* Whether coarse times may hide the slots that a no lacks: as many as `slots` counted too many, or any number at a break. */
/** @param {Note} no @param {Recording} recording */
function isHidden({ slot, earlier, needed }, { notes }) {
  const [coarse, breaks] = ["coarse", "breaks"].map((kind) => lines.noteOf(notes, kind));
  if (!coarse || breaks || earlier === undefined) return Boolean(coarse);
  return needed - (slot - earlier) <= (coarse.hides ?? coarse.slots - coarse.room);
}

const FIRST = "no lack few judged fault nothing no_group tags_elsewhere other_application".split(" ");

/* What limits the answer: notes of the audit, and those of `slots` on the recording. */
function doubtsOf(found, recording) {
  const { lack, few, tags_elsewhere: elsewhere, other_application: other } = found;
  const of = (kind) => lines.noteOf(recording.notes, kind);
  const [breaks, coarse, untimed, bad] = ["breaks", "coarse", "untimed", "fault"].map(of);
  const isFilled = recording.isFilled;
  return {
    lack, few, tags: elsewhere ?? other, coarse, broken: isFilled && breaks, untimed: isFilled && untimed,
    cut: recording.cut && bad, canFill: lack && recording.hasTimes && !isFilled && !coarse,
  };
}

/* The card is grey if the program notes that the log does not show enough. */
/** @returns {any[]} */
function answer({ audit, recording, m, k, w }, actions) {
  const found = Object.fromEntries(FIRST.map((kind) => [kind, lines.noteOf(audit.first, kind)]));
  const { no, judged, fault, few } = found;
  const given = doubtsOf(found, recording);
  const { lack, broken, canFill } = given;
  const late = k ? ` and K ${w ? "+ W - 1 " : ""}= ${number(k)}` : "";
  const dwell = `M = ${number(m)} (${lines.time(m)})${late}`;
  const words = Object.entries(given).map(([kind, note]) => [kind, note?.text && quoted(note.text)]);
  const doubts = filled("doubts", { ...Object.fromEntries(words), canFill });
  const isDoubted = Boolean(lack ?? (broken || (no && isHidden(no, recording))));
  const card = no && filled(isDoubted ? "doubted" : "refused", { ...shownOf(no, actions), dwell });
  if (no) return [isDoubted ? "empty" : "no", ...card, ...doubts];
  if (fault) return ["fault", ...faulty(fault)];
  const nothing = found.nothing ?? found.no_group;
  if (nothing) return ["empty", ...filled("nothing", { note: quoted(nothing.text) }), ...doubts];
  const covered = quoted(judged.text);
  if (lack ?? few ?? (broken || null)) return ["empty", ...filled("unsure", { dwell, covered }), ...doubts];
  const keeps = judged.slots - judged.empty === 1 ? "slot keeps" : "slots keep";
  const texts = judged.empty ? "the recorded texts" : "two texts";
  const upTo = recording.cut && ` up to line ${number(recording.cut - 1)}`;
  return ["", ...filled("passed", { upTo: upTo || "", dwell, keeps, texts, covered, missing: judged.empty > 0 }), ...doubts];
}

/* Returns the note of a no, and whether the card says yes or no. */
export function show(given, actions) {
  const [kind, ...elements] = answer(given, actions);
  showCard(kind, ...elements);
  return { no: lines.noteOf(given.audit.first, "no") ?? null, isSure: kind === "" || kind === "no" };
}

/** @param {Witness & { k?: number }} found */
export function showWitness({ slot, lost, shown, upto = null, failure = "", k = 0 }, actions) {
  if (!lost || !shown.length) {
    const given = { failure, upto: upto !== null && number(upto), isNone: !failure && upto === null, late: !failure && k };
    $("witness").replaceWith(...filled("no-witness", given));
    return;
  }
  const [first, last] = lost;
  const slots = first === last ? `slot ${number(first)}` : `slots ${number(first)} to ${number(last)}`;
  const given = { slots, shown: shown.join("; "), lose: () => actions.lose(slot, first, last) };
  $("witness").replaceWith(...filled("found-witness", given));
}
