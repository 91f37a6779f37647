/* Runs the program, so that the page never waits for it. A message is a request by its name. */
import * as rdsrt from "../program/rdsrt.js";
import * as answers from "./answers.js";
import * as displays from "./displays.js";
import * as lines from "./lines.js";
import * as logs from "./slots.js";
import * as player from "./player.js";
import * as recording from "./recording.js";

/** The log that is open, and what was shown of it last.
 *  @type {{ bytes: Uint8Array, log?: LogPlaces, pi?: string, tags?: number, values?: displays.Values, codes?: Uint8Array,
 *    alone?: Shown, whole?: Shown }} */
const state = { bytes: new Uint8Array(0) };
/* A receiver with this dwell is one with the flag bit alone (the_flag_alone_is_a_long_dwell of rds_safety). */
const LONGEST_DWELL = "65535";

function buffersIn(value) {
  if (ArrayBuffer.isView(value)) return [value.buffer];
  return value !== null && typeof value === "object" ? Object.values(value).flatMap(buffersIn) : [];
}

const run = (words, bytes = state.bytes) => rdsrt.ask(words, bytes);

const decoding = ({ pi, tags, m, w }) =>
  ["decode", "--pi", pi, "--m", m, ...rdsrt.tagWords(tags), ...rdsrt.windowWords(w), "--why"];

/** @typedef {{ words: (string | number)[], output: string, view: object }} Shown */
/* What a receiver shows of the log as it is now. The slots end at a line that the program finds malformed. */
function shownBy(words, values, before = null) {
  const { output, notes } = run(words);
  if (output === before?.output) return before;
  const malformed = lines.noteOf(notes, "fault")?.line ?? Infinity;
  if (state.log.malformed !== malformed) state.log = logs.read(state.bytes, malformed);
  return { words, output, view: displays.displayOf(output, values, state.log.count) };
}

/* What receivers show that lose nothing. It is asked for at each change of the lost slots, and kept. */
function wholeOf({ pi, tags, m, w }) {
  const words = decoding({ pi, tags, m, w });
  if (state.pi !== pi || state.tags !== tags) {
    const values = new displays.Values();
    const alone = shownBy(decoding({ pi, tags, m: LONGEST_DWELL, w: 0 }), values);
    const codes = logs.codes(state.bytes, state.log, parseInt(pi, 16), tags);
    Object.assign(state, { pi, tags, values, alone, codes, whole: null });
  }
  if (`${state.whole?.words}` !== `${words}`) state.whole = shownBy(words, state.values);
  return { whole: state.whole, alone: state.alone, codes: state.codes.slice(), sent: null };
}

/* What receivers show that lose these slots, with the mixes that `witness` names: it knows no window. No receiver with
   the dwell shows a mix of a log that passes the audit, and none that shows the same as one that loses nothing. */
function lossyOf({ pi, tags, m, w, lost, passes }) {
  const { codes, ...kept } = wholeOf({ pi, tags, m, w });
  const { values } = state;
  const again = (it) => shownBy(it.words, values, it);
  const both = () => ({ whole: again(kept.whole), alone: again(kept.alone) });
  const shown = logs.whileLost(state.bytes, state.log, lost, both);
  // witness prints nothing of a log with a malformed line
  const read = state.bytes.subarray(0, state.log.end);
  const losing = ["witness", "--pi", pi, "--m", m, ...rdsrt.tagWords(tags), "--lose", lines.spansOf(lost).join(",")];
  const mark = (which, ...more) => {
    if (shown[which] !== kept[which]) displays.markMixes(shown[which].view, run([...losing, ...more], read).output);
  };
  if (!w && !passes) mark("whole");
  mark("alone", "--flag-alone");
  for (const slot of lost) if (slot < codes.length) codes[slot] = lines.NOTHING;
  return { ...shown, codes, sent: kept.whole };
}

const auditing = ({ pi, tags, m, k, running, padded }, ...more) =>
  ["audit", ...more, "--pi", pi, "--m", m, "--k", k, ...rdsrt.tagWords(tags), ...running ? ["--running"] : [],
    ...padded ? ["--padded"] : []];

/* `first` has the notes of the audit that stops at the first fault: its rule, and whether the lines up to it lack slots. */
function audit(asked) {
  const words = auditing(asked, "--all");
  const { output, notes } = run(words);
  const list = answers.read(output);
  const first = list.slots.length ? run(auditing(asked)).notes : notes;
  return { list, notes, first, command: rdsrt.command(words), output: displays.beginOf(output) };
}

const REQUESTS = {
  fill: recording.recordingOf,

  keep({ bytes }) { Object.assign(state, { bytes, log: null, pi: "" }); },

  open(_, tell) {
    state.log = logs.read(state.bytes, Infinity, tell);
    return structuredClone(state.log);
  },

  /* What receivers show. If slots are lost, `sent` is what one shows that loses nothing. `log` has the slots if they are
     others than before. */
  decode(asked) {
    const before = state.log;
    state.log ??= logs.read(state.bytes);
    const { whole, alone, codes, sent } = asked.lost.length ? lossyOf(asked) : wholeOf(asked);
    const { words, output, view } = whole;
    return {
      command: rdsrt.command(words), output: displays.beginOf(output), values: state.values.packed(), codes,
      ...structuredClone({ view, alone: alone.view, sent: sent && sent.view, log: state.log === before ? null : state.log }),
    };
  },

  audit,

  /* It takes so many slots, which end at a byte, and may not be all. */
  witness({ pi, tags, m, slots, end, isAll }) {
    const words = ["witness", "--pi", pi, "--m", m, ...rdsrt.tagWords(tags)];
    const found = answers.witness(run(words, state.bytes.subarray(0, end)).output);
    return found.lost || found.upto !== null || isAll ? found : { ...found, upto: slots };
  },

  play: player.play,
  begin: rdsrt.begin,
};

onmessage = async ({ data: { call, given } }) => {
  try {
    const answer = await REQUESTS[call](given, (done) => postMessage({ done }));
    postMessage({ answer }, { transfer: [...new Set(buffersIn(answer))] });
  } catch ({ message }) { postMessage({ error: message }); }
};
