/* Begins the page: its tabs, the examples, what is dropped on it, and the address. */
import * as rdsrt from "../program/rdsrt.js";
import * as links from "./links.js";
import { logTab } from "./log.js";
import { $, make } from "./parts.js";
import { road } from "./road.js";
import { scriptTab } from "./script.js";

const TABS = [logTab, scriptTab];
/* `files` counts the files that were chosen: only the newest one is opened. */
export const state = { ready: false, files: 0 };
/* The M and the K of a file: those that the program takes without options. */
const DEFAULTS = { m: 128, k: 0 };
const decoder = new TextDecoder("utf-8", { ignoreBOM: true });
const BEGIN = 10_000;
const MOST_UNPACKED = 180_000_000;
const [GZIP, UTF16] = [[0x1F, 0x8B], [0xFF, 0xFE]];

export function tab(it, { focus = false } = {}) {
  for (const other of TABS) {
    $(other.id).hidden = other !== it;
    Object.assign($(`tab-${other.id}`), { ariaSelected: other === it, tabIndex: other === it ? 0 : -1 });
  }
  if (focus) $(`tab-${it.id}`).focus();
  // both tabs share one legend
  $(it.id).querySelector(".explains").append($("legend"));
  $("legend").hidden = false;
  links.putAddress(it);
  for (const { timeline } of [it, road]) timeline.draw();
}

function beginTabs() {
  for (const it of TABS) {
    const button = $(`tab-${it.id}`);
    button.onclick = () => tab(it);
    button.onkeydown = (event) => {
      const to = { ArrowRight: 1, ArrowLeft: -1, Home: -TABS.indexOf(it), End: -1 - TABS.indexOf(it) }[event.key];
      if (to === undefined) return;
      event.preventDefault();
      tab(TABS.at((TABS.indexOf(it) + to) % TABS.length), { focus: true });
    };
  }
}

/* The content decides before the extension: a script has a comma in its first line, and a log has blocks there. */
const SCRIPT = /^\uFEFF?(?:\r?\n)*(?:-|text|name|tags|restart|"[a-z-]+"),/;
const LOG = /^\uFEFF?(?:(?:[<#%].*|[ \t]*)\r?\n)*(?:[\dA-Fa-f]{4}|----) (?:[\dA-Fa-f]{4}|----) /;
const isScript = (name, text) => SCRIPT.test(text) || (/\.csv$/i.test(name) && !LOG.test(text));

async function refuse(it, why) {
  tab(it);
  await it.refuse(why, DEFAULTS);
}

const begins = (bytes, mark) => mark.every((byte, i) => bytes[i] === byte);

/* The bytes of a file: unpacked if they are packed, and in UTF-8 if they are in UTF-16. Or why there are none. */
/** @returns {Promise<{ bytes?: Uint8Array, isPacked?: boolean, why?: string }>} */
async function bytesOf(file) {
  const buffer = await file.arrayBuffer().catch(() => null);
  if (!buffer) return { why: `The page cannot read ${file.name}.` };
  let bytes = new Uint8Array(buffer);
  const isPacked = begins(bytes, GZIP);
  if (isPacked) bytes = await links.squeezed(bytes, new DecompressionStream("gzip"), MOST_UNPACKED).catch(() => null);
  if (!bytes) return { why: `The page cannot unpack ${file.name}: it is damaged, or too long.` };
  if (begins(bytes, UTF16)) bytes = new TextEncoder().encode(new TextDecoder("utf-16le").decode(bytes));
  if (!bytes.length) return { why: `${file.name} is empty.` };
  if (bytes.subarray(0, BEGIN).includes(0)) return { why: `${file.name} is no text, so it is no log and no script.` };
  return { bytes, isPacked };
}

/* The program gets the bytes of a file as they are. The text that the page shows keeps a byte-order mark. */
export async function openFile(file) {
  const number = ++state.files;
  const { bytes, isPacked, why } = await bytesOf(file);
  if (state.files !== number) return;
  if (!bytes) { await refuse(logTab, why); return; }
  const it = isScript(file.name, decoder.decode(bytes.subarray(0, BEGIN))) ? scriptTab : logTab;
  const options = { ...DEFAULTS, ...it.numbers, file: file.name };
  const opened = it === scriptTab ? scriptTab.open(decoder.decode(bytes), { ...options, input: bytes })
    : logTab.open(bytes, { ...options, running: true, isPacked });
  tab(it);
  // the last answer may be below the fold, with the focus in it
  /** @type {HTMLElement | null} */ (document.activeElement)?.blur();
  scrollTo({ top: 0 });
  await opened;
}

function openFirst(files) { if (files.length) openFile(files[0]); }

/* Text that is neither a log nor a script may be meant for another window. */
function paste({ target, clipboardData }) {
  if (target.closest("input, textarea, dialog")) return;
  const text = clipboardData.getData("text");
  if (clipboardData.files.length) openFirst(clipboardData.files);
  else if (SCRIPT.test(text) || LOG.test(text)) openFile(new File([text], "pasted text"));
  else if (text.trim()) {
    const open = TABS.find(({ id }) => !$(id).hidden);
    links.tell(open.isStart ? road : open, "The pasted text is no log and no script.");
  }
}

function drops() {
  const over = (event) => {
    event.preventDefault();
    document.body.classList.toggle("over", event.type === "dragover");
  };
  document.ondragover = over;
  document.ondragleave = (event) => { if (!event.relatedTarget) over(event); };
  document.ondrop = (event) => {
    over(event);
    openFirst(event.dataTransfer.files);
  };
  document.onpaste = paste;
}

/* An empty field hears the choice of the same file again. */
function takeFile({ target }) {
  openFirst(target.files);
  target.value = "";
}

function beginExamples({ id }) {
  const select = $(`${id}-example`);
  const options = RDSRT_EXAMPLES[id].map(({ name }, i) => new Option(name, `${i}`));
  select.replaceChildren(...options, new Option("your own", ""));
  select.onchange = () => { if (select.value) location.hash = `${id}&example=${select.value}`; };
}

function beginStart() {
  $("log-start-examples").replaceChildren(...RDSRT_EXAMPLES.log.map(({ name }, i) =>
    make("li", {}, make("a", { href: `#log&example=${i}`, textContent: name, className: "button" }))));
}

function skip(event) {
  event.preventDefault();
  tab(logTab);
  [$("log-start-file"), logTab.timeline.canvas].find((it) => it.checkVisibility()).focus();
}

function exampleOf(it, number) {
  const example = RDSRT_EXAMPLES[it.id][number];
  const text = example.from ? rdsrt.run(example.from, example.text).output : example.text;
  return { text, options: { ...DEFAULTS, ...example, example: number } };
}

async function openIn(it, hash, example) {
  try {
    const linked = async () => ({ text: await links.textOf(it, hash), options: DEFAULTS });
    const { text, options } = example === null ? await linked() : exampleOf(it, example);
    if (it !== road) await links.open(it, hash, text, options);
    else await road.open(text, hash);
  } catch (error) {
    const why = links.whyNot(it, error);
    if (it !== road) await it.refuse(why, DEFAULTS);
    links.tell(it, why);
  }
}

/* Opens what was open at this step of the history. Returns whether it is kept. */
async function openKept() {
  const kept = links.keptBy(history.state);
  /** @type {import("./tab.js").Tab | undefined} */
  const it = TABS.find(({ id }) => id === kept?.id);
  if (!it) return false;
  const { settings, content } = kept;
  if (it.ownKey === settings.ownKey && !it.isStart) { tab(it); return true; }
  const opened = it.open(content, settings);
  tab(it);
  await opened;
  return true;
}

/* Opens what the address names: the start, a link, an example, or a tab alone. Shows its tab. */
async function openAddress() {
  if (await openKept()) return;
  const hash = location.hash.slice(1);
  const given = new URLSearchParams(hash);
  const linked = [road, ...TABS].find(({ id }) => given.get(id));
  /** @type {any} */
  const it = linked ?? TABS.find(({ id }) => id === hash.split("&")[0]) ?? logTab;
  const number = given.get("example");
  const example = /^\d+$/.test(number ?? "") && RDSRT_EXAMPLES[it.id]?.[number] ? number : null;
  // what is open already is left as it is
  const isOpen = hash === links.hashOf(it) && (it !== logTab || logTab.bytes.length > 0);
  const opens = !isOpen && (linked || example !== null);
  const wasStart = state.ready && logTab.isStart;
  if (it !== scriptTab) logTab.home(!isOpen && (!opens || it === road));
  if (opens) await openIn(it, hash, linked ? null : example);
  tab(it === road ? logTab : it);
  // the start is hidden then, so the focus goes to the same examples in the bar
  if (wasStart && !logTab.isStart && it === logTab) $("log-example").focus({ preventScroll: true });
}

/** @type {(query: string) => Iterable<HTMLInputElement & HTMLFormElement>} */
const all = (query) => document.querySelectorAll(query);

async function begin() {
  const compiled = await rdsrt.load().catch(({ message }) => {
    $("no-engine").textContent = "This browser cannot run the program. The page needs Chrome or Edge 123, Firefox 125, "
      + `Safari 17.5, or later. (${message})`;
  });
  $("loading").hidden = true;
  if (!compiled) return;
  document.querySelector("main").hidden = false;
  Object.assign(logTab, { road });
  beginTabs();
  for (const it of TABS) {
    it.begin(compiled);
    beginExamples(it);
  }
  beginStart();
  for (const field of all("[type=file]")) field.onchange = takeFile;
  $("skip").onclick = skip;
  road.begin(compiled, (text, options) => {
    const opened = scriptTab.open(text, options);
    // one step of the history
    tab(scriptTab, { focus: true });
    return opened;
  });
  const { text, options } = exampleOf(scriptTab, 0);
  await scriptTab.open(text, options);
  for (const form of all("form:not([method])")) form.onsubmit = (event) => event.preventDefault();
  drops();
  await openAddress();
  road.greet();
  window.onpopstate = openAddress;
  state.ready = true;
}
begin();
