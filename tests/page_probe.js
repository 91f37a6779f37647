"use strict";
/* What the tests of the page ask of it, run in it: `probe`. What a user sees or presses, a test asks of the document. */
const probe = (() => {
  const { logTab } = $log, { scriptTab } = $script, { road } = $road, { Program } = $program;
  const at = (id) => document.getElementById(id);
  const tabs = { log: logTab, script: scriptTab }, timelineOf = (tab) => (tabs[tab] ?? road).timeline;
  const laneOf = (timeline, name) => timeline.lanes.find((lane) => lane.name.trim() === name.trim());

  // ---- waiting

  /* What the page waits for besides its workers: files, links and the clipboard. `idle` waits for it too. */
  const awaited = new Set();
  function note(prototype, name) {
    const plain = prototype?.[name];
    if (plain) prototype[name] = function (...given) {
      const promise = plain.apply(this, given), done = () => awaited.delete(promise);
      awaited.add(promise);
      promise.then(done, done);
      return promise;
    };
  }
  note(Blob.prototype, "arrayBuffer");
  note(window.Clipboard?.prototype, "writeText");
  note(ReadableStreamDefaultReader.prototype, "read");

  /* Waits until the tabs have all their answers, and are drawn. */
  async function idle() {
    const all = [logTab, scriptTab, road];
    let work;
    do {
      work = all.map((it) => it.work);
      await Promise.allSettled([...work, ...awaited]);
      await new Promise((done) => setTimeout(done));
    } while (awaited.size || work.some((it, i) => it !== all[i].work));
    await new Promise((done) => { requestAnimationFrame(() => setTimeout(done)); });
  }

  /* Steps in the history count as such a wait until their event came. */
  for (const way of ["back", "forward"]) {
    const step = history[way].bind(history);
    history[way] = () => {
      const came = new Promise((done) => { window.addEventListener("popstate", () => setTimeout(done), { once: true }); });
      awaited.add(came);
      came.then(() => awaited.delete(came));
      step();
    };
  }

  /* The timers by which the page waits for a pause in what a user types: `soon` in ui/parts.js. */
  const PAUSE = 120, pauses = new Set(), { setTimeout: begin, clearTimeout: end } = window;
  window.setTimeout = (what, delay, ...given) => {
    const timer = begin(() => { pauses.delete(timer); what(...given); }, delay);
    if (delay === PAUSE) pauses.add(timer);
    return timer;
  };
  window.clearTimeout = (timer) => { pauses.delete(timer); end(timer); };

  /* Waits until the tabs have taken what was typed, and have all their answers. */
  async function settled() {
    await idle();
    while (pauses.size) await new Promise((done) => { begin(done, 5); });
    await idle();
  }

  /* Stops the clock by which a cursor plays: from then on it goes by what `pass` gives it. */
  const clock = { now: 0 }, nextFrame = requestAnimationFrame.bind(window);
  function stopClock() {
    clock.now = performance.now();
    performance.now = () => clock.now;
    window.requestAnimationFrame = (step) => nextFrame(() => step(clock.now));
  }

  /* Lets so many slots pass, and waits until they are shown. */
  async function pass(slots) {
    clock.now += 1000 * $lines.seconds(slots);
    for (let i = 0; i < 2; i++) await new Promise((done) => { nextFrame(done); });
  }

  /* Keeps back the answers of workers that fit, until `letGo`. */
  const { hear } = Program.prototype, letGo = () => { Program.prototype.hear = hear; };
  function keepBack(fits) {
    Program.prototype.hear = function (data) { if (!data.answer || !fits(data.answer)) hear.call(this, data); };
  }

  /* The longest task of the page, in milliseconds, while this goes on; tasks of less than 50 ms count as 0. */
  async function longestTask(what) {
    const all = [0], watcher = new PerformanceObserver((list) => all.push(...list.getEntries().map((it) => it.duration)));
    watcher.observe({ type: "longtask" });
    await what();
    await new Promise((done) => setTimeout(done, 100));
    watcher.disconnect();
    return Math.max(...all);
  }

  async function timeOf(what) {
    const from = performance.now();
    await what();
    return performance.now() - from;
  }

  /* The milliseconds that this machine takes now for a fixed piece of work with strings, as tasks of the page are. */
  function yardstick() {
    const from = performance.now();
    const words = Array.from({ length: 40_000 }, (_, i) => `${7919 * i % 40_000},text,Song ${i}`);
    words.join("\n").split("\n").sort().map((it) => it.split(","));
    return performance.now() - from;
  }

  // ---- what a user does

  const file = (name, content) => new File([typeof content === "string" ? content : Uint8Array.from(content)], name);
  const transfer = (all) => all.reduce((data, it) => { data.items.add(file(...it)); return data; }, new DataTransfer());
  const drop = (name, content) => dropAll([[name, content]]);
  function dropAll(all) {
    const dataTransfer = transfer(all);
    document.querySelector("h1").dispatchEvent(new DragEvent("drop", { dataTransfer, bubbles: true, cancelable: true }));
  }
  function pick(id, name, content) {
    at(id).files = transfer([[name, content]]).files;
    at(id).dispatchEvent(new Event("change"));
  }

  /* Chooses a value of a field. An address that it sets is open once its event came. */
  async function choose(id, value) {
    const hash = location.hash;
    at(id).value = value;
    at(id).dispatchEvent(new Event("input"));
    at(id).dispatchEvent(new Event("change"));
    if (location.hash !== hash) await new Promise((done) => { window.addEventListener("hashchange", done, { once: true }); setTimeout(done, 500); });
  }

  // ---- what the page holds

  const textOfLog = () => new TextDecoder("utf-8", { ignoreBOM: true }).decode(logTab.bytes);
  /* Status, output and notes of the program in the page over this text, or over these bytes. */
  function run(words, input) {
    const { status, output, notes } = $rdsrt.run(words, typeof input === "string" ? input : Uint8Array.from(input));
    return [status, output, notes.filter(Boolean).map((note) => note.replace(/^rdsrt: /, ""))];
  }

  /* Where a part of a display of a tab shows another value, with the value: the displays of a script have a number too. */
  const viewOf = (tab, which, receiver) => receiver === undefined ? tabs[tab][which] : tabs[tab][which][receiver];
  function runs(tab, which, part, receiver) {
    const all = viewOf(tab, which, receiver).parts[part];
    return Array.from(all.starts, (from, i) => ({ from, to: all.to(i), value: all.value(i) }));
  }

  const piecesOf = (list) => Array.from({ length: list?.length ?? 0 }, (_, i) => list.piece(i));
  /* The bars of the receivers' lanes of the script. */
  function bars() {
    const all = scriptTab.timeline.lanes.filter((lane) => lane.kind === "bars" && lane.group !== undefined);
    return all.map((lane) => piecesOf(lane.runs).map((run) => [lane.name, run.from, run.to, run.value, run.mix, run.old]));
  }

  /* What a display shows in each of so many slots: for each part its value, as the program prints it, and the word for it. */
  function displays(count, tab, which, receiver) {
    const view = viewOf(tab, which, receiver);
    const inWords = (value) => typeof value === "string" ? value : `${value.kind} "${value.text}"`;
    const of = (run) => run?.value == null ? null : [inWords(run.value), run.state];
    const all = (slot) => Object.fromEntries(Object.keys(view.parts).map((part) => [part, of(view.at(part, slot))]));
    return Array.from({ length: count }, (_, slot) => all(slot));
  }

  /* A place of the canvas in the window: the middle of a slot, and of the first lane with this name. */
  function place(tab, slot, name) {
    const timeline = timelineOf(tab);
    timeline.root.scrollIntoView();
    timeline.paint();
    const box = timeline.canvas.getBoundingClientRect(), lane = laneOf(timeline, name);
    return [box.left + timeline.x(slot + 0.5), box.top + lane.top + lane.height / 2];
  }

  // ---- what is to be seen

  const reader = document.createElement("canvas").getContext("2d", { willReadFrequently: true });
  function pixels(canvas, left, top, width, height) {
    const scale = canvas.width / canvas.clientWidth;
    Object.assign(reader.canvas, { width: canvas.width, height: canvas.height });
    reader.drawImage(canvas, 0, 0);
    return reader.getImageData(...[left, top, width, height].map((length) => Math.floor(length * scale))).data;
  }
  function rgba(color) {
    Object.assign(reader.canvas, { width: 1, height: 1 });
    reader.fillStyle = color;
    reader.fillRect(0, 0, 1, 1);
    return [...reader.getImageData(0, 0, 1, 1).data];
  }
  /* A colour of the style by its name. */
  const probed = document.body.appendChild(Object.assign(document.createElement("i"), { hidden: true }));
  const colour = (name) => { probed.style.color = `var(--${name})`; return getComputedStyle(probed).color; };

  /* In how many pixels of the lanes with this name each of these inks is to be seen. No cursor is drawn. */
  function inksOf(tab, name, ...inks) {
    const timeline = timelineOf(tab), { cursor } = timeline;
    timeline.cursor = -9;
    timeline.paint();
    const all = timeline.lanes.filter((lane) => lane.name.trim() === name.trim())
      .map(({ top, height }) => pixels(timeline.canvas, timeline.gutter, top, timeline.room, height));
    const count = ([r, g, b]) => all.reduce((sum, data) => sum + data.reduce((some, red, i) =>
      some + (i % 4 === 0 && red === r && data[i + 1] === g && data[i + 2] === b), 0), 0);
    timeline.cursor = cursor;
    return Object.fromEntries(inks.map((ink) => [ink, count(rgba(colour(ink)))]));
  }

  /* The same of the strip above the lanes. */
  function stripInks(tab, ...inks) {
    const timeline = timelineOf(tab);
    timeline.paint();
    const data = pixels(timeline.canvas, timeline.gutter, 0, timeline.room, timeline.head);
    const count = ([r, g, b]) => data.reduce((some, red, i) => some + (i % 4 === 0 && red === r && data[i + 1] === g && data[i + 2] === b), 0);
    return Object.fromEntries(inks.map((ink) => [ink, count(rgba(colour(ink)))]));
  }

  /* The shapes of the slots of a timeline's first lane: # where the colour is another one. And those of the legend. */
  function column(canvas, x, top) {
    const colours = Array.from({ length: 20 }, (_, y) => String(pixels(canvas, x, top + y + 0.5, 1, 1).slice(0, 4)));
    return colours.map((it) => it === colours[0] ? "." : "#").join("");
  }
  const fills = (rect, y) => y >= rect.y.baseVal.value && y < rect.y.baseVal.value + rect.height.baseVal.value;
  const swatch = (it) => Array.from({ length: 20 }, (_, y) => [...it.children].some((rect) => fills(rect, y)) ? "#" : ".").join("");
  const swatches = () => [...document.querySelectorAll(".legend svg")].map(swatch);
  function ticks(tab, count) {
    const timeline = timelineOf(tab);
    timeline.paint();
    return Array.from({ length: count }, (_, slot) => column(timeline.canvas, timeline.x(slot + 0.5), timeline.lanes[0].top));
  }

  const channel = (v) => v / 255 <= 0.03928 ? v / 255 / 12.92 : ((v / 255 + 0.055) / 1.055) ** 2.4;
  const light = (color) => rgba(color).slice(0, 3).map(channel).reduce((sum, it, i) => sum + it * [0.2126, 0.7152, 0.0722][i], 0);
  function ratio(one, other) {
    const [low, high] = [light(one), light(other)].sort((a, b) => a - b);
    return (high + 0.05) / (low + 0.05);
  }
  /* The colour behind an element: its own or that of the first element around it that has one. */
  function ground(element) {
    for (let e = element; e; e = e.parentElement) {
      const color = getComputedStyle(e).backgroundColor;
      // the system's Highlight is nearly opaque
      if (rgba(color)[3] > 200) return color;
    }
    return "#fff";
  }
  function hasText(e) {
    if (["radio", "checkbox", "range"].includes(e.type) || e.tagName === "OPTION" || e instanceof SVGElement) return false;
    const own = [...e.childNodes].some((node) => node.nodeType === Node.TEXT_NODE && node.data.trim());
    return (own || ["INPUT", "SELECT", "TEXTAREA"].includes(e.tagName)) && e.checkVisibility();
  }
  const SHADES = ["text-0", "text-1", "text-2", "name-0", "tags-0"].map((shade) => `shade-${shade}`);
  /* Pairs of colours that the canvas draws on each other, with a text, and without one. */
  const PAIRS = [
    ...SHADES.map((shade) => ["on-bar", shade]), ["on-wrong", "wrong"], ["dim", "card"], ["dim", "lane"],
    ...["lane", "chosen", "card"].flatMap((on) => [["text", on], ["bad", on], ["stale-text", on]]),
  ];
  const GRAPHICS = ["lane", "chosen"].flatMap((on) => [...SHADES, "other", "dim", "stale", "bad"].map((it) => [it, on]));
  /* How many texts are in sight, and those whose contrast is too low. */
  function contrasts(least) {
    const told = (e) => [e.textContent.slice(0, 40) || e.id, getComputedStyle(e).color, ground(e)];
    const all = [...document.querySelectorAll("body *")].filter(hasText).map(told);
    const drawn = PAIRS.map(([a, b]) => [`${a} on ${b}`, colour(a), colour(b)]);
    const low = [...all, ...drawn].filter(([, a, b]) => ratio(a, b) < least).map(([what, a, b]) => `${what} ${ratio(a, b).toFixed(2)}`);
    return [all.length, low];
  }
  /* Controls in sight whose border has too low a contrast with what is around them. */
  function faintBorders(least) {
    const all = [...document.querySelectorAll("main :is(input, select, textarea, button, .button, .numbers)")];
    const seen = all.filter((it) => it.checkVisibility() && !["checkbox", "file"].includes(it.type));
    const bordered = seen.map((it) => [it, getComputedStyle(it)]).filter(([, style]) => parseFloat(style.borderTopWidth) > 0);
    return bordered.filter(([it, style]) => ratio(style.borderTopColor, ground(it.parentElement)) < least).map(([it]) => it.id || it.textContent);
  }
  const faint = (least) => GRAPHICS.filter(([a, b]) => ratio(colour(a), colour(b)) < least).map((pair) => pair.join(" on "));

  return {
    bars, choose, colour, contrasts, displays, drop, dropAll, faint, faintBorders, idle, inksOf, keepBack, letGo, longestTask, pass, pick,
    place, run, runs, settled, stopClock, stripInks, swatches, textOfLog, ticks, timeOf, yardstick,
    isReady: () => $app.state.ready || at("no-engine").textContent !== "",
    codes: (tab, name) => [...laneOf(timelineOf(tab), name).codes],
    lanes: (tab) => timelineOf(tab).lanes.map(({ name }) => name),
    lose: (...slots) => logTab.lose(slots),
    lost: () => [...logTab.lost],
    move: (tab, slot) => timelineOf(tab).move(slot),
    open: (tab, text, options) => tabs[tab].open(text, options),
    openFile: (file) => $app.openFile(file),
    plays: (tab) => timelineOf(tab).play.frame !== 0,
    roadAsScript: () => road.text,
    moveCar: (slot) => road.timeline.move(slot),
    stopRoad: () => road.work.then(() => road.timeline.play.stop()),
    tunnels: () => road.tunnels.map(({ from, to }) => [from, to]),
    sight: (tab) => [timelineOf(tab).from, timelineOf(tab).across],
    zoom: (tab, from, to) => timelineOf(tab).zoomTo(from, to),
  };
})();
